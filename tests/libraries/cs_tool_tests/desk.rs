// A tree and an index, over which the tools are called one after another.
use crate::fixtures::indexed::search;
use crate::fixtures::jobs::job_of;
use cs_args::{Reply, ToolFault};
use cs_cindex::cindex;
use cs_fakes::{Item, MemTree};
use cs_search::Status;
use cs_tree::MemSink;
use std::alloc::{AllocError, Global};
use std::process::Abort;
use std::slice;
use std::test::Fail;

mod histories;
mod indexed;
mod indexes;

/// The index of the path `/v` without a file.
pub const ONE_PATH: &[u8] =
    b"csearch index 1\n/v\0\0\0\xff\xff\xff\0\0\0\0\0\0\0\0\x10\0\0\0\x14\0\0\0\x15\0\0\0\x19\0\0\0\x1d\ncsearch trailr\n";

pub const DONE: Reply = Reply::Done;

pub const MATCHED: Result<Status, ToolFault> = Ok(Status::Matched);

pub const NO_MATCH: Result<Status, ToolFault> = Ok(Status::NoMatch);

/// A change of the tree or a call, with the wanted outcome.
#[derive(Clone, Copy, Drop)]
pub enum Step<'a> {
    /// Puts a folder.
    Folder(&'a str),
    /// Puts a file with this text.
    File(&'a str, &'a [u8]),
    /// Puts a file whose reads fail after this text.
    Cut(&'a str, &'a [u8]),
    /// Puts an item that must not be read.
    Denied(&'a str),
    /// Puts an item that is neither a file nor a folder.
    Other(&'a str),
    /// Removes the path.
    Remove(&'a str),
    /// Replaces the index by these bytes, or removes it.
    Index(Option<&'a [u8]>),
    /// A job of `cindex`: its arguments, the reply, the output and the lines on standard error.
    Job(&'a [&'a str], Reply, &'a str, &'a str),
    /// A search by `csearch`: its arguments, separated by spaces, the answer, the output and the
    /// lines on standard error.
    Search(&'a str, Result<Status, ToolFault>, &'a str, &'a str),
    /// The index has these bytes, or there is none.
    Left(Option<&'a [u8]>),
}

/// Each step of each list is as wanted, from an empty tree and no index.
fn has_reports(rt: &(impl Abort + AllocGlobal), each: &[&[Step<'_>]]) -> Result<(), Fail> {
    for (i, steps) in each.iter().enumerate() {
        let wrong = wrong_step(rt.alloc(), *steps)?;
        assert!(rt; wrong.is_none(), "step {wrong:?} of {i}");
    }
    Ok(())
}

/// The index of the first step that is not as wanted, if there is one.
fn wrong_step(alloc: Global, steps: &[Step<'_>]) -> Result<Option<usize>, Fail> {
    let mut desk = Desk::new(alloc)?;
    for (i, step) in steps.iter().enumerate() {
        if !desk.takes_step(alloc, step)? {
            return Ok(Some(i));
        }
    }
    Ok(None)
}

#[derive(Drop)]
struct Desk {
    tree: MemTree,
    index: Option<Vec<u8>>,
}

impl Desk {
    /// An empty tree, and no index.
    fn new(alloc: Global) -> Result<Desk, AllocError> {
        Ok(Desk {
            tree: MemTree::new(alloc, 7)?,
            index: None,
        })
    }

    /// Does a step, and returns whether its outcome is as wanted.
    fn takes_step(&mut self, alloc: Global, step: &Step<'_>) -> Result<bool, Fail> {
        match *step {
            Step::Folder(path) => self.tree.put(path, Item::Folder)?,
            Step::File(path, text) => self.tree.put(path, Item::File(text.to_vec(alloc)?))?,
            Step::Cut(path, text) => self.tree.put(path, Item::Cut(text.to_vec(alloc)?))?,
            Step::Denied(path) => self.tree.put(path, Item::Denied)?,
            Step::Other(path) => self.tree.put(path, Item::Other)?,
            Step::Remove(path) => {
                self.tree.remove(path);
            }
            Step::Index(bytes) => self.index = copied(alloc, bytes)?,
            Step::Job(args, reply, out, err) => return self.does(alloc, args, reply, out, err),
            Step::Search(args, answer, out, err) => {
                return self.finds(alloc, args, answer, out, err);
            }
            Step::Left(bytes) => return Ok(self.index.as_deref() == bytes),
        }
        Ok(true)
    }

    /// Does a job of `cindex`, and returns whether the reply and the outputs are as wanted.
    fn does(
        &mut self,
        alloc: Global,
        args: &[&str],
        reply: Reply,
        out: &str,
        err: &str,
    ) -> Result<bool, Fail> {
        let jobs = [job_of(alloc, args)?];
        let mut replies = [DONE];
        let mut lines = MemSink::new(alloc, 1000);
        let mut faults = MemSink::new(alloc, 1000);
        let trees = slice::from_mut(&mut self.tree);
        self.index = cindex(
            alloc,
            self.index.take(),
            &jobs,
            trees,
            &mut replies,
            &mut lines,
            &mut faults,
        );
        Ok(replies[0] == reply && have(&lines, out, &faults, err))
    }

    /// Searches by `csearch`, and returns whether the answer and the outputs are as wanted.
    fn finds(
        &mut self,
        alloc: Global,
        args: &str,
        answer: Result<Status, ToolFault>,
        out: &str,
        err: &str,
    ) -> Result<bool, Fail> {
        let mut lines = MemSink::new(alloc, 1000);
        let mut faults = MemSink::new(alloc, 1000);
        let index = self.index.as_deref();
        let found = search(alloc, args, index, &mut self.tree, &mut lines, &mut faults)?;
        Ok(found == answer && have(&lines, out, &faults, err))
    }
}

/// Whether the two outputs have these texts.
pub fn have(lines: &MemSink, out: &str, faults: &MemSink, err: &str) -> bool {
    lines.bytes() == out.as_bytes() && faults.bytes() == err.as_bytes()
}

/// A copy of the bytes, if there are some.
fn copied(alloc: Global, bytes: Option<&[u8]>) -> Result<Option<Vec<u8>>, AllocError> {
    match bytes {
        Some(bytes) => Ok(Some(bytes.to_vec(alloc)?)),
        None => Ok(None),
    }
}
