// Failing reads, and endless inputs.
use crate::fixtures::jobs::job_of;
use crate::fixtures::{PLAIN, program_of};
use crate::searching::reports::answer_within;
use cs_args::{Reply, Style, ToolFault};
use cs_cindex::cindex;
use cs_fakes::{Item, MemTree, PutFault};
use cs_match::Program;
use cs_search::{GrepFault, ReadFault};
use cs_tree::{IoFault, MemSink, Source};
use std::alloc::Global;
use std::test::Fail;

/// A folder with a file whose reads give a letter and a NUL, and then fail.
fn cut_after_a_nul(alloc: Global) -> Result<MemTree, PutFault> {
    let mut tree = MemTree::new(alloc, 4)?;
    tree.put("/t", Item::Folder)?;
    tree.put("/t/c", Item::Cut(b"a\0".to_vec(alloc)?))?;
    Ok(tree)
}

/// Whether a job prints these lines on standard error.
fn has_reports(alloc: Global, args: &[&str], lines: &[u8]) -> Result<bool, Fail> {
    let jobs = [job_of(alloc, args)?];
    let mut trees = [cut_after_a_nul(alloc)?];
    let mut replies = [Reply::Done];
    let mut out = MemSink::new(alloc, 1000);
    let mut err = MemSink::new(alloc, 1000);
    let _index = cindex(
        alloc,
        None,
        &jobs,
        &mut trees,
        &mut replies,
        &mut out,
        &mut err,
    );
    Ok(err.bytes() == lines)
}

#[test]
fn a_rule_is_broken_before_a_read_fails(rt: HostRuntime) -> Result<(), Fail> {
    let alloc = rt.alloc();
    let line = b"cindex: /t/c: not indexed: NUL byte\n";
    assert!(rt;
        has_reports(alloc, &["-logskip", "/t"], line)? && has_reports(alloc, &["/t"], b"")?
    );
    Ok(())
}

/// An endless input: two bytes in turn, one per read.
#[derive(Drop)]
struct Endless {
    next: u8,
    then: u8,
}

impl Source for Endless {
    ghost failed = { λ _. 0 };

    ghost keeps_refl = { λ _. tt };

    ghost keeps_trans = { λ _ _ _ _ _. tt };

    fn read(&mut self, buf: &mut [u8]) -> Result<usize, IoFault> {
        if buf.is_empty() {
            return Ok(0);
        }
        buf[0] = self.next;
        (self.next, self.then) = (self.then, self.next);
        Ok(1)
    }

    fn failures(&self) -> u64 {
        0
    }
}

/// Whether a search of the first ten bytes of endless lines prints this and reports that the input
/// is too long.
fn prints_by(
    alloc: Global,
    program: &Program,
    style: Style,
    lines: &str,
) -> Result<bool, GrepFault> {
    let mut input = Endless {
        next: b'a',
        then: b'\n',
    };
    let mut out = MemSink::new(alloc, 1000);
    let answer = answer_within(alloc, program, &mut input, 10, 4, style, &mut out)?;
    Ok(out.bytes() == lines.as_bytes() && answer.fault == Some(ReadFault::TooLong))
}

/// The same for a search of `a`.
fn prints(alloc: Global, style: Style, lines: &str) -> Result<bool, ToolFault> {
    let program = program_of(alloc, "a")?;
    Ok(prints_by(alloc, &program, style, lines)?)
}

const COUNT: Style = Style {
    count: true,
    ..PLAIN
};

#[test]
fn a_search_without_an_end(rt: HostRuntime) -> Result<(), Fail> {
    let alloc = rt.alloc();
    assert!(rt; prints(alloc, PLAIN, "t:a\nt:a\nt:a\nt:a\nt:a\n")? && prints(alloc, COUNT, "")?);
    Ok(())
}
