// A tree with one failing call: by itself, and below each tool.
use crate::fixtures::indexed::search;
use crate::fixtures::jobs::{index_of, index_over, job_of};
use crate::fixtures::{TreeItem, files, tree_of};
use cs_args::{Reply, Tool, ToolFault};
use cs_cindex::cindex;
use cs_fakes::{FuseTree, MemTree, PutFault};
use cs_search::{Status, cgrep};
use cs_tree::{MemSink, MemSource, Tree};
use std::alloc::Global;
use std::str::from_utf8;
use std::test::Fail;

/// Two files, one of them in a folder of its own.
const TWO_FILES: &[TreeItem<'static>] = &[
    ("/a", None),
    ("/a/b", None),
    ("/a/b/f", Some("one\n")),
    ("/a/g", Some("two\n")),
];

/// The tree, whose call of this number fails.
fn fused(alloc: Global, k: u64) -> Result<FuseTree<MemTree>, PutFault> {
    Ok(FuseTree::new(tree_of(alloc, TWO_FILES)?, k))
}

/// Whether exactly the third call of a tree fails.
fn third_fails(alloc: Global) -> Result<bool, PutFault> {
    let mut tree = fused(alloc, 3)?;
    let mut buf = [0u8; 8];
    Ok(
        tree.kind("/a/g").is_ok()
            && tree.open("/a/g").is_ok()
            && tree.read(&mut buf).is_err()
            && tree.read(&mut buf).is_ok()
            && tree.failures() == 1,
    )
}

#[test]
fn one_call_fails(rt: HostRuntime) {
    assert!(rt; third_fails(rt.alloc()) == Ok(true));
}

/// Whether the answer of a tool is that of a tree without failures, except for one file, which it
/// reports; and the number of failed calls.
type Run = (bool, u64);

/// The output without failures.
const LINE: &[u8] = b"/a/b/f:one\n";

/// The name in the only line on standard error.
fn blamed<'a>(tool: &str, lines: &'a [u8]) -> Option<&'a str> {
    let line = from_utf8(lines).ok()?.strip_prefix(tool)?;
    line.strip_suffix(": cannot be read\n")
}

/// Whether a search that reports this name prints these lines: only the line of a reported file may
/// be missing.
fn is_printed(name: Option<&str>, lines: &[u8]) -> bool {
    match name {
        None | Some("/a/g") => lines == LINE,
        Some("/a/b/f") => lines == LINE || lines.is_empty(),
        Some(_) => false,
    }
}

/// The outcome of such a search.
fn search_came(
    answer: Result<Status, ToolFault>,
    tool: &str,
    out: &MemSink,
    err: &MemSink,
    failures: u64,
) -> Run {
    let name = blamed(tool, err.bytes());
    let status = if out.bytes().is_empty() {
        Status::NoMatch
    } else {
        Status::Matched
    };
    let is_reported = name.is_some() == (failures == 1) && name.is_none() == err.bytes().is_empty();
    (
        answer == Ok(status) && is_reported && is_printed(name, out.bytes()),
        failures,
    )
}

/// A search of both files, in which the call of this number fails.
fn grepped(alloc: Global, k: u64) -> Result<Run, Fail> {
    let job = files::job_of(alloc, "one /a/b/f /a/g")?;
    let mut tree = fused(alloc, k)?;
    let mut input = MemSource::new(b"", 1, false);
    let mut out = MemSink::new(alloc, 1000);
    let mut err = MemSink::new(alloc, 1000);
    let answer = cgrep(alloc, &job, &mut tree, &mut input, &mut out, &mut err);
    Ok(search_came(answer, "cgrep: ", &out, &err, tree.failures()))
}

/// The same by their index.
fn searched(alloc: Global, k: u64) -> Result<Run, Fail> {
    let index = index_of(alloc, &["/a"], TWO_FILES)?;
    let mut tree = fused(alloc, k)?;
    let mut out = MemSink::new(alloc, 1000);
    let mut err = MemSink::new(alloc, 1000);
    let args = "-brute one";
    let answer = search(alloc, args, Some(&index), &mut tree, &mut out, &mut err)?;
    Ok(search_came(answer, "csearch: ", &out, &err, tree.failures()))
}

/// The index of the files, except for those at this path or below it.
fn index_without(alloc: Global, path: Option<&str>) -> Result<Vec<u8>, Fail> {
    let mut tree = tree_of(alloc, TWO_FILES)?;
    if let Some(path) = path {
        tree.remove(path);
    }
    index_over(alloc, &["/a"], tree)
}

/// A job on both files, in which the call of this number fails.
fn indexed(alloc: Global, k: u64) -> Result<Run, Fail> {
    let jobs = [job_of(alloc, &["-reset", "/a"])?];
    let mut trees = [fused(alloc, k)?];
    let mut replies = [Reply::Done];
    let mut out = MemSink::new(alloc, 1000);
    let mut err = MemSink::new(alloc, 1000);
    let index = cindex(
        alloc,
        None,
        &jobs,
        &mut trees,
        &mut replies,
        &mut out,
        &mut err,
    );
    let failures = trees[0].failures();
    let name = blamed("cindex: ", err.bytes());
    let want = index_without(alloc, name)?;
    let is_reported = name.is_some() == (failures == 1) && name.is_none() == err.bytes().is_empty();
    let is_done = replies[0] == Reply::Done && out.bytes().is_empty();
    Ok((
        is_done && is_reported && index.as_deref() == Some(want.as_slice()),
        failures,
    ))
}

/// A run of a tool in which the call of this number fails.
fn run(alloc: Global, tool: Tool, k: u64) -> Result<Run, Fail> {
    match tool {
        Tool::Cindex => indexed(alloc, k),
        Tool::Csearch => searched(alloc, k),
        Tool::Cgrep => grepped(alloc, k),
    }
}

/// The first call whose failure is not reported in this way, or the number of calls if there is
/// none.
fn calls(alloc: Global, tool: Tool) -> Result<Result<u64, u64>, Fail> {
    for k in 1..100 {
        let (is_right, failures) = run(alloc, tool, k)?;
        if !is_right || failures > 1 {
            return Ok(Err(k));
        }
        if failures == 0 {
            return Ok(Ok(k - 1));
        }
    }
    Ok(Err(100))
}

/// Each tool, and the number of its calls: kinds and entries of two folders, kinds of two files,
/// and for each file that is read an open, two reads of two bytes, and one at the end.
const CALLS: &[(Tool, u64)] = &[(Tool::Cindex, 14), (Tool::Csearch, 8), (Tool::Cgrep, 8)];

#[test]
fn each_call_fails(rt: HostRuntime) -> Result<(), Fail> {
    for (tool, count) in CALLS {
        let came = calls(rt.alloc(), *tool)?;
        assert!(rt; came == Ok(*count), "{count} calls: {came:?}");
    }
    Ok(())
}
