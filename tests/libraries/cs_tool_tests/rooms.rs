// Outputs with less capacity than a tool prints: the tool fails, has filled the output, and leaves
// the index unchanged.
use crate::fixtures::indexed::{GOOGLE, search};
use crate::fixtures::jobs::{index_of, job_of};
use crate::fixtures::{files, tree_of};
use cs_args::{CindexFault, Reply, ToolFault};
use cs_cindex::cindex;
use cs_fakes::ONE_FILE;
use cs_search::Status;
use cs_tree::MemSink;
use std::alloc::Global;
use std::test::Fail;

/// The call: the arguments of a search by `cgrep` or by `csearch`, or those of a job over
/// `ONE_FILE`.
#[derive(Clone, Copy, Drop)]
enum Call<'a> {
    Grep(&'a str),
    Search(&'a str),
    Job(&'a [&'a str]),
}

/// The call, whether standard error has little capacity (otherwise the output has), and what is
/// printed there.
const ROWS: &[(Call<'static>, bool, &str)] = &[
    (
        Call::Search("Google.*Search"),
        false,
        "/g/1:Google Search\n",
    ),
    (
        Call::Grep("one /t/c /t/p"),
        false,
        "/t/c:one\n/t/p:one\n/t/p:one\n",
    ),
    (Call::Grep("-c one /t/p"), false, "/t/p: 2\n"),
    (Call::Grep("-l -c one /t/p"), false, "/t/p\n"),
    (Call::Grep("-n -h one /t/p"), false, "1:one\n3:one\n"),
    (
        Call::Grep("one /t/c /t/p"),
        true,
        "cgrep: /t/c: cannot be read\n",
    ),
    (
        Call::Job(&["-logskip", "/s"]),
        true,
        "cindex: /s/n: not indexed: NUL byte\n",
    ),
    (Call::Job(&["-list"]), false, "/a\n"),
];

/// Whether a search fails with `Write`.
fn is_write(answer: Result<Status, ToolFault>) -> Result<bool, Fail> {
    match answer {
        Ok(_) => Ok(false),
        Err(ToolFault::Write) => Ok(true),
        Err(fault) => Err(Fail::from(fault)),
    }
}

/// A search of three files by their index.
fn searched(
    alloc: Global,
    args: &str,
    out: &mut MemSink,
    err: &mut MemSink,
) -> Result<Result<Status, ToolFault>, Fail> {
    let index = index_of(alloc, &["/g"], GOOGLE)?;
    let mut tree = tree_of(alloc, GOOGLE)?;
    search(alloc, args, Some(&index), &mut tree, out, err)
}

/// Whether a job fails with `Write`, and leaves the index unchanged.
fn job_is_rejected(
    alloc: Global,
    args: &[&str],
    out: &mut MemSink,
    err: &mut MemSink,
) -> Result<bool, Fail> {
    let jobs = [job_of(alloc, args)?];
    let mut trees = [tree_of(alloc, &[("/s", None), ("/s/n", Some("a\0"))])?];
    let mut replies = [Reply::Done];
    let old = Some(ONE_FILE.to_vec(alloc)?);
    let index = cindex(alloc, old, &jobs, &mut trees, &mut replies, out, err);
    match replies[0] {
        Reply::Done => Ok(false),
        Reply::Refused(CindexFault::Write) => Ok(index.as_deref() == Some(ONE_FILE.as_slice())),
        Reply::Refused(fault) => Err(Fail::from(fault)),
    }
}

/// Whether a call fails with `Write`, and leaves the index unchanged.
fn is_rejected(
    alloc: Global,
    call: Call<'_>,
    out: &mut MemSink,
    err: &mut MemSink,
) -> Result<bool, Fail> {
    match call {
        Call::Grep(args) => is_write(files::run(alloc, args, out, err)?),
        Call::Search(args) => is_write(searched(alloc, args, out, err)?),
        Call::Job(args) => job_is_rejected(alloc, args, out, err),
    }
}

/// Whether a call fills this capacity, and fails exactly if it is too small.
fn fills(
    alloc: Global,
    call: Call<'_>,
    are_faults: bool,
    whole: &[u8],
    room: usize,
) -> Result<bool, Fail> {
    let mut little = MemSink::new(alloc, room);
    let mut much = MemSink::new(alloc, 1000);
    let failed = if are_faults {
        is_rejected(alloc, call, &mut much, &mut little)?
    } else {
        is_rejected(alloc, call, &mut little, &mut much)?
    };
    Ok(failed == (room < whole.len()) && whole.get(..room) == Some(little.bytes()))
}

#[test]
fn each_room_is_filled(rt: HostRuntime) -> Result<(), Fail> {
    for (call, are_faults, printed) in ROWS {
        let whole = printed.as_bytes();
        for room in 0..=whole.len() {
            assert!(rt;
                fills(rt.alloc(), *call, *are_faults, whole, room)?,
                "{printed} with room for {room} bytes"
            );
        }
    }
    Ok(())
}
