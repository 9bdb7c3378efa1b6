// Worked examples, byte for byte, over trees in memory.
use crate::desk::ONE_PATH;
use crate::fixtures::jobs::job_of;
use crate::fixtures::tree_of;
use cs_args::{CindexFault, Reply};
use cs_cindex::cindex;
use cs_fakes::{Item, MemTree, PutFault};
use cs_tree::{MemSink, Sink};
use std::alloc::Global;
use std::test::Fail;

/// A job without an index, over the tree: the index after it, and its reply.
fn index_of(
    alloc: Global,
    tree: MemTree,
    args: &[&str],
    err: &mut MemSink,
) -> Result<(Option<Vec<u8>>, Reply), Fail> {
    let jobs = [job_of(alloc, args)?];
    let mut trees = [tree];
    let mut replies = [Reply::Done];
    let mut out = MemSink::new(alloc, 1000);
    let index = cindex(alloc, None, &jobs, &mut trees, &mut replies, &mut out, err);
    Ok((index, replies[0]))
}

/// A folder with a file that is not text, one that must not be read, one that fails, and an item
/// that is not a file.
fn odd_files(alloc: Global) -> Result<MemTree, PutFault> {
    let mut tree = tree_of(alloc, &[("/v", None), ("/v/a", Some("a\0"))])?;
    tree.put("/v/b", Item::Denied)?;
    tree.put("/v/c", Item::Cut(b"one".to_vec(alloc)?))?;
    tree.put("/v/d", Item::Other)?;
    Ok(tree)
}

/// Whether a job over the odd files leaves an index without them, and these lines.
fn leaves_out(alloc: Global, lines: &str) -> Result<bool, Fail> {
    let tree = odd_files(alloc)?;
    let mut err = MemSink::new(alloc, 1000);
    let (index, _reply) = index_of(alloc, tree, &["-logskip", "/v"], &mut err)?;
    Ok(index.as_deref() == Some(ONE_PATH) && err.bytes() == lines.as_bytes())
}

#[test]
fn the_faults_of_the_walk_come_first(rt: HostRuntime) -> Result<(), Fail> {
    let lines =
        "cindex: /v/b: permission denied\ncindex: /v/a: not indexed: NUL byte\ncindex: /v/c: cannot be read\n";
    assert!(rt; leaves_out(rt.alloc(), lines)?);
    Ok(())
}

/// Whether a job fails if the line on a missing path fits only in part.
fn is_rejected(alloc: Global) -> Result<bool, Fail> {
    let tree = MemTree::new(alloc, 4)?;
    let mut err = MemSink::new(alloc, 10);
    let (_index, reply) = index_of(alloc, tree, &["/v"], &mut err)?;
    Ok(
        reply == Reply::Refused(CindexFault::Write)
            && err.bytes() == b"cindex: /v".as_slice()
            && err.failures() == 1,
    )
}

#[test]
fn a_line_that_is_not_written(rt: HostRuntime) -> Result<(), Fail> {
    assert!(rt; is_rejected(rt.alloc())?);
    Ok(())
}
