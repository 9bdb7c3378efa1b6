// The paths of a stored index, with a failing read.
use crate::fixtures::jobs::job_of;
use cs_cindex::{JobCall, cindex_stored};
use cs_fakes::{MemTree, one_file_until};
use cs_tree::{IoFault, MemSink, Store};
use std::alloc::Global;
use std::test::Fail;

/// The number of reads of a listing of `ONE_FILE`; no posting list is read.
const READS: usize = 7;

/// Whether a job of `-list` whose reads fail after this number gives this answer (whether it is
/// done), this output and this number of failures.
fn lists(
    alloc: Global,
    reads: usize,
    answer: Result<bool, IoFault>,
    printed: &str,
    failures: u64,
) -> Result<bool, Fail> {
    let job = job_of(alloc, &["-list"])?;
    let mut store = Some(one_file_until(reads, None));
    let mut tree = MemTree::new(alloc, 1)?;
    let mut new = Vec::new(alloc);
    let mut out = MemSink::new(alloc, 1000);
    let mut err = MemSink::new(alloc, 1000);
    let call = JobCall { alloc, job: &job };
    let listed = cindex_stored(call, &mut store, &mut tree, &mut new, &mut out, &mut err);
    let is_done = match listed {
        Ok(update) => Ok(update.is_ok()),
        Err(fault) => Err(fault),
    };
    let Some(read) = store else {
        return Ok(false);
    };
    Ok(is_done == answer && out.bytes() == printed.as_bytes() && read.failures() == failures)
}

#[test]
fn reads_that_fail(rt: HostRuntime) -> Result<(), Fail> {
    for reads in 0..READS {
        let fails = lists(rt.alloc(), reads, Err(IoFault::Failed), "", 1)?;
        assert!(rt; fails, "after {reads}");
    }
    Ok(())
}

#[test]
fn enough_reads(rt: HostRuntime) -> Result<(), Fail> {
    assert!(rt; lists(rt.alloc(), READS, Ok(true), "/a\n", 0)?);
    Ok(())
}
