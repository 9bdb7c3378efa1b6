// Searches of a stored index, with a failing read, or with bytes that change during the reads.
use crate::fixtures::{args_of, tree_of};
use cs_args::{Job, SearchJob, Tool, ToolFault, read_words};
use cs_fakes::{ChangingStore, MemTree, ONE_FILE, PutFault, UNSORTED, one_file_until};
use cs_index::StoredIndex;
use cs_search::{SearchCall, Status, csearch_stored};
use cs_tree::{IoFault, MemSink, Store};
use std::alloc::Global;
use std::test::Fail;

/// The answer of a search.
type Answer = Result<Status, ToolFault>;

/// The job of csearch with these arguments.
fn job_of(alloc: Global, text: &str) -> Result<SearchJob, Fail> {
    match read_words(alloc, Tool::Csearch, "/w", &args_of(alloc, text, ' ')?) {
        Ok(Job::Search(job)) => Ok(job),
        _ => Err(Fail::from("arguments")),
    }
}

/// A tree with the file of `ONE_FILE`.
fn tree(alloc: Global) -> Result<MemTree, PutFault> {
    tree_of(alloc, &[("/a", None), ("/a/x", Some("abcd\n"))])
}

/// The output and the answer of a search by a store.
fn run(
    alloc: Global,
    job: &SearchJob,
    store: &mut ChangingStore<'_>,
    tree: &mut MemTree,
    out: &mut MemSink,
) -> Result<Answer, IoFault> {
    let opened = StoredIndex::open(alloc, store)?;
    let mut err = MemSink::new(alloc, 1000);
    csearch_stored(
        SearchCall { alloc, job },
        opened,
        store,
        tree,
        out,
        &mut err,
    )
}

/// A search by a store.
fn search_stored(
    alloc: Global,
    args: &str,
    store: &mut ChangingStore<'_>,
    out: &mut MemSink,
) -> Result<Result<Answer, IoFault>, Fail> {
    let job = job_of(alloc, args)?;
    let mut tree = tree(alloc)?;
    Ok(run(alloc, &job, store, &mut tree, out))
}

/// The number of reads of a search of `ONE_FILE` for one trigram.
const READS: usize = 14;

/// Whether a search whose reads fail after this number fails, prints nothing and counts one
/// failure.
fn fails(alloc: Global, reads: usize) -> Result<bool, Fail> {
    let mut out = MemSink::new(alloc, 1000);
    let mut store = one_file_until(reads, None);
    let answer = search_stored(alloc, "abc", &mut store, &mut out)?;
    Ok(answer == Err(IoFault::Failed) && out.bytes().is_empty() && store.failures() == 1)
}

#[test]
fn reads_that_fail(rt: HostRuntime) -> Result<(), Fail> {
    for reads in 0..READS {
        assert!(rt; fails(rt.alloc(), reads)?, "after {reads}");
    }
    Ok(())
}

/// Whether a search with this number of reads prints the line of `ONE_FILE`, and counts no failure.
fn matches_within(alloc: Global, reads: usize, args: &str) -> Result<bool, Fail> {
    let mut out = MemSink::new(alloc, 1000);
    let mut store = one_file_until(reads, None);
    let answer = search_stored(alloc, args, &mut store, &mut out)?;
    Ok(
        answer == Ok(Ok(Status::Matched))
            && out.bytes() == b"/a/x:abcd\n".as_slice()
            && store.failures() == 0,
    )
}

/// With `-brute` no entry is looked up, which takes two reads here, and no list is read.
#[test]
fn enough_reads(rt: HostRuntime) -> Result<(), Fail> {
    let alloc = rt.alloc();
    assert!(rt;
        matches_within(alloc, READS, "abc")? && matches_within(alloc, READS - 3, "-brute bcd")?
    );
    Ok(())
}

/// Whether a search ends over a store that changes after this number of reads.
fn ends(alloc: Global, reads: usize, then: &[u8]) -> Result<bool, Fail> {
    let mut out = MemSink::new(alloc, 1000);
    let mut store = one_file_until(reads, Some(then));
    Ok(search_stored(alloc, "abc", &mut store, &mut out)?.is_ok())
}

/// A store that has shrunk, or has another index.
#[test]
fn bytes_that_change(rt: HostRuntime) -> Result<(), Fail> {
    for reads in 0..READS {
        for len in 0..ONE_FILE.len() {
            assert!(rt;
                ends(rt.alloc(), reads, &ONE_FILE[..len])?,
                "{len} bytes after {reads}"
            );
        }
        assert!(rt;
            ends(rt.alloc(), reads, UNSORTED)?,
            "another index after {reads}"
        );
    }
    Ok(())
}
