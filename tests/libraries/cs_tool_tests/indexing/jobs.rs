// Jobs in one call.
use crate::fixtures::TreeItem;
use crate::fixtures::jobs::{Three, index_of, run_three};
use cs_args::{CindexFault, Reply};
use std::alloc::Global;
use std::test::Fail;

const FOLDERS: &[TreeItem<'static>] = &[
    ("/a", None),
    ("/a/f", Some("one\n")),
    ("/b", None),
    ("/b/g", Some("two\n")),
];

/// Whether the replies are these, and the last of the three jobs has listed `/a` alone.
fn lists_one(three: &Three, replies: [Reply; 3]) -> bool {
    three.replies == replies
        && three.out.bytes() == b"/a\n".as_slice()
        && three.err.bytes().is_empty()
}

/// Whether a list between two jobs has the path of the first.
fn list_between(alloc: Global) -> Result<bool, Fail> {
    let both = index_of(alloc, &["/a", "/b"], FOLDERS)?;
    let three = run_three(alloc, [&["/a"], &["-list"], &["/b"]], FOLDERS)?;
    Ok(lists_one(&three, [Reply::Done; 3]) && three.index.as_deref() == Some(both.as_slice()))
}

#[test]
fn a_list_sees_the_jobs_before_it(rt: HostRuntime) -> Result<(), Fail> {
    assert!(rt; list_between(rt.alloc())?);
    Ok(())
}

/// Whether a failed job between two others leaves no trace.
fn rejected_between(alloc: Global) -> Result<bool, Fail> {
    let failed = Reply::Refused(CindexFault::BadPath(1));
    let alone = index_of(alloc, &["/a"], FOLDERS)?;
    let three = run_three(alloc, [&["/a"], &["/b", ""], &["-list"]], FOLDERS)?;
    Ok(
        lists_one(&three, [Reply::Done, failed, Reply::Done])
            && three.index.as_deref() == Some(alone.as_slice()),
    )
}

#[test]
fn a_failed_job_between_others(rt: HostRuntime) -> Result<(), Fail> {
    assert!(rt; rejected_between(rt.alloc())?);
    Ok(())
}
