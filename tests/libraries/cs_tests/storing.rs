// The update of an index file in memory, with crashes and other runs.
use cs_fakes::{MemFolder, MemLeft};
use cs_storage::{IndexFolder, IndexUpdate, NewFile, begin_update, finish_update};
use cs_tree::{Output, Sent};
use std::alloc::{AllocError, Global};
use std::test::Fail;

const OLD: &[u8] = b"old index";

const NEW: &[u8] = b"new index";

/// More calls than an update makes.
const MOST_CALLS: usize = 10;

fn folder_of(alloc: Global, bytes: &[u8]) -> Result<MemFolder, AllocError> {
    MemFolder::new(alloc, Some(bytes.to_vec(alloc)?))
}

/// Whether a whole job succeeds that stores these bytes, which FILE~ is given in two pieces.
fn stores(folder: &mut MemFolder, bytes: &[u8]) -> bool {
    if folder.look().is_err() || begin_update(folder).is_err() {
        return false;
    }
    let (start, rest) = bytes.split_at(bytes.len() / 2);
    let mut sent = Sent::new();
    folder.append(start);
    sent.push(start);
    if NewFile::new(folder).append(rest).is_err() {
        return false;
    }
    sent.push(rest);
    finish_update(folder, &IndexUpdate::Write(sent)).is_ok()
}

/// Whether a whole job succeeds that removes FILE.
fn removes(folder: &mut MemFolder) -> bool {
    folder.look().is_ok()
        && begin_update(folder).is_ok()
        && finish_update(folder, &IndexUpdate::Remove).is_ok()
}

/// Whether it is the old index or the new one, whole.
fn is_whole(left: &MemLeft) -> bool {
    match left {
        MemLeft::Whole(bytes) => bytes.as_slice() == OLD || bytes.as_slice() == NEW,
        MemLeft::Absent | MemLeft::Torn => false,
    }
}

/// The number of calls after which the job is done; None if a crash before leaves something else
/// than the old index or the new one, or if the outcome is not what the job reports.
fn calls_of_a_job(alloc: Global) -> Result<Option<usize>, AllocError> {
    for calls in 0..MOST_CALLS {
        let mut folder = folder_of(alloc, OLD)?;
        folder.crash_after(calls);
        let is_done = stores(&mut folder, NEW);
        let want = if is_done { NEW } else { OLD };
        if folder.file() != Some(want) || !folder.lefts().iter().all(is_whole) {
            return Ok(None);
        }
        if is_done {
            return Ok(Some(calls));
        }
    }
    Ok(None)
}

#[test]
fn a_crash_leaves_the_old_index_or_the_new_one(rt: HostRuntime) -> Result<(), Fail> {
    // The calls are: look, claim, two comparisons, two appends, sync, rename.
    assert_eq!(rt; calls_of_a_job(rt.alloc())?, Some(8));
    Ok(())
}

/// Whether a job fails that another run precedes, and leaves what that run stored.
fn spares_another_run(alloc: Global) -> Result<bool, AllocError> {
    let mut folder = folder_of(alloc, OLD)?;
    if folder.look().is_err() {
        return Ok(false);
    }
    folder.let_other_run(Some(NEW.to_vec(alloc)?))?;
    Ok(begin_update(&mut folder).is_err() && folder.file() == Some(NEW) && !folder.is_held())
}

#[test]
fn another_run_is_spared(rt: HostRuntime) -> Result<(), Fail> {
    assert!(rt; spares_another_run(rt.alloc())?);
    Ok(())
}

/// Whether a job fails while another run holds FILE~, and a removal succeeds afterwards.
fn waits_for_its_turn(alloc: Global) -> Result<bool, AllocError> {
    let mut folder = folder_of(alloc, OLD)?;
    folder.set_taken(true);
    let refused = !removes(&mut folder);
    folder.set_taken(false);
    let removed = removes(&mut folder);
    Ok(refused && removed && folder.file().is_none() && !folder.is_held())
}

#[test]
fn a_second_run_fails(rt: HostRuntime) -> Result<(), Fail> {
    assert!(rt; waits_for_its_turn(rt.alloc())?);
    Ok(())
}
