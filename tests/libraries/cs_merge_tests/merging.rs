// The merge of two indexes within a limit, and with an index in a store.
// `tests/runs/library_rows.py` has merges in memory.
use cs_fakes::{ChangingStore, Files, ONE_FILE, UNSORTED, changed, index_of, one_file_until};
use cs_index::{Index, IndexFault, OldIndex};
use cs_merge::{MergeFault, is_replaced, is_whole_stored, merge, merge_stored};
use cs_tree::{IoFault, MemStore, Sent, Store, reduce};
use std::alloc::Global;
use std::test::Fail;

/// The merge of two indexes within a limit of bytes.
fn merge_limited(
    alloc: Global,
    most: u32,
    old: &[u8],
    newer: &[u8],
) -> Result<Vec<u8>, MergeFault> {
    let mut store = MemStore::new(old, 1 << 20);
    let Ok(opened) = OldIndex::open(alloc, &mut store) else {
        return Err(MergeFault::Memory);
    };
    let older = opened?;
    let later = Index::open(newer)?;
    let mut index = Vec::new(alloc);
    match merge_stored(alloc, &mut store, most, &older.tables(), &later, &mut index) {
        Ok(Ok(_sent)) => Ok(index),
        Ok(Err(fault)) => Err(fault),
        Err(_) => Err(MergeFault::Memory),
    }
}

/// Whether two indexes merge to these bytes if the limit is their length, and fail if it is less.
fn keeps_limits(alloc: Global, old: &[u8], newer: &[u8], want: &[u8]) -> Result<bool, MergeFault> {
    let Ok(len) = u32::try_from(want.len()) else {
        return Ok(false);
    };
    for most in 0..len {
        if merge_limited(alloc, most, old, newer).err() != Some(MergeFault::TooLarge) {
            return Ok(false);
        }
    }
    Ok(merge_limited(alloc, len, old, newer)?.as_slice() == want)
}

#[test]
fn limits_are_kept(rt: HostRuntime) -> Result<(), Fail> {
    let old = index_of(
        rt.alloc(),
        &["/a"],
        &[("/a/b/f", b"one\n"), ("/a/g", b"two\n")],
    )
    .ok_or("index")?;
    let newer = index_of(rt.alloc(), &["/a/b"], &[("/a/b/f", b"six\n")]).ok_or("index")?;
    let want =
        b"csearch index 1\n/a\0\0/a/b/f\0/a/g\0\0ix\n\x01\0six\x01\0two\x02\0wo\n\x02\0\xff\xff\xff\0\0\0\0\0\0\0\0\x07\0\0\0\x0cix\n\0\0\0\x01\0\0\0\0six\0\0\0\x01\0\0\0\x05two\0\0\0\x01\0\0\0\x0awo\n\0\0\0\x01\0\0\0\x0f\0\0\0\x10\0\0\0\x14\0\0\0\x21\0\0\0\x39\0\0\0\x45\ncsearch trailr\n";
    assert!(rt; keeps_limits(rt.alloc(), &old, &newer, want) == Ok(true));
    // names in any order
    let want =
        b"csearch index 1\n/a\0/c\0\0/a/b-x\0/a/b/z\0\0abc\x01\x01\0\xff\xff\xff\0\0\0\0\0\0\0\0\x07\0\0\0\x0eabc\0\0\0\x02\0\0\0\0\0\0\0\x10\0\0\0\x17\0\0\0\x26\0\0\0\x30\0\0\0\x3c\ncsearch trailr\n";
    let old = index_of(rt.alloc(), &["/c"], &[]).ok_or("index")?;
    assert!(rt; keeps_limits(rt.alloc(), &old, UNSORTED, want) == Ok(true));
    Ok(())
}

/// Whether the merge is the newer bytes exactly where the newer index is said to replace the old
/// one.
fn replaces_alike(alloc: Global, old: &[u8], newer: &[u8]) -> Option<bool> {
    let mut store = MemStore::new(old, usize::MAX);
    let opened = OldIndex::open(alloc, &mut store).ok()?.ok()?;
    let later = Index::open(newer).ok()?;
    let mut paths = Vec::new(alloc);
    later.paths().append_to(alloc, &mut paths).ok()?;
    let Ok(paths) = reduce(alloc, &paths) else {
        return None;
    };
    let replaced = is_replaced(&opened.tables(), &paths);
    let merged = merge(alloc, &Index::open(old).ok()?, &later).ok()?;
    Some(replaced == (merged.as_slice() == newer))
}

/// Paths and files of small indexes. Each name lies under a path.
const SMALL: [(&[&str], Files<'static>); 8] = [
    (&[], &[]),
    (&["/"], &[("/a/b", b"one\n"), ("/c", b"ten\n")]),
    (&["/a"], &[]),
    (&["/a"], &[("/a", b"two\n")]),
    (&["/a"], &[("/a/b", b"one\n"), ("/a/c", b"two\n")]),
    (&["/a/b"], &[("/a/b", b"six\n")]),
    (&["/a/b", "/a/c"], &[("/a/c/d", b"six\n")]),
    (&["/a", "/c"], &[("/a/b", b"ten\n"), ("/c", b"")]),
];

/// The small indexes.
fn small_indexes(alloc: Global) -> Option<Vec<Vec<u8>>> {
    let mut indexes = Vec::new(alloc);
    for (paths, files) in SMALL {
        indexes.push(index_of(alloc, paths, files)?).ok()?;
    }
    Some(indexes)
}

#[test]
fn an_index_is_replaced_where_all_is_covered(rt: HostRuntime) -> Result<(), Fail> {
    let indexes = small_indexes(rt.alloc()).ok_or("indexes")?;
    // a name outside its paths: only its index can be the old one
    let outside = index_of(rt.alloc(), &["/a"], &[("/d", b"one\n")]).ok_or("index")?;
    for newer in &indexes {
        assert!(rt; replaces_alike(rt.alloc(), &outside, newer) == Some(true));
        for old in &indexes {
            assert!(rt; replaces_alike(rt.alloc(), old, newer) == Some(true));
        }
    }
    Ok(())
}

/// Whether no list of the index with these bytes is damaged.
fn is_whole(alloc: Global, bytes: &[u8]) -> Option<bool> {
    let mut store = MemStore::new(bytes, 7);
    let old = OldIndex::open(alloc, &mut store).ok()?.ok()?;
    is_whole_stored(alloc, &mut store, &old.tables()).ok()
}

#[test]
fn damage_is_found_in_each_list(rt: HostRuntime) {
    for (offset, want) in [
        (0, true),
        (29, false),
        (34, false),
        (39, false),
        (40, false),
    ] {
        let bytes = changed(ONE_FILE, &[(offset, if offset == 0 { b'c' } else { 2 })]);
        assert!(rt; is_whole(rt.alloc(), &bytes) == Some(want), "{offset}");
    }
}

#[test]
fn damage_goes_before_the_limit(rt: HostRuntime) -> Result<(), Fail> {
    let newer = index_of(rt.alloc(), &["/b"], &[("/b", b"abcd\n")]).ok_or("index")?;
    for (offset, want) in [
        (0, MergeFault::TooLarge),
        (29, MergeFault::Index(IndexFault::BadList)),
        (39, MergeFault::Index(IndexFault::BadList)),
    ] {
        let old = changed(ONE_FILE, &[(offset, if offset == 0 { b'c' } else { 2 })]);
        assert!(rt;
            merge_limited(rt.alloc(), 0, &old, &newer).err() == Some(want),
            "{offset}"
        );
    }
    Ok(())
}

/// Whether no list of an index is damaged.
fn has_whole_lists(index: &Index<'_>) -> bool {
    for position in 0..index.lists() {
        if let Some((_trigram, ids)) = index.list_at(position) {
            for id in ids {
                if id.is_err() {
                    return false;
                }
            }
        }
    }
    true
}

/// Whether the old index merges alike from a store, whose reads give at most `step` bytes, and from
/// memory; and whether its lists are whole alike.
fn merges_alike(
    alloc: Global,
    most: u32,
    step: usize,
    old: &[u8],
    newer: &[u8],
) -> Result<bool, Fail> {
    let older = Index::open(old)?;
    let later = Index::open(newer)?;
    let mut store = MemStore::new(old, step.max(1));
    let opened = OldIndex::open(alloc, &mut store)??;
    let tables = opened.tables();
    let whole = is_whole_stored(alloc, &mut store, &tables)? == has_whole_lists(&older);
    let mut index = Vec::new(alloc);
    let stored = merge_stored(alloc, &mut store, most, &tables, &later, &mut index)?;
    let merged = match (merge_limited(alloc, most, old, newer), stored) {
        (Ok(want), Ok(_sent)) => index.as_slice() == want.as_slice(),
        (Err(want), Err(fault)) => fault == want,
        _ => false,
    };
    Ok(whole && merged)
}

#[test]
fn stored_indexes_merge_alike(rt: HostRuntime) -> Result<(), Fail> {
    let indexes = small_indexes(rt.alloc()).ok_or("indexes")?;
    for newer in &indexes {
        for old in &indexes {
            for most in [0, 120, u32::MAX] {
                assert!(rt; merges_alike(rt.alloc(), most, 7, old, newer)?, "{most}");
            }
        }
        for offset in [28, 29, 39] {
            let old = changed(ONE_FILE, &[(offset, 2)]);
            for most in [0, u32::MAX] {
                assert!(rt;
                    merges_alike(rt.alloc(), most, 1 << 20, &old, newer)?,
                    "{offset} {most}"
                );
            }
        }
    }
    Ok(())
}

/// Merges the index of the store with a newer one.
fn merge_failing(
    alloc: Global,
    store: &mut ChangingStore<'_>,
    newer: &[u8],
) -> Result<Result<Sent, MergeFault>, IoFault> {
    let old = match OldIndex::open(alloc, store)? {
        Ok(old) => old,
        Err(fault) => return Ok(Err(MergeFault::Index(fault))),
    };
    let tables = old.tables();
    match Index::open(newer) {
        Ok(newer) => merge_stored(
            alloc,
            store,
            u32::MAX,
            &tables,
            &newer,
            &mut Vec::new(alloc),
        ),
        Err(fault) => Ok(Err(MergeFault::Index(fault))),
    }
}

/// The number of reads of `merge_failing`.
const READS: usize = 7;

#[test]
fn merges_whose_reads_fail(rt: HostRuntime) -> Result<(), Fail> {
    let newer = index_of(rt.alloc(), &["/b"], &[("/b", b"abcd\n")]).ok_or("index")?;
    for reads in 0..READS {
        let mut store = one_file_until(reads, None);
        let answer = merge_failing(rt.alloc(), &mut store, &newer);
        assert!(rt; answer.err() == Some(IoFault::Failed), "after {reads}");
        assert!(rt; store.failures() == 1, "after {reads}");
    }
    let mut store = one_file_until(READS, None);
    assert!(rt; merge_failing(rt.alloc(), &mut store, &newer).is_ok_and(|index| index.is_ok()));
    Ok(())
}
