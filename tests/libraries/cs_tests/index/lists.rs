// The posting lists of a store, read through one window, and those of the same index in memory.
use cs_fakes::{ChangingStore, ONE_FILE, UNSORTED, changed, one_file_until, strings};
use cs_index::{Builder, Index, IndexFault, ListReader, OldIndex, Postings};
use cs_tree::{IoFault, MemStore, Store};
use std::alloc::Global;
use std::test::Fail;

/// More than the ids of a list.
const MOST: u32 = 1000;

/// Whether both lists have the same ids and the same end.
fn are_same(one: Postings<'_>, other: Postings<'_>) -> bool {
    let mut one = one;
    let mut other = other;
    for _ in 0..MOST {
        let id = one.next();
        if id != other.next() {
            return false;
        }
        if id.is_none() {
            return true;
        }
    }
    false
}

/// Whether each list of the store, whose reads give at most `step` bytes and are asked for at least
/// `least`, is that of the index in memory.
fn reads_lists(alloc: Global, bytes: &[u8], step: usize, least: usize) -> Result<bool, Fail> {
    let index = Index::open(bytes)?;
    let mut store = MemStore::new(bytes, step.max(1));
    let old = OldIndex::open(alloc, &mut store)??;
    let tables = old.tables();
    let mut reader = ListReader::new(alloc);
    for position in 0..tables.lists() {
        reader.read(&mut store, &tables, position, least)?;
        let Some((trigram, ids)) = index.list_at(position) else {
            return Ok(false);
        };
        let Some((found, read)) = reader.list_at(&tables, position) else {
            return Ok(false);
        };
        if found != trigram || tables.trigram_at(position) != Some(trigram) {
            return Ok(false);
        }
        if !are_same(read, ids) {
            return Ok(false);
        }
    }
    Ok(tables.lists() == index.lists())
}

/// Adds a file with `abc`. Others have `bcd` and `cde` too, 3 and 200 ids apart, so varints have
/// one byte and two.
fn add(builder: &mut Builder, name: &str, id: u32) -> Result<(), Fail> {
    let _id = if id % 200 == 7 {
        builder.add(name, &[0x616263, 0x636465])?
    } else if id % 3 == 0 {
        builder.add(name, &[0x616263, 0x626364])?
    } else {
        builder.add(name, &[0x616263])?
    };
    Ok(())
}

/// An index of 500 files.
fn index_of(alloc: Global) -> Result<Vec<u8>, Fail> {
    let mut builder = Builder::new(alloc, &strings(alloc, &["/a"])?)?;
    for id in 0..500 {
        let name = format!(in alloc; "/a/{}", 100 + id)?;
        add(&mut builder, &name, id)?;
    }
    Ok(builder.finish()?)
}

#[test]
fn lists_at_each_end_of_the_window(rt: HostRuntime) -> Result<(), Fail> {
    let bytes = index_of(rt.alloc())?;
    for least in 0..20 {
        for step in [1, 7, 1 << 20] {
            let same = reads_lists(rt.alloc(), &bytes, step, least)?;
            assert!(rt; same, "{step} {least}");
        }
    }
    Ok(())
}

/// Counts that are too large and too small, another trigram, and a list that runs past its section.
const DAMAGE: &[&[(usize, u8)]] = &[
    &[(59, 0x02)],
    &[(59, 0x00)],
    &[(59, 0xff)],
    &[(27, 0x00)],
    &[(37, 0xff), (44, 0xff)],
    &[(63, 0x0f)],
];

#[test]
fn damaged_lists(rt: HostRuntime) -> Result<(), Fail> {
    assert!(rt; reads_lists(rt.alloc(), UNSORTED, 5, 0)?);
    for changes in DAMAGE {
        let bytes = changed(ONE_FILE, changes);
        for least in [0, 3, 1 << 18] {
            let same = reads_lists(rt.alloc(), &bytes, 4, least)?;
            assert!(rt; same, "at {changes:?}, {least}");
        }
    }
    Ok(())
}

/// Reads the first list of `ONE_FILE`. Returns whether its ids are 0 and the end.
fn first_list(
    alloc: Global,
    store: &mut ChangingStore<'_>,
) -> Result<Result<bool, IndexFault>, IoFault> {
    let old = match OldIndex::open(alloc, store)? {
        Ok(old) => old,
        Err(fault) => return Ok(Err(fault)),
    };
    let tables = old.tables();
    let mut reader = ListReader::new(alloc);
    reader.read(store, &tables, 0, 1 << 18)?;
    let Some((_trigram, mut ids)) = reader.list_at(&tables, 0) else {
        return Ok(Ok(false));
    };
    Ok(Ok(ids.next() == Some(Ok(0)) && ids.next().is_none()))
}

/// The number of reads of `first_list`.
const READS: usize = 7;

#[test]
fn reads_that_fail(rt: HostRuntime) {
    for reads in 0..READS {
        let mut store = one_file_until(reads, None);
        let answer = first_list(rt.alloc(), &mut store);
        assert!(rt; answer == Err(IoFault::Failed), "after {reads}");
        assert!(rt; store.failures() == 1, "after {reads}");
    }
}

#[test]
fn enough_reads(rt: HostRuntime) {
    let mut store = one_file_until(READS, None);
    assert!(rt; first_list(rt.alloc(), &mut store) == Ok(Ok(true)));
}
