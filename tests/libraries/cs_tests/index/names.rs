// The names of a stored index by their ids, in any order.
use cs_fakes::strings;
use cs_index::{Builder, StoredIndex};
use cs_tree::MemStore;
use std::alloc::{AllocError, Global};
use std::test::Fail;

/// More names than a piece has offsets.
const NAMES: u16 = 5000;

/// Every so often a name is longer than a piece.
const LONG: u16 = 1250;

/// The name with an id.
fn name(alloc: Global, id: u16) -> Result<String, AllocError> {
    let mut name = format!(in alloc; "/a/{}", 100_000 + id as u32)?;
    if id % LONG == LONG - 1 {
        for _part in 0..id {
            name.push_str("/part")?;
        }
    }
    Ok(name)
}

/// An index of these names.
fn index_of(alloc: Global) -> Result<Vec<u8>, Fail> {
    let mut builder = Builder::new(alloc, &strings(alloc, &["/a"])?)?;
    for id in 0..NAMES {
        let _id = builder.add(&name(alloc, id)?, &[])?;
    }
    Ok(builder.finish()?)
}

/// Reads names by a store of short reads.
fn reads(alloc: Global, bytes: &[u8], step: usize, ids: &[u16]) -> Result<bool, Fail> {
    let mut store = MemStore::new(bytes, step.max(1));
    let index = StoredIndex::open(alloc, &mut store)??;
    let mut names = index.name_reader(alloc);
    for id in ids {
        if names.read(alloc, &mut store, *id as u32)?.is_err()
            || names.name()? != name(alloc, *id)?.as_str()
        {
            return Ok(false);
        }
    }
    Ok(true)
}

/// Ids that ascend or descend by a step.
fn ids(alloc: Global, by: u16, ascend: bool) -> Result<Vec<u16>, AllocError> {
    let mut ids = Vec::new(alloc);
    for k in 0..NAMES {
        if (k + 1) % by.max(1) == 0 {
            ids.push(if ascend {
                k
            } else {
                NAMES.saturating_sub(k + 1)
            })?;
        }
    }
    Ok(ids)
}

#[test]
fn names_in_any_order(rt: HostRuntime) -> Result<(), Fail> {
    let bytes = index_of(rt.alloc())?;
    for by in [1, 2, 625, LONG] {
        let up = ids(rt.alloc(), by, true)?;
        assert!(rt; reads(rt.alloc(), &bytes, 1 << 20, &up)?, "{by}");
        assert!(rt; reads(rt.alloc(), &bytes, 1000, &up)?, "{by}");
        let down = ids(rt.alloc(), by, false)?;
        assert!(rt; reads(rt.alloc(), &bytes, 4096, &down)?, "{by}");
    }
    Ok(())
}

/// Without a name there is an error.
#[test]
fn no_name(rt: HostRuntime) -> Result<(), Fail> {
    let bytes = index_of(rt.alloc())?;
    let mut store = MemStore::new(&bytes, 4096);
    let index = StoredIndex::open(rt.alloc(), &mut store)??;
    let mut names = index.name_reader(rt.alloc());
    assert!(rt; names.read(rt.alloc(), &mut store, NAMES as u32)?.is_err());
    assert!(rt; names.read(rt.alloc(), &mut store, u32::MAX)?.is_err());
    Ok(())
}
