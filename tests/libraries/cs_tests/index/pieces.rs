// Posting lists that are longer than a piece, by a store with short reads. `tests/runs/rows.py` has
// those of the program.
use cs_fakes::{number, strings};
use cs_index::{Builder, StoredIndex};
use cs_tree::MemStore;
use cs_trigram::Query;
use std::alloc::Global;
use std::test::Fail;

/// The bytes of the longest piece after the trigram of its list.
const PIECE: u16 = 65_533;

/// The distance of the last ids, whose varints have two bytes.
const GAP: u32 = 300;

/// Adds a name, which has `abc` if it is listed.
fn add(builder: &mut Builder, name: &str, is_listed: bool) -> Result<(), Fail> {
    let _id = if is_listed {
        builder.add(name, &[0x616263])?
    } else {
        builder.add(name, &[])?
    };
    Ok(())
}

/// An index in which these names have `abc`, and two more after gaps.
fn index_of(alloc: Global, names: u16) -> Result<Vec<u8>, Fail> {
    let names = names as u32;
    let mut builder = Builder::new(alloc, &strings(alloc, &["/a"])?)?;
    for id in 0..names + 2 * GAP {
        let name = format!(in alloc; "/a/{}", 100_000 + id)?;
        let is_listed = id < names || (id + 1 - names) % GAP == 0;
        add(&mut builder, &name, is_listed)?;
    }
    Ok(builder.finish()?)
}

/// Whether these are the ids with `abc`.
fn are_found(ids: &[u32], names: u16) -> bool {
    let at = names as usize;
    let names = names as u32;
    ids.len() == at + 2
        && ids.first() == Some(&0)
        && ids.get(at) == Some(&(names + GAP - 1))
        && ids.get(at + 1) == Some(&(names + 2 * GAP - 1))
}

/// Whether a store that reads some bytes at a time finds them.
fn finds_stored(alloc: Global, bytes: &[u8], step: usize, names: u16) -> Result<bool, Fail> {
    let mut store = MemStore::new(bytes, step.max(1));
    let index = StoredIndex::open(alloc, &mut store)??;
    let ids = index.candidates(alloc, &mut store, &Query::Tri(number(b"abc")))??;
    Ok(are_found(&ids, names))
}

/// A varint of two bytes stands before, across and after the end of a piece.
#[test]
fn varints_across_pieces(rt: HostRuntime) -> Result<(), Fail> {
    for names in PIECE - 4..=PIECE + 2 {
        let bytes = index_of(rt.alloc(), names)?;
        assert!(rt; finds_stored(rt.alloc(), &bytes, 7, names)?, "{names}");
    }
    Ok(())
}
