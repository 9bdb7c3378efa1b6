// Sections that are longer than a piece or damaged, opened from a store with short reads.
// `tests/runs/rows.py` has those that the program opens, and the library in memory.
use cs_fakes::{ONE_FILE, strings};
use cs_index::{Builder, Index, IndexFault, StoredIndex};
use cs_tree::MemStore;
use std::alloc::Global;
use std::test::Fail;

/// The length of a piece.
const PIECE: usize = 65_536;

/// The number of entries of the list index in a piece.
const ENTRIES: usize = 5_957;

/// The number of names and of entries of a larger index.
const NAMES: usize = 20_000;

/// Why bytes do not open from a store that reads some bytes at a time.
fn stored_fault(alloc: Global, bytes: &[u8], step: usize) -> Result<Option<IndexFault>, Fail> {
    let mut store = MemStore::new(bytes, step.max(1));
    Ok(StoredIndex::open(alloc, &mut store)?.err())
}

/// Whether they open from the store as in memory.
fn agree(alloc: Global, bytes: &[u8], step: usize) -> Result<bool, Fail> {
    Ok(stored_fault(alloc, bytes, step)? == Index::open(bytes).err())
}

/// Why they do not open if the byte at an offset is another one.
fn fault_with(
    alloc: Global,
    bytes: &[u8],
    at: usize,
    byte: u8,
) -> Result<Option<IndexFault>, Fail> {
    let mut bytes = Vec::from_slice(alloc, bytes)?;
    if let Some(changed) = bytes.get_mut(at) {
        *changed = byte;
    }
    stored_fault(alloc, &bytes, 4096)
}

/// An index of two names: one of some letters and then a letter of two bytes, and a short one.
fn index_of_long(alloc: Global, letters: usize) -> Result<Vec<u8>, Fail> {
    let mut name = String::from_str(alloc, "/a/")?;
    for _ in 0..letters {
        name.push('x')?;
    }
    name.push('\u{e9}')?;
    let mut builder = Builder::new(alloc, &strings(alloc, &["/a"])?)?;
    let _long = builder.add(&name, &[])?;
    let _short = builder.add("/a/y", &[])?;
    Ok(builder.finish()?)
}

/// Whether such an index opens, and is refused with another byte in the last letter or in place of
/// its NUL.
fn is_tested(alloc: Global, letters: usize) -> Result<bool, Fail> {
    let bytes = index_of_long(alloc, letters)?;
    if stored_fault(alloc, &bytes, 7)?.is_some() {
        return Ok(false);
    }
    // The magic, the paths and the folder have 23 bytes.
    for (after, want) in [
        (23, IndexFault::BadNames),
        (24, IndexFault::BadNames),
        (25, IndexFault::BadNameIndex),
    ] {
        if fault_with(alloc, &bytes, letters.saturating_add(after), b'z')? != Some(want) {
            return Ok(false);
        }
    }
    Ok(true)
}

/// The last letter of a name stands before, across and after the end of a piece, and after three
/// pieces.
#[test]
fn names_across_pieces(rt: HostRuntime) -> Result<(), Fail> {
    for letters in PIECE - 8..PIECE {
        assert!(rt; is_tested(rt.alloc(), letters)?, "{letters}");
    }
    assert!(rt; is_tested(rt.alloc(), 3 * PIECE)?);
    Ok(())
}

/// An index of 20,000 names of eight bytes, each with a trigram of its own.
fn large_index(alloc: Global) -> Result<Vec<u8>, Fail> {
    let mut builder = Builder::new(alloc, &strings(alloc, &["/a"])?)?;
    for id in 0..NAMES {
        let name = format!(in alloc; "/a/{}", 10_000 + id)?;
        let _id = builder.add(&name, &[id as u32])?;
    }
    Ok(builder.finish()?)
}

/// Damage in the first piece of a section and after it.
#[test]
fn damage_in_later_pieces(rt: HostRuntime) -> Result<(), Fail> {
    let bytes = large_index(rt.alloc())?;
    for step in [7, 4096] {
        assert!(rt; stored_fault(rt.alloc(), &bytes, step)? == None, "{step}");
    }
    let names = 16 + 4;
    let entries = bytes.len().saturating_sub(36 + 11 * NAMES);
    let numbers = entries.saturating_sub(4 * (NAMES + 1));
    for (at, byte, want) in [
        (names + 9 * (NAMES - 1), 0, IndexFault::BadNames),
        (names + 9 * (NAMES - 1) + 3, 0xff, IndexFault::BadNames),
        (names + 9 * (NAMES - 2) + 8, b'x', IndexFault::BadNameIndex),
        (numbers + 4 * (PIECE / 9) + 3, 1, IndexFault::BadNameIndex),
        (numbers + 4 * (NAMES - 1) + 3, 1, IndexFault::BadNameIndex),
        (entries + 11 * (ENTRIES - 1), 1, IndexFault::BadListIndex),
        (entries + 11 * ENTRIES + 1, 0, IndexFault::BadListIndex),
        (
            entries + 11 * (NAMES - 1) + 7,
            0xff,
            IndexFault::BadListIndex,
        ),
    ] {
        let found = fault_with(rt.alloc(), &bytes, at, byte)?;
        assert!(rt; found == Some(want), "{at}");
    }
    Ok(())
}

/// Each prefix of an index, and each index with another byte, is answered alike.
#[test]
fn damaged_bytes(rt: HostRuntime) -> Result<(), Fail> {
    for len in 0..ONE_FILE.len() {
        for step in [1, 7, 128] {
            assert!(rt; agree(rt.alloc(), &ONE_FILE[..len], step)?, "{len}");
        }
    }
    for at in 0..ONE_FILE.len() {
        for byte in [0, 1, 5, b'/', b'a', 0x80, 0xff] {
            let mut bytes = *ONE_FILE;
            bytes[at] = byte;
            assert!(rt; agree(rt.alloc(), &bytes, 7)?, "{at} {byte}");
        }
    }
    Ok(())
}
