// The writer: limits, the pieces of an index, and trigrams that are in no text.
// `tests/runs/library_rows.py` has indexes of texts.
use cs_fakes::{builder_of, strings};
use cs_index::{BuildFault, Builder};
use cs_tree::Output;
use std::alloc::{AllocError, Global};
use std::str::from_utf8;
use std::test::Fail;

/// Why an index of the paths cannot be begun.
fn error_of(alloc: Global, paths: &[&str]) -> Result<Option<BuildFault>, AllocError> {
    Ok(Builder::new(alloc, &strings(alloc, paths)?).err())
}

#[test]
fn paths_with_a_nul_are_rejected(rt: HostRuntime) {
    assert!(rt; error_of(rt.alloc(), &["/a\0"]) == Ok(Some(BuildFault::BadPaths)));
}

/// Whether names are added within limits, and rejected past them.
fn keeps_limits(alloc: Global) -> Result<bool, BuildFault> {
    let mut builder = builder_of(alloc, &["/a"])?;
    Ok(
        builder.add_within(2, "/b", &[]) == Ok(0)
            && builder.add_within(2, "/c", &[7]) == Ok(1)
            && builder.add_within(2, "/d", &[7]) == Err(BuildFault::TooLarge)
            && builder.add_within(3, "/d", &[]) == Ok(2),
    )
}

/// The size of an empty index within a limit of bytes.
fn length_within(alloc: Global, most: u32) -> Result<usize, BuildFault> {
    let index = builder_of(alloc, &["/a"])?.finish_within(most)?;
    Ok(index.len())
}

/// Whether the index of a name of three bytes with two trigrams, 72 bytes as they are counted, is
/// too large for a limit.
fn is_longer(alloc: Global, most: u32) -> Result<bool, BuildFault> {
    let mut builder = builder_of(alloc, &["/a"])?;
    builder.add("/ab", &[7, 8])?;
    Ok(!builder.is_too_large() && builder.is_too_large_within(most))
}

/// At 24 there is no room for the lists, at 64 none for the trailer.
const WITHIN: &[(u32, Result<usize, BuildFault>)] = &[
    (24, Err(BuildFault::TooLarge)),
    (64, Err(BuildFault::TooLarge)),
    (65, Ok(65)),
];

#[test]
fn names_and_bytes_are_kept_within_limits(rt: HostRuntime) {
    assert!(rt; keeps_limits(rt.alloc()) == Ok(true));
    assert!(rt; is_longer(rt.alloc(), 71) == Ok(true));
    assert!(rt; is_longer(rt.alloc(), 72) == Ok(false));
    for (most, want) in WITHIN {
        assert!(rt; length_within(rt.alloc(), *most) == *want, "at {most}");
    }
}

/// A number in seven digits.
fn digits(number: u32) -> [u8; 7] {
    let mut text = [b'0'; 7];
    let mut rest = number;
    for at in 0..7 {
        text[6 - at] = b'0' + (rest % 10) as u8;
        rest /= 10;
    }
    text
}

/// Adds a name, with the trigram `abc` and the last trigram with the same high bits, or without
/// trigrams.
fn add_some(builder: &mut Builder, name: &str, has_some: bool) -> Result<u32, BuildFault> {
    if has_some {
        builder.add(name, &[0x616fff, 0x616263])
    } else {
        builder.add(name, &[])
    }
}

/// A builder with this many names, from `0000000` on. Those with these ids have trigrams. An
/// allocation that fails is tried again.
fn sparse_builder(alloc: Global, count: u32, ids: &[u32]) -> Result<Builder, BuildFault> {
    let mut builder = builder_of(alloc, &["/a"])?;
    for id in 0..count {
        let text = digits(id);
        let Ok(name) = from_utf8(&text) else {
            return Err(BuildFault::BadName);
        };
        let has_some = ids.contains(&id);
        if add_some(&mut builder, name, has_some) == Err(BuildFault::Memory) {
            let _id = add_some(&mut builder, name, has_some)?;
        }
    }
    Ok(builder)
}

/// The index of these names.
fn sparse(alloc: Global, count: u32, ids: &[u32]) -> Result<Vec<u8>, BuildFault> {
    sparse_builder(alloc, count, ids)?.finish()
}

/// The appends to an output that has room for this many more.
#[derive(Drop)]
struct Pieces {
    bytes: Vec<u8>,
    count: usize,
    room: usize,
}

impl Output for Pieces {
    ghost given = { λ pieces. pieces.bytes.items };

    ghost keeps_refl = { λ _. tt };

    ghost keeps_trans = { λ _ _ _ _ _. tt };

    fn append(&mut self, bytes: &[u8]) -> Result<(), AllocError> {
        if self.room == 0 {
            return Err(AllocError);
        }
        self.bytes.extend_from_slice(bytes)?;
        self.room -= 1;
        self.count = self.count.saturating_add(1);
        Ok(())
    }
}

/// The number of appends of an index of 10000 names, and whether the bytes are the index.
fn appends(alloc: Global, room: usize) -> Result<(usize, bool), BuildFault> {
    let mut pieces = Pieces {
        bytes: Vec::new(alloc),
        count: 0,
        room,
    };
    let _sent = sparse_builder(alloc, 10_000, &[7, 9_999])?.finish_into(&mut pieces, u32::MAX)?;
    let index = sparse(alloc, 10_000, &[7, 9_999])?;
    Ok((pieces.count, pieces.bytes.as_slice() == index.as_slice()))
}

/// The names and the first lists have more than 64 KB.
#[test]
fn indexes_are_sent_in_pieces(rt: HostRuntime) {
    assert!(rt; appends(rt.alloc(), 2) == Ok((2, true)));
    for room in [0, 1] {
        assert!(rt;
            appends(rt.alloc(), room) == Err(BuildFault::Memory),
            "{room}"
        );
    }
}

/// Whether the two lists of the sparse index have these deltas.
fn has_deltas(alloc: Global, ids: &[u32], deltas: &[u8]) -> Result<bool, BuildFault> {
    let count = match ids.last() {
        Some(last) => last.saturating_add(1),
        None => 0,
    };
    let mut want = Vec::new(alloc);
    want.extend_from_slice(b"abc")?;
    want.extend_from_slice(deltas)?;
    want.extend_from_slice(b"\0ao\xff")?;
    want.extend_from_slice(deltas)?;
    want.extend_from_slice(b"\0\xff\xff\xff\0")?;
    let index = sparse(alloc, count, ids)?;
    match index.split_at_checked(21 + 8 * count as usize) {
        Some((_before, lists)) => Ok(lists.starts_with(&want)),
        None => Ok(false),
    }
}

/// Ids, and the varints of their deltas: about groups of 15 ids, and about the longest advance of a
/// bucket, which is 61,440 ids.
const SPARSE: &[(&[u32], &[u8])] = &[
    (&[14, 15, 16, 29, 30, 31], b"\x0f\x01\x01\x0d\x01\x01"),
    (&[127, 128], b"\x80\x01\x01"),
    (&[0, 61_439, 61_440, 61_455], b"\x01\xff\xdf\x03\x01\x0f"),
    (&[61_440, 122_881], b"\x81\xe0\x03\x81\xe0\x03"),
];

#[test]
fn ids_far_apart_are_encoded(rt: HostRuntime) {
    for (ids, deltas) in SPARSE {
        assert!(rt;
            has_deltas(rt.alloc(), *ids, *deltas) == Ok(true),
            "of {ids:?}"
        );
    }
}
