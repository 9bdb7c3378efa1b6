// A state that is written, opened, and asked for the files of a walk.
use cs_index::Builder;
use cs_known::{FileLookup, KnownFiles, SkipOptions};
use cs_state::{FileKind, StateFile, StateKey, SummedBytes, SummedOutput, stamped_name};
use cs_tree::{MemStore, Output, Stamp};
use cs_trigram::Query;
use std::alloc::Global;
use std::test::Fail;

/// The trigram of `abc`.
const ABC: u32 = 0x616263;

/// The secret of the user.
const SECRET: [u8; 32] = [7; 32];

fn stamp(inode: u64) -> Stamp {
    Stamp {
        device: 1,
        inode,
        size: 3,
        modified: 4,
        changed: 5,
    }
}

/// A state of the texts `/a` and `/b/c`, which has `abc`, the binary file `/b` and `/d`, a text
/// apart. Their stamps have the inodes 1, 3, 2 and 4.
fn state(alloc: Global) -> Result<Vec<u8>, Fail> {
    let mut root = Vec::new(alloc);
    root.push(String::from_str(alloc, "/")?)?;
    let mut builder = Builder::new(alloc, &root)?;
    let files: [(&str, u64, FileKind, &[u32]); 4] = [
        ("/a", 1, FileKind::Text, &[0x626364]),
        ("/b", 2, FileKind::Binary, &[]),
        ("/b/c", 3, FileKind::Text, &[ABC]),
        ("/d", 4, FileKind::Apart, &[]),
    ];
    for (path, inode, kind, trigrams) in files {
        let name = stamped_name(alloc, path, &stamp(inode), kind)?;
        let _added = builder.add(name.as_str(), trigrams)?;
    }
    let mut out = SummedOutput::new(alloc, Vec::new(alloc), StateKey::new(&SECRET), 6);
    out.append(&builder.finish()?)?;
    Ok(out.finish()?)
}

/// The files of these bytes that a search knows.
fn files_of<'b>(
    alloc: Global,
    bytes: &'b [u8],
    options: SkipOptions,
    query: &Query,
) -> Result<Option<KnownFiles<SummedBytes<MemStore<'b>>>>, Fail> {
    let key = StateKey::new(&SECRET);
    let Some(file) = StateFile::open(alloc, MemStore::new(bytes, 1 << 16), key)? else {
        return Ok(None);
    };
    Ok(KnownFiles::open(alloc, options, query, file)?)
}

const PLAIN: SkipOptions = SkipOptions {
    prints_unmatched: false,
    leaves_out_binary: true,
};

const INVERTED: SkipOptions = SkipOptions {
    prints_unmatched: true,
    leaves_out_binary: true,
};

const AS_TEXT: SkipOptions = SkipOptions {
    prints_unmatched: false,
    leaves_out_binary: false,
};

/// The walk of a project: each name, with the inode of its stamp, and the lookup in a search for
/// `abc`, plainly, with `-v` and with `-a`.
const WALK: &[(&str, u64, [FileLookup; 3])] = &[
    (
        "/0",
        1,
        [
            FileLookup::Unknown,
            FileLookup::Unknown,
            FileLookup::Unknown,
        ],
    ),
    (
        "/a",
        1,
        [FileLookup::Skipped, FileLookup::Known, FileLookup::Skipped],
    ),
    (
        "/b",
        2,
        [FileLookup::Skipped, FileLookup::Skipped, FileLookup::Known],
    ),
    (
        "/b/c",
        3,
        [FileLookup::Known, FileLookup::Known, FileLookup::Known],
    ),
    (
        "/d",
        4,
        [FileLookup::Known, FileLookup::Known, FileLookup::Known],
    ),
    (
        "/d",
        1,
        [
            FileLookup::Unknown,
            FileLookup::Unknown,
            FileLookup::Unknown,
        ],
    ),
    (
        "/e",
        1,
        [
            FileLookup::Unknown,
            FileLookup::Unknown,
            FileLookup::Unknown,
        ],
    ),
];

#[test]
fn files_of_a_walk(rt: HostRuntime) -> Result<(), Fail> {
    let alloc = rt.alloc();
    let bytes = state(alloc)?;
    for (column, options) in [PLAIN, INVERTED, AS_TEXT].iter().enumerate() {
        let Some(mut files) = files_of(alloc, &bytes, *options, &Query::Tri(ABC))? else {
            return Err(Fail::new("no state"));
        };
        for (name, inode, want) in WALK {
            let found = files.find(name, &stamp(*inode))?;
            assert!(rt; found == want[column], "{name} {column}");
        }
    }
    Ok(())
}

/// Whether a state opens with this secret.
fn opens(alloc: Global, bytes: &[u8], secret: &[u8; 32]) -> Result<bool, Fail> {
    let store = MemStore::new(bytes, 1 << 16);
    Ok(StateFile::open(alloc, store, StateKey::new(secret))?.is_some())
}

#[test]
fn states_of_others(rt: HostRuntime) -> Result<(), Fail> {
    let alloc = rt.alloc();
    let bytes = state(alloc)?;
    assert!(rt; opens(alloc, &bytes, &SECRET)?);
    // A multiplier has its lowest bit set in any case.
    for (at, bit) in [(0, 2), (7, 128), (8, 2), (15, 128), (16, 1), (31, 128)] {
        let mut other = SECRET;
        other[at] ^= bit;
        assert!(rt; !opens(alloc, &bytes, &other)?, "{at}");
    }
    // There is one piece before the last, and both are read.
    for at in 0..bytes.len() {
        let mut other = Vec::from_slice(alloc, &bytes)?;
        other[at] ^= 128;
        assert!(rt; !opens(alloc, &other, &SECRET)?, "{at}");
    }
    Ok(())
}
