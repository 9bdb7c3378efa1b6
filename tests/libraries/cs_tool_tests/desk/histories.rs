// Sequences of jobs of cindex.
use crate::desk::Step::{File, Folder, Job, Left, Remove, Search};
use crate::desk::{DONE, MATCHED, NO_MATCH, ONE_PATH, Step, has_reports};
use std::test::Fail;

/// An index of `/a/b/f` as it was read again, and of `/a/bc/y` as it was first read.
const NEIGHBOURS: &[u8; 160] =
    b"csearch index 1\n/a/b\0/a/bc\0\0/a/b/f\0/a/bc/y\0\0ix\n\x01\0six\x01\0two\x02\0wo\n\x02\0\xff\xff\xff\0\0\0\0\0\0\0\0\x07\0\0\0\x0fix\n\0\0\0\x01\0\0\0\0six\0\0\0\x01\0\0\0\x05two\0\0\0\x01\0\0\0\x0awo\n\0\0\0\x01\0\0\0\x0f\0\0\0\x10\0\0\0\x1c\0\0\0\x2c\0\0\0\x44\0\0\0\x50\ncsearch trailr\n";

/// An index of the path `/a`, with `/a/b/f` as it was read again and `/a/g` as it was first read.
const PART: &[u8; 149] =
    b"csearch index 1\n/a\0\0/a/b/f\0/a/g\0\0ix\n\x01\0six\x01\0two\x02\0wo\n\x02\0\xff\xff\xff\0\0\0\0\0\0\0\0\x07\0\0\0\x0cix\n\0\0\0\x01\0\0\0\0six\0\0\0\x01\0\0\0\x05two\0\0\0\x01\0\0\0\x0awo\n\0\0\0\x01\0\0\0\x0f\0\0\0\x10\0\0\0\x14\0\0\0\x21\0\0\0\x39\0\0\0\x45\ncsearch trailr\n";

const NEIGHBOURS_OF_A_PATH: &[Step<'static>] = &[
    Folder("/a"),
    Folder("/a/b"),
    Folder("/a/bc"),
    File("/a/b/f", b"one\n"),
    File("/a/bc/y", b"two\n"),
    Job(&["/a/b", "/a/bc"], DONE, "", ""),
    File("/a/b/f", b"six\n"),
    File("/a/bc/y", b"ten\n"),
    Job(&["/a/b"], DONE, "", ""),
    Left(Some(NEIGHBOURS)),
    Job(&["-list"], DONE, "/a/b\n/a/bc\n", ""),
    Search("six", MATCHED, "/a/b/f:six\n", ""),
    Search("ten", NO_MATCH, "", ""),
    Search("-brute ten", MATCHED, "/a/bc/y:ten\n", ""),
];

const A_FILE_AND_A_FOLDER_IN_TURN: &[Step<'static>] = &[
    Folder("/a"),
    File("/a/b", b"one\n"),
    File("/a/b-x", b"two\n"),
    Job(&["/a"], DONE, "", ""),
    Folder("/a/b"),
    File("/a/b/z", b"six\n"),
    Job(&["/a/b"], DONE, "", ""),
    Job(&["-list"], DONE, "/a\n", ""),
    Search("-l -brute .", MATCHED, "/a/b-x\n/a/b/z\n", ""),
    Remove("/a/b"),
    File("/a/b", b"ten\n"),
    Job(&["/a/b"], DONE, "", ""),
    Search("-l -brute .", MATCHED, "/a/b\n/a/b-x\n", ""),
];

const A_PART_OF_A_PATH: &[Step<'static>] = &[
    Folder("/a"),
    Folder("/a/b"),
    File("/a/b/f", b"one\n"),
    File("/a/g", b"two\n"),
    Job(&["/a"], DONE, "", ""),
    File("/a/b/f", b"six\n"),
    File("/a/g", b"ten\n"),
    Job(&["/a/b"], DONE, "", ""),
    Left(Some(PART)),
    Job(&["-list"], DONE, "/a\n", ""),
    Search("six", MATCHED, "/a/b/f:six\n", ""),
    Search("ten", NO_MATCH, "", ""),
    Job(&[], DONE, "", ""),
    Search("ten", MATCHED, "/a/g:ten\n", ""),
];

const LINE: &str = "cindex: /v: no such file\n";

const A_PATH_THAT_VANISHES: &[Step<'static>] = &[
    Folder("/v"),
    File("/v/f", b"one\n"),
    Job(&["/v"], DONE, "", ""),
    Remove("/v"),
    Job(&[], DONE, "", LINE),
    Left(Some(ONE_PATH)),
    Job(&["-list"], DONE, "/v\n", ""),
    Search("-brute -l .", NO_MATCH, "", ""),
    Job(&[], DONE, "", LINE),
    Left(Some(ONE_PATH)),
    Job(&["-list"], DONE, "/v\n", ""),
    Search("-brute -l .", NO_MATCH, "", ""),
];

/// All of these.
const ALL: &[&[Step<'static>]] = &[
    NEIGHBOURS_OF_A_PATH,
    A_FILE_AND_A_FOLDER_IN_TURN,
    A_PART_OF_A_PATH,
    A_PATH_THAT_VANISHES,
];

#[test]
fn histories(rt: HostRuntime) -> Result<(), Fail> {
    has_reports(&rt, ALL)
}
