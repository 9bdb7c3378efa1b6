// Indexes of small trees, byte for byte, and failing jobs.
use crate::desk::Step::{Cut, File, Folder, Index, Job, Left, Other, Search};
use crate::desk::{DONE, MATCHED, NO_MATCH, Step, has_reports};
use cs_args::{CindexFault, Reply, ToolFault};
use cs_fakes::{ONE_FILE, UNSORTED};
use cs_index::IndexFault;
use std::test::Fail;

const EMPTY: &[u8; 65] =
    b"csearch index 1\n/a\0\0\0\xff\xff\xff\0\0\0\0\0\0\0\0\x10\0\0\0\x14\0\0\0\x15\0\0\0\x19\0\0\0\x1d\ncsearch trailr\n";

/// An index of the path `/.x` without a file.
const NO_FILE: &[u8; 66] =
    b"csearch index 1\n/.x\0\0\0\xff\xff\xff\0\0\0\0\0\0\0\0\x10\0\0\0\x15\0\0\0\x16\0\0\0\x1a\0\0\0\x1e\ncsearch trailr\n";

/// An index of an empty file.
const EMPTY_FILE: &[u8; 74] =
    b"csearch index 1\n/t\0\0/t/e\0\0\xff\xff\xff\0\0\0\0\0\0\0\0\x05\0\0\0\x10\0\0\0\x14\0\0\0\x1a\0\0\0\x1e\0\0\0\x26\ncsearch trailr\n";

/// An index of three files without a trigram.
const NO_TRIGRAMS: &[u8; 92] =
    b"csearch index 1\n/t\0\0/t/e\0/t/f\0/t/g\0\0\xff\xff\xff\0\0\0\0\0\0\0\0\x05\0\0\0\x0a\0\0\0\x0f\0\0\0\x10\0\0\0\x14\0\0\0\x24\0\0\0\x28\0\0\0\x38\ncsearch trailr\n";

/// `UNSORTED` with one of its names twice.
const NAME_TWICE: &[u8; 115] =
    b"csearch index 1\n/a\0\0/a/b-x\0/a/b-x\0\0abc\x01\x01\0\xff\xff\xff\0\0\0\0\0\0\0\0\x07\0\0\0\x0eabc\0\0\0\x02\0\0\0\0\xff\xff\xff\0\0\0\0\0\0\0\x06\0\0\0\x10\0\0\0\x14\0\0\0\x23\0\0\0\x2d\0\0\0\x39\ncsearch trailr\n";

/// `UNSORTED` after a job on `/a/b-x`, which then has `six`.
const RENUMBERED: &[u8; 135] =
    b"csearch index 1\n/a\0\0/a/b-x\0/a/b/z\0\0abc\x02\0ix\n\x01\0six\x01\0\xff\xff\xff\0\0\0\0\0\0\0\0\x07\0\0\0\x0eabc\0\0\0\x01\0\0\0\0ix\n\0\0\0\x01\0\0\0\x05six\0\0\0\x01\0\0\0\x0a\0\0\0\x10\0\0\0\x14\0\0\0\x23\0\0\0\x36\0\0\0\x42\ncsearch trailr\n";

/// `UNSORTED` without its last byte.
const CUT: &[u8; 114] =
    b"csearch index 1\n/a\0\0/a/b/z\0/a/b-x\0\0abc\x01\x01\0\xff\xff\xff\0\0\0\0\0\0\0\0\x07\0\0\0\x0eabc\0\0\0\x02\0\0\0\0\xff\xff\xff\0\0\0\0\0\0\0\x06\0\0\0\x10\0\0\0\x14\0\0\0\x23\0\0\0\x2d\0\0\0\x39\ncsearch trailr";

/// `ONE_FILE` with an entry of `abc` that counts two files.
const DAMAGED: &[u8; 122] =
    b"csearch index 1\n/a\0\0/a/x\0\0abc\x01\0bcd\x01\0cd\n\x01\0\xff\xff\xff\0\0\0\0\0\0\0\0\x05abc\0\0\0\x02\0\0\0\0bcd\0\0\0\x01\0\0\0\x05cd\n\0\0\0\x01\0\0\0\x0a\0\0\0\x10\0\0\0\x14\0\0\0\x1a\0\0\0\x2d\0\0\0\x35\ncsearch trailr\n";

const AN_EMPTY_FOLDER: &[Step<'static>] = &[
    Folder("/a"),
    Job(&["/a"], DONE, "", ""),
    Left(Some(EMPTY)),
    Job(&["-list"], DONE, "/a\n", ""),
];

const ONE_FILE_STEPS: &[Step<'static>] = &[
    Folder("/a"),
    File("/a/x", b"abcd\n"),
    Job(&["/a"], DONE, "", ""),
    Left(Some(ONE_FILE)),
];

const A_FILE_WITHOUT_TEXT: &[Step<'static>] = &[
    Folder("/t"),
    File("/t/e", b""),
    Job(&["/t"], DONE, "", ""),
    Left(Some(EMPTY_FILE)),
    Search("-l ", NO_MATCH, "", ""),
];

const FILES_WITHOUT_TRIGRAMS: &[Step<'static>] = &[
    Folder("/t"),
    File("/t/e", b""),
    File("/t/f", b"a"),
    File("/t/g", b"b\n"),
    Job(&["/t"], DONE, "", ""),
    Left(Some(NO_TRIGRAMS)),
    Search("^a", MATCHED, "/t/f:a\n", ""),
    Search("-c ^$", NO_MATCH, "", ""),
];

const NAMES_THAT_ARE_LEFT_OUT: &[Step<'static>] = &[
    Job(&["-reset", "/.x"], DONE, "", ""),
    Left(Some(NO_FILE)),
    Folder("/.x"),
    File("/.x/y", b"abcd\n"),
    Job(&["-reset", "/.x"], DONE, "", ""),
    Left(Some(NO_FILE)),
    Job(&["-reset", "/.x/y"], DONE, "", ""),
    Search("-l abc", MATCHED, "/.x/y\n", ""),
    Folder("/t"),
    File("/t/.a", b"x\n"),
    File("/t/#b", b"x\n"),
    File("/t/~c", b"x\n"),
    File("/t/d~", b"x\n"),
    File("/t/e", b"x\n"),
    Other("/t/o"),
    Job(&["-reset", "/t"], DONE, "", ""),
    Search("-l x", MATCHED, "/t/e\n", ""),
];

const FILES_THAT_ARE_LEFT_OUT: &[Step<'static>] = &[
    Folder("/s"),
    File("/s/n", b"a\0"),
    Job(
        &["-logskip", "/s"],
        DONE,
        "",
        "cindex: /s/n: not indexed: NUL byte\n",
    ),
    Search("-l ", NO_MATCH, "", ""),
    Job(&["/s"], DONE, "", ""),
];

const A_FILE_THAT_IS_CUT: &[Step<'static>] = &[
    Folder("/t"),
    Cut("/t/c", b"one\ntwo\non"),
    Job(&["/t"], DONE, "", "cindex: /t/c: cannot be read\n"),
    Search("-l ", NO_MATCH, "", ""),
];

const NO_INDEX: &[Step<'static>] = &[
    Job(&[], Reply::Refused(CindexFault::NoIndex), "", ""),
    Job(&["-list"], Reply::Refused(CindexFault::NoIndex), "", ""),
    Search("x", Err(ToolFault::NoIndex), "", ""),
    Job(&["-reset"], DONE, "", ""),
    Left(None),
    Job(&[""], Reply::Refused(CindexFault::BadPath(0)), "", ""),
];

const A_BARE_RESET_LEAVES_NO_INDEX: &[Step<'static>] = &[
    Index(Some(ONE_FILE)),
    Job(&["-reset"], DONE, "", ""),
    Left(None),
];

const BAD: Reply = Reply::Refused(CindexFault::BadIndex(IndexFault::BadTrailer));

const FOREIGN_INDEXES: &[Step<'static>] = &[
    Folder("/a"),
    Folder("/a/b"),
    File("/a/b/z", b"abc"),
    File("/a/b-x", b"abc"),
    Index(Some(UNSORTED)),
    Job(&["-list"], DONE, "/a\n", ""),
    Search("abc", MATCHED, "/a/b/z:abc\n/a/b-x:abc\n", ""),
    File("/a/b-x", b"six\n"),
    Job(&["/a/b-x"], DONE, "", ""),
    Left(Some(RENUMBERED)),
    Search("abc", MATCHED, "/a/b/z:abc\n", ""),
    Index(Some(NAME_TWICE)),
    Job(&["/a"], Reply::Refused(CindexFault::Unsorted), "", ""),
    Left(Some(NAME_TWICE)),
    Job(&["-reset", "/a"], DONE, "", ""),
    Index(Some(CUT)),
    Search(
        "abc",
        Err(ToolFault::BadIndex(IndexFault::BadTrailer)),
        "",
        "",
    ),
    Job(&["/a"], BAD, "", ""),
    Job(&["-list"], BAD, "", ""),
    Left(Some(CUT)),
    Job(&["-reset", "/a"], DONE, "", ""),
];

const DAMAGED_LISTS: &[Step<'static>] = &[
    Folder("/a"),
    File("/a/x", b"abcd\n"),
    Index(Some(DAMAGED)),
    Search("abc", Err(ToolFault::BadIndex(IndexFault::BadList)), "", ""),
    Search("bcd", MATCHED, "/a/x:abcd\n", ""),
    Search("-brute abc", MATCHED, "/a/x:abcd\n", ""),
    Job(
        &["/a"],
        Reply::Refused(CindexFault::BadIndex(IndexFault::BadList)),
        "",
        "",
    ),
    Left(Some(DAMAGED)),
];

/// All of these.
const ALL: &[&[Step<'static>]] = &[
    AN_EMPTY_FOLDER,
    ONE_FILE_STEPS,
    A_FILE_WITHOUT_TEXT,
    FILES_WITHOUT_TRIGRAMS,
    NAMES_THAT_ARE_LEFT_OUT,
    FILES_THAT_ARE_LEFT_OUT,
    A_FILE_THAT_IS_CUT,
    NO_INDEX,
    A_BARE_RESET_LEAVES_NO_INDEX,
    FOREIGN_INDEXES,
    DAMAGED_LISTS,
];

#[test]
fn indexes(rt: HostRuntime) -> Result<(), Fail> {
    has_reports(&rt, ALL)
}
