// Searches of an index.
use crate::desk::Step::{Cut, Denied, File, Folder, Index, Job, Remove, Search};
use crate::desk::{DONE, MATCHED, NO_MATCH, Step, has_reports};
use cs_args::ToolFault;
use cs_fakes::ONE_FILE;
use cs_search::Status;
use cs_syntax::{PatternError, PatternFault};
use std::test::Fail;

const ONE_FILE_STEPS: &[Step<'static>] = &[
    Folder("/a"),
    File("/a/x", b"abcd\n"),
    Index(Some(ONE_FILE)),
    Search("bcd", MATCHED, "/a/x:abcd\n", ""),
    Search("xyz", NO_MATCH, "", ""),
];

const FILES_THAT_HAVE_CHANGED: &[Step<'static>] = &[
    Folder("/a"),
    Index(Some(ONE_FILE)),
    File("/a/x", b"wxyz\n"),
    Search("wxy", NO_MATCH, "", ""),
    Search("-brute wxy", MATCHED, "/a/x:wxyz\n", ""),
    Search("abc", NO_MATCH, "", ""),
    Remove("/a/x"),
    Search("abc", NO_MATCH, "", "csearch: /a/x: no such file\n"),
    Denied("/a/x"),
    Search("abc", NO_MATCH, "", "csearch: /a/x: permission denied\n"),
    Cut("/a/x", b"abcd\nab"),
    Search(
        "abc",
        MATCHED,
        "/a/x:abcd\n",
        "csearch: /a/x: cannot be read\n",
    ),
];

const OPEN_GROUP: PatternError = PatternError {
    fault: PatternFault::OpenGroup,
    at: 0,
};

const REPEAT: Result<Status, ToolFault> = Err(ToolFault::Pattern(PatternError {
    fault: PatternFault::StackedRepeat,
    at: 2,
}));

const REFUSALS: &[Step<'static>] = &[
    Index(Some(ONE_FILE)),
    Search("-f ( x", Err(ToolFault::FilePattern(OPEN_GROUP)), "", ""),
    Search("-f ( a**", REPEAT, "", ""),
    Index(None),
    Search("a**", REPEAT, "", ""),
];

const FOUND: &str = "/g/1:Google Search\n";

const PATTERNS_FOR_NAMES: &[Step<'static>] = &[
    Folder("/g"),
    File("/g/1", b"Google Search\n"),
    File("/g/2", b"Google\n"),
    File("/g/3", b"Search\n"),
    Job(&["/g"], DONE, "", ""),
    Search("Google.*Search", MATCHED, FOUND, ""),
    Search("-brute Google.*Search", MATCHED, FOUND, ""),
    Search(
        "-i -f [12]$ GOOGLE",
        MATCHED,
        "/g/1:Google Search\n/g/2:Google\n",
        "",
    ),
    Search("-i -f ^/G GOOGLE", NO_MATCH, "", ""),
];

/// All of these.
const ALL: &[&[Step<'static>]] = &[
    ONE_FILE_STEPS,
    FILES_THAT_HAVE_CHANGED,
    REFUSALS,
    PATTERNS_FOR_NAMES,
];

#[test]
fn searches(rt: HostRuntime) -> Result<(), Fail> {
    has_reports(&rt, ALL)
}
