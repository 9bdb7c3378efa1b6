// Searches of an index, over trees without the files that must not be opened.
use crate::desk::have;
use crate::fixtures::indexed::{FIRST, GOOGLE, search};
use crate::fixtures::jobs::index_of;
use crate::fixtures::{TreeItem, tree_of};
use cs_search::Status;
use cs_tree::MemSink;
use std::alloc::Global;
use std::test::Fail;

/// One file with the eight trigrams of `Google.*Search`, eight files that each lack another one of
/// them, and one that has all of them and no match.
const LACKING: &[TreeItem<'static>] = &[
    ("/g", None),
    ("/g/0", Some("Google Search\n")),
    ("/g/1", Some("oogle Search\n")),
    ("/g/2", Some("Goo ogle Search\n")),
    ("/g/3", Some("Goog gle Search\n")),
    ("/g/4", Some("Googl Search\n")),
    ("/g/5", Some("Google earch\n")),
    ("/g/6", Some("Google Sea arch\n")),
    ("/g/7", Some("Google Sear rch\n")),
    ("/g/8", Some("Google Searc\n")),
    ("/g/9", Some("Search\nGoogle\n")),
];

/// Those of them that have all trigrams.
const HAVING: &[TreeItem<'static>] = &[
    ("/g", None),
    ("/g/0", Some("Google Search\n")),
    ("/g/9", Some("Search\nGoogle\n")),
];

/// The indexed files, the files at the time of the search, the arguments, and what is printed on
/// both outputs.
type Row<'a> = (
    &'a [TreeItem<'a>],
    &'a [TreeItem<'a>],
    &'a str,
    &'a str,
    &'a str,
);

const ROWS: &[Row<'static>] = &[
    (GOOGLE, FIRST, "Google.*Search", "/g/1:Google Search\n", ""),
    (
        GOOGLE,
        FIRST,
        "-brute Google.*Search",
        "/g/1:Google Search\n",
        "csearch: /g/2: no such file\ncsearch: /g/3: no such file\n",
    ),
    (
        LACKING,
        HAVING,
        "Google.*Search",
        "/g/0:Google Search\n",
        "",
    ),
];

/// Whether such a search matches and prints this.
fn prints(alloc: Global, row: &Row<'_>) -> Result<bool, Fail> {
    let (indexed, there, args, lines, faults) = *row;
    let index = index_of(alloc, &["/g"], indexed)?;
    let mut tree = tree_of(alloc, there)?;
    let mut out = MemSink::new(alloc, 1000);
    let mut err = MemSink::new(alloc, 1000);
    let status = search(alloc, args, Some(&index), &mut tree, &mut out, &mut err)?;
    Ok(status == Ok(Status::Matched) && have(&out, lines, &err, faults))
}

#[test]
fn only_candidates_are_opened(rt: HostRuntime) -> Result<(), Fail> {
    for row in ROWS {
        assert!(rt; prints(rt.alloc(), row)?, "{} for {:?}", row.2, row.3);
    }
    Ok(())
}
