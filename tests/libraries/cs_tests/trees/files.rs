// Trees in memory and on the real disk, and readers and writers that fail midway.
ghost use Rattle.std.specs.Prelude.{◌≡◌, true};
ghost use Rattle.cs_tree.specs.Cover.{is_absolute};

use crate::fixtures::{spaced, tree_of};
use cs_fakes::{Item, MemTree, PutFault, strings};
use cs_tree::{
    DiskTree, IoFault, Kind, PathFault, Sink, Source, StdSink, StdSource, Tree, TreeFault,
    TreeReader, clean, covers, is_normalized, reduce,
};
use std::alloc::{AllocError, Global};
use std::io::{Read, Write};
use std::os::unix::fs::symlink;
use std::test::*;
use std::{fs, io};

/// A reader and writer that fails at its second call, and does nothing at its third.
#[derive(Drop)]
struct Flaky {
    calls: u32,
}

impl Flaky {
    fn next(&mut self) -> io::Result<usize> {
        self.calls = self.calls.saturating_add(1);
        match self.calls {
            1 => Ok(1),
            2 => Err(io::Error::from(io::ErrorKind::BrokenPipe)),
            _ => Ok(0),
        }
    }
}

impl Read for Flaky {
    fn read(&mut self, buf: &mut [u8]) -> io::Result<usize> {
        let n = self.next()?;
        Ok(n.min(buf.len()))
    }
}

impl Write for Flaky {
    fn write(&mut self, buf: &[u8]) -> io::Result<usize> {
        let n = self.next()?;
        Ok(n.min(buf.len()))
    }

    fn flush(&mut self) -> io::Result<()> {
        let _calls = self.next()?;
        Ok(())
    }
}

/// Whether a source reports that a read failed midway, and continues.
fn reports_a_failed_read() -> bool {
    let mut source = StdSource::new(Flaky { calls: 0 });
    let mut buf = [0u8; 2];
    source.read(&mut buf) == Ok(1)
        && source.read(&mut buf) == Err(IoFault::Failed)
        && source.read(&mut buf) == Ok(0)
        && source.failures() == 1
}

/// Whether a sink reports that a flush and a write failed midway, and continues.
fn reports_failed_writes() -> bool {
    let mut sink = StdSink::new(Flaky { calls: 0 });
    sink.write(b"ab") == Ok(1)
        && sink.flush() == Err(IoFault::Failed)
        && sink.write(b"ab") == Err(IoFault::Failed)
        && sink.write(b"") == Ok(0)
        && sink.flush() == Ok(())
        && sink.failures() == 2
}

#[test]
fn failures_in_mid_stream(rt: HostRuntime) {
    assert!(rt; reports_a_failed_read());
    assert!(rt; reports_failed_writes());
}

/// Whether a reader over the tree reads these bytes of the open file at once, and then its end.
fn has_rest<T: Tree>(tree: &mut T, want: &[u8]) -> bool {
    let mut reader = TreeReader::new(tree);
    let mut buf = [0u8; 100];
    reader.read(&mut buf) == Ok(want.len())
        && buf.starts_with(want)
        && reader.read(&mut buf) == Ok(0)
}

/// Whether the folder has exactly these names, each followed by a space.
fn has_names<T: Tree>(alloc: Global, tree: &mut T, path: &str, want: &str) -> bool {
    match tree.entries(alloc, path) {
        Ok(listing) => are_names(alloc, listing.names, want) == Ok(true),
        Err(_) => false,
    }
}

/// Whether these are the names in ascending order, each followed by a space.
fn are_names(alloc: Global, names: Vec<String>, want: &str) -> Result<bool, AllocError> {
    let mut names = names;
    names.sort()?;
    Ok(spaced(alloc, &names)?.as_str() == want)
}

/// Paths, and the answers of putting a folder there, or an item that is neither file nor folder.
const PUTS: &[(&str, Kind, Result<(), PutFault>)] = &[
    ("/b/c", Kind::Folder, Err(PutFault::NoFolder)),
    ("a", Kind::Folder, Err(PutFault::BadPath)),
    ("/", Kind::Folder, Err(PutFault::BadPath)),
    ("/a/", Kind::Folder, Err(PutFault::BadPath)),
    ("/a/../b", Kind::Folder, Err(PutFault::BadPath)),
    ("/a", Kind::Folder, Ok(())),
    ("/a\0", Kind::Other, Err(PutFault::BadPath)),
    ("/a", Kind::Other, Err(PutFault::HasEntries)),
    ("/a/x/y", Kind::Other, Err(PutFault::NoFolder)),
    ("/o", Kind::Other, Ok(())),
];

/// A folder, or an item that is neither file nor folder.
fn item_of(kind: Kind) -> Item {
    match kind {
        Kind::Folder => Item::Folder,
        _ => Item::Other,
    }
}

#[test]
fn items_are_put_and_removed(rt: HostRuntime) -> Result<(), Fail> {
    let mut tree = tree_of(rt.alloc(), "/a", &[("/a/x", b"one\n")])?;
    for (path, kind, answer) in PUTS {
        assert!(rt; tree.put(*path, item_of(*kind)) == *answer, "at {path}");
    }
    assert!(rt; tree.put("/d", Item::Denied) == Ok(()));
    assert!(rt; has_items(rt.alloc(), &mut tree));
    assert!(rt; removes_items(rt.alloc(), &mut tree));
    Ok(())
}

/// Whether the tree has the items that were put.
fn has_items(alloc: Global, tree: &mut MemTree) -> bool {
    has_names(alloc, tree, "/a", "x ")
        && has_names(alloc, tree, "/", "a d o ")
        && tree.entries(alloc, "/b").err() == Some(TreeFault::Missing)
        && tree.kind("/a") == Ok(Kind::Folder)
        && tree.kind("/a/x") == Ok(Kind::File)
        && tree.kind("/o") == Ok(Kind::Other)
        && tree.kind("/d") == Err(TreeFault::Denied)
        && tree.failures() == 2
}

/// Whether everything below a removed item is removed.
fn removes_items(alloc: Global, tree: &mut MemTree) -> bool {
    tree.remove("/a")
        && !tree.remove("/a")
        && tree.kind("/a/x") == Err(TreeFault::Missing)
        && has_names(alloc, tree, "/", "d o ")
        && tree.remove("/")
        && has_names(alloc, tree, "/", "")
}

/// Recreates a folder of the real disk, with a file.
fn make_folder(rt: &HostRuntime, folder: &str, file: &str, text: &str) -> Result<(), Fail> {
    let _absent = fs::remove_dir_all(rt, folder);
    fs::create_dir(rt, folder)?;
    fs::write(rt, file, text)?;
    Ok(())
}

#[test]
fn the_real_disk(rt: HostRuntime) -> Result<(), Fail> {
    make_folder(&rt, "cs_tree_disk_test", "cs_tree_disk_test/x", "abcd\n")?;
    fs::create_dir(&rt, "cs_tree_disk_test/d")?;
    assert!(rt; answers_from_the_disk(&rt)?);
    fs::remove_dir_all(&rt, "cs_tree_disk_test")?;
    Ok(())
}

/// Whether a tree of the disk reports files and missing files.
fn answers_from_the_disk(rt: &HostRuntime) -> Result<bool, Fail> {
    let mut tree = DiskTree::new(rt.clone()?);
    Ok(reads_the_disk(rt.alloc(), &mut tree) && fails_on_the_disk(&mut tree))
}

/// Whether a file is read.
fn reads_the_disk<T: Tree>(alloc: Global, tree: &mut T) -> bool {
    tree.kind("cs_tree_disk_test") == Ok(Kind::Folder)
        && tree.kind("cs_tree_disk_test/x") == Ok(Kind::File)
        && has_names(alloc, tree, "cs_tree_disk_test", "d x ")
        && tree.open("cs_tree_disk_test/x") == Ok(())
        && has_rest(tree, b"abcd\n")
        && tree.failures() == 0
}

/// Whether the failures for a missing file and for a folder are reported.
fn fails_on_the_disk<T: Tree>(tree: &mut T) -> bool {
    tree.kind("cs_tree_disk_test/y") == Err(TreeFault::Missing)
        && tree.kind("cs_tree_disk_test/x/y") == Err(TreeFault::Missing)
        && tree.open("cs_tree_disk_test/y") == Err(TreeFault::Missing)
        && tree.open("cs_tree_disk_test") == Err(TreeFault::Failed)
        && tree.failures() == 4
}

/// The target of a link, and its path.
const LINKS: &[(&str, &str)] = &[
    ("x", "cs_tree_link_test/file"),
    (".", "cs_tree_link_test/circle"),
    ("none", "cs_tree_link_test/broken"),
    ("itself", "cs_tree_link_test/itself"),
];

#[test]
fn links_are_neither_files_nor_folders(rt: HostRuntime) -> Result<(), Fail> {
    make_folder(&rt, "cs_tree_link_test", "cs_tree_link_test/x", "ab\n")?;
    for (target, path) in LINKS {
        symlink(&rt, *target, *path)?;
    }
    assert_eq!(rt; answers_from_links(&rt)?, (None, true));
    fs::remove_dir_all(&rt, "cs_tree_link_test")?;
    Ok(())
}

/// A link that a tree of the disk reports as something else, and whether it follows links.
fn answers_from_links(rt: &HostRuntime) -> Result<(Option<&'static str>, bool), Fail> {
    let mut tree = DiskTree::new(rt.clone()?);
    Ok((wrong_link(&mut tree), follows_links(rt.alloc(), &mut tree)))
}

/// A link that the tree reports as something else, if there is one.
fn wrong_link<T: Tree>(tree: &mut T) -> Option<&'static str> {
    for (_target, path) in LINKS {
        if tree.kind(path) != Ok(Kind::Other) {
            return Some(*path);
        }
    }
    None
}

/// Whether a file is read through a link.
fn follows_links<T: Tree>(alloc: Global, tree: &mut T) -> bool {
    has_names(
        alloc,
        tree,
        "cs_tree_link_test",
        "broken circle file itself x ",
    ) && tree.open("cs_tree_link_test/file") == Ok(())
        && has_rest(tree, b"ab\n")
        && tree.open("cs_tree_link_test/broken") == Err(TreeFault::Missing)
        && tree.open("cs_tree_link_test/itself") == Err(TreeFault::Failed)
        && tree.failures() == 2
}

/// Whether this is the cleaned path.
fn is_cleaned(alloc: Global, folder: &str, text: &str, want: Result<&str, PathFault>) -> bool
    requires { is_absolute folder.now ≡ true }
{
    match (clean(alloc, folder, text), want) {
        (Ok(path), Ok(want)) => path.as_str() == want,
        (Err(fault), Err(want)) => fault == want,
        _ => false,
    }
}

const CLEANED: &[(&str, &str, Result<&str, PathFault>)] = &[
    ("/w", "a/./b/../c/", Ok("/w/a/c")),
    ("/w", "../..", Ok("/")),
    ("/w", "/t//x", Ok("/t/x")),
    ("/", "a", Ok("/a")),
    ("/w", "", Err(PathFault::Empty)),
    ("/w", "a\0", Err(PathFault::Nul)),
    ("/w\0", "a", Err(PathFault::Nul)),
    ("/w\0", "/a", Ok("/a")),
];

#[test]
fn paths_are_cleaned(rt: HostRuntime) {
    for (folder, text, want) in CLEANED {
        assert!(rt;
            is_cleaned(rt.alloc(), folder, text, *want),
            "{folder} and {text}"
        );
    }
}

const COVERED: &[(&str, &str, bool)] = &[
    ("/a/b", "/a/b", true),
    ("/a/b", "/a/b/c", true),
    ("/a/b", "/a/bc", false),
    ("/a/b", "/a", false),
    ("/", "/a", true),
    ("/", "a", false),
];

#[test]
fn covered_names(rt: HostRuntime) {
    for (path, name, want) in COVERED {
        assert!(rt; covers(path, name) == *want, "{path} and {name}");
    }
}

/// Whether exactly these paths are left by `reduce`.
fn are_reduced(alloc: Global, paths: &[&str], want: &[&str]) -> Result<bool, AllocError> {
    let kept = reduce(alloc, &strings(alloc, paths)?)?;
    Ok(kept == strings(alloc, want)?)
}

const REDUCED: &[(&[&str], &[&str])] = &[
    (&["/a/bc", "/a/b", "/a/b", "/a/b/c"], &["/a/b", "/a/bc"]),
    (&["/a/b", "/a"], &["/a"]),
    (&["/a/b", "/a/b-x", "/a/b/c"], &["/a/b", "/a/b-x"]),
    (&["/", "/a"], &["/"]),
    (&["/a", "/"], &["/"]),
    (&["/b/c/d", "/b", "/a"], &["/a", "/b"]),
    (&["/a", "", "b"], &["", "b"]),
    (&[], &[]),
];

#[test]
fn paths_are_reduced(rt: HostRuntime) {
    for (paths, want) in REDUCED {
        assert!(rt;
            are_reduced(rt.alloc(), paths, want) == Ok(true),
            "{paths:?}"
        );
    }
}

const NORMALIZED: &[(&str, bool)] = &[
    ("/", true),
    ("/a/b-x", true),
    ("/a/..b", true),
    ("", false),
    ("a", false),
    ("//", false),
    ("/a/", false),
    ("/a//b", false),
    ("/./a", false),
    ("/a/..", false),
    ("/a\0", false),
];

#[test]
fn normalized_paths(rt: HostRuntime) {
    for (path, want) in NORMALIZED {
        assert!(rt; is_normalized(path) == *want, "{path:?}");
    }
}
