// Walks over trees in memory, and over trees that fail.
use crate::fixtures::{bytes_of, spaced, tree_of};
use cs_fakes::{Item, MemTree, PutFault, strings};
use cs_tree::{Kind, Listing, Tree, TreeFault, WalkFault, Walked, walk};
use std::alloc::{AllocError, Global};
use std::test::*;

fn walk_from<T: Tree>(alloc: Global, tree: &mut T, paths: &[&str]) -> Result<Walked, AllocError> {
    walk(alloc, tree, &strings(alloc, paths)?)
}

/// Whether a walk from the paths finds exactly these names, each followed by a space, and these
/// faults.
fn walks_to<T: Tree>(
    alloc: Global,
    tree: &mut T,
    paths: &[&str],
    names: &str,
    faults: &[(&str, WalkFault)],
) -> Result<bool, AllocError> {
    let walked = walk_from(alloc, tree, paths)?;
    Ok(spaced(alloc, &walked.names)?.as_str() == names && are_faults(&walked.faults, faults))
}

fn are_faults(faults: &[(String, WalkFault)], want: &[(&str, WalkFault)]) -> bool {
    if faults.len() != want.len() {
        return false;
    }
    for at in 0..want.len() {
        if faults[at].0.as_str() != want[at].0 || faults[at].1 != want[at].1 {
            return false;
        }
    }
    true
}

/// Whether walks exclude a path whose last element begins with a dot, but not paths below it.
fn tests_the_last_element(alloc: Global, tree: &mut MemTree) -> Result<bool, AllocError> {
    Ok(
        walks_to(alloc, tree, &["/.x"], "", &[])?
            && walks_to(alloc, tree, &["/.x/y"], "/.x/y ", &[])?
            && walks_to(alloc, tree, &["/"], "", &[])?,
    )
}

#[test]
fn only_the_last_element_is_tested(rt: HostRuntime) -> Result<(), Fail> {
    let mut nothing = MemTree::new(rt.alloc(), 4)?;
    assert!(rt; walks_to(rt.alloc(), &mut nothing, &["/.x"], "", &[]) == Ok(true));
    let mut tree = tree_of(rt.alloc(), "/.x", &[("/.x/y", b"abcd\n")])?;
    assert!(rt; tests_the_last_element(rt.alloc(), &mut tree) == Ok(true));
    Ok(())
}

/// Puts a folder with a file that fails and one that must not be read.
fn put_failing(
    alloc: Global,
    tree: &mut MemTree,
    folder: &str,
    cut: &str,
    denied: &str,
) -> Result<(), PutFault> {
    tree.put(folder, Item::Folder)?;
    tree.put(cut, Item::Cut(bytes_of(alloc, "one\n")?))?;
    tree.put(denied, Item::Denied)
}

/// Three such folders.
fn failing_files(alloc: Global) -> Result<MemTree, PutFault> {
    let mut tree = MemTree::new(alloc, 4)?;
    put_failing(alloc, &mut tree, "/a", "/a/g", "/a/z")?;
    put_failing(alloc, &mut tree, "/a/b", "/a/b/f", "/a/b/d")?;
    put_failing(alloc, &mut tree, "/a/b-x", "/a/b-x/f", "/a/b-x/d")?;
    Ok(tree)
}

#[test]
fn names_and_faults_are_in_order(rt: HostRuntime) -> Result<(), Fail> {
    let mut tree = failing_files(rt.alloc())?;
    let denied = WalkFault::Tree(TreeFault::Denied);
    let paths = ["/a/b", "/a", "/a"];
    let names = "/a/b-x/f /a/b/f /a/g ";
    let faults = [("/a/b-x/d", denied), ("/a/b/d", denied), ("/a/z", denied)];
    assert!(rt; walks_to(rt.alloc(), &mut tree, &paths, names, &faults) == Ok(true));
    Ok(())
}

/// A tree in which every path is a folder that lists `a`.
#[derive(Drop)]
struct Endless {
    unnamed: bool,
}

impl Tree for Endless {
    ghost failed = { λ _. 0 };

    ghost counts_modelled = { λ _ model. model };

    fn kind(&mut self, _path: &str) -> Result<Kind, TreeFault> {
        Ok(Kind::Folder)
    }

    fn entries(&mut self, alloc: Global, _path: &str) -> Result<Listing, TreeFault> {
        let mut names = Vec::new(alloc);
        names.push(String::from_str(alloc, "a")?)?;
        Ok(Listing {
            names,
            unnamed: self.unnamed,
        })
    }

    fn open(&mut self, _path: &str) -> Result<(), TreeFault> {
        Ok(())
    }

    fn read(&mut self, _buf: &mut [u8]) -> Result<usize, TreeFault> {
        Ok(0)
    }

    fn failures(&self) -> u64 {
        0
    }
}

/// Whether a walk of an endless tree finds no name, and one path of 4096 bytes.
fn leaves_a_long_path(alloc: Global) -> Result<bool, AllocError> {
    let walked = walk_from(alloc, &mut Endless { unnamed: false }, &["/r"])?;
    Ok(
        walked.names.is_empty()
            && walked.faults.len() == 1
            && walked.faults[0].0.len() == 4096
            && walked.faults[0].1 == WalkFault::TooLong,
    )
}

/// Whether it also reports each folder above that path, if each has a name that is not text.
fn faults_folders(alloc: Global) -> Result<bool, AllocError> {
    let walked = walk_from(alloc, &mut Endless { unnamed: true }, &["/r"])?;
    Ok(
        walked.names.is_empty()
            && walked.faults.len() == 2048
            && walked.faults[0].0.as_str() == "/r"
            && walked.faults[0].1 == WalkFault::Unnamed
            && walked.faults[2046].1 == WalkFault::Unnamed
            && walked.faults[2047].1 == WalkFault::TooLong,
    )
}

#[test]
fn a_path_of_4096_bytes_is_left(rt: HostRuntime) {
    assert!(rt; leaves_a_long_path(rt.alloc()) == Ok(true));
    assert!(rt; faults_folders(rt.alloc()) == Ok(true));
}
