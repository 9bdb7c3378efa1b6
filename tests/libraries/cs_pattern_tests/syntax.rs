// The tree of a pattern.
use cs_syntax::{ByteSet, Node, parse};
use std::alloc::Global;

/// The set that is the tree of a pattern.
fn set_of(alloc: Global, fold: bool) -> Option<ByteSet> {
    match parse(alloc, "a", fold) {
        Ok(pattern) => match pattern.tree() {
            Node::Set(set) => Some(*set),
            _ => None,
        },
        Err(_) => None,
    }
}

/// Whether the tree of a letter has both cases with folding, and the letter alone without.
fn lends_both(alloc: Global) -> bool {
    let (Some(both), Some(one)) = (set_of(alloc, true), set_of(alloc, false)) else {
        return false;
    };
    both.contains(b'A')
        && both.contains(b'a')
        && !both.contains(b'b')
        && both.len() == 2
        && both.single() == None
        && one.single() == Some(b'a')
}

#[test]
fn lends_the_tree(rt: HostRuntime) {
    assert!(rt; lends_both(rt.alloc()));
}
