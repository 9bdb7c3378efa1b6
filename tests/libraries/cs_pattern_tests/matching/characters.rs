// Character sets: their ranges.
use cs_syntax::CharSet;
use std::alloc::{AllocError, Global};

const APART: &[(u32, u32)] = &[(0xE000, 0xE010), (97, 122), (0xD7F0, 0xDFFF)];

const JOINED: &[(u32, u32)] = &[(97, 122), (0xD7F0, 0xE010)];

const OTHERS: &[(u32, u32)] = &[(0, 96), (123, 0xD7EF), (0xE011, 0x10_FFFF)];

/// Whether the sets of the ranges, of their complement, and of all numbers have their ranges and
/// members.
fn have_ranges(alloc: Global) -> Result<bool, AllocError> {
    let set = CharSet::from_ranges(alloc, APART)?;
    let others = set.complement(alloc)?;
    let all = CharSet::from_ranges(alloc, &[(0, 0x11_0000)])?;
    Ok(
        set.runs() == JOINED
            && others.runs() == OTHERS
            && all.contains(0xE000)
            && !all.contains(0xD800)
            && !all.contains(0x11_0000),
    )
}

#[test]
fn ranges_are_maximal(rt: HostRuntime) {
    assert_eq!(rt; have_ranges(rt.alloc()), Ok(true));
}
