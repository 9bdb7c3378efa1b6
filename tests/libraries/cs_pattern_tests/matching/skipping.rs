// The first matching line of a block, and the lines that a prefilter skips.
ghost use Rattle.cs_match.specs.Skipping.{AreWholeLines};

use crate::matching::states::program_of;
use cs_match::Matcher;
use memchr::memrchr;
use std::alloc::Global;

/// The lines that end in the text.
fn whole(text: &[u8]) -> &[u8]
    ensures { AreWholeLines result.now }
{
    match memrchr(b'\n', text) {
        Some(at) => &text[..at + 1],
        None => &[],
    }
}

/// The start and the end of the first matching line, and the number of cached states after the
/// search.
type Search = (Option<(usize, usize)>, usize);

/// A search of a block by a new matcher.
fn search(alloc: Global, pattern: &str, block: &[u8]) -> Option<Search> {
    let program = program_of(alloc, pattern)?;
    let mut matcher = Matcher::new(alloc, &program).ok()?;
    let found = matcher.next_match(whole(block), 0);
    let states = matcher.state_count();
    Some((found.map(|line| (line.start, line.end)), states))
}

/// Whether the line is read byte by byte, which adds states. It has no match.
fn is_read(alloc: Global, pattern: &str, line: &str) -> Option<bool> {
    let text = format!(in alloc; "{line}\n").ok()?;
    match search(alloc, pattern, text.as_bytes())? {
        (None, states) => Some(states > 1),
        (Some(_), _) => None,
    }
}

/// A pattern, a block, and where its first matching line is.
type Row = (&'static str, &'static str, Option<(usize, usize)>);

const FIRST: &[Row] = &[
    ("b", "a\nb\n", Some((2, 3))),
    ("b", "a\nc\n", None),
    ("b", "", None),
    ("^$", "a\n\n", Some((2, 2))),
    ("^$", "\na\n", Some((0, 0))),
    ("c$", "ca\nabc\n", Some((3, 6))),
    ("return", "x\n  return 0;\n", Some((2, 13))),
    ("a.*b", "a\nb\nab\n", Some((4, 6))),
    ("\\bx\\b", "xy\n x\n", Some((3, 5))),
    ("alpha|beta", "alph\nbet\n beta\n", Some((9, 14))),
    // A word may not go over a newline.
    ("a\\sq", "a\nq\na q\n", Some((4, 7))),
    ("(?i)the", "t\nhe\n  tHe\n", Some((5, 10))),
];

#[test]
fn first_matching_lines(rt: HostRuntime) {
    for (pattern, block, want) in FIRST {
        let found = search(rt.alloc(), pattern, block.as_bytes()).map(|search| search.0);
        assert!(rt; found == Some(*want), "{pattern:?} in {block:?}");
    }
}

/// A pattern, and a line that it matches.
const WORDS: &[(&str, &str)] = &[
    ("TODO|FIXME", "FIXME"),
    ("TODO|FIXME", "TODO"),
    ("(?i)copyright", "copyRIGHT"),
    ("return", "return"),
    ("q", "q"),
    ("e", "e"),
    (";$", "b;"),
    ("alpha|beta|gamma", "beta"),
    ("[0-9]{3}-[0-9]{4}", "123-4567"),
];

/// The first offset at which that line is not found, after another line.
fn missed_offset(alloc: Global, pattern: &str, word: &str) -> Option<Option<usize>> {
    let program = program_of(alloc, pattern)?;
    let mut matcher = Matcher::new(alloc, &program).ok()?;
    for offset in 0..130usize {
        let before = ".".repeat(alloc, offset).ok()?;
        let text = format!(in alloc; "{before}\n{word}\n{before}\n").ok()?;
        let line = matcher.next_match(whole(text.as_bytes()), 0);
        let start = offset.saturating_add(1);
        let want = (start, start.saturating_add(word.len()));
        if line.map(|line| (line.start, line.end)) != Some(want) {
            return Some(Some(offset));
        }
    }
    Some(None)
}

// The offsets go over the borders of vectors.
#[test]
fn words_at_all_offsets(rt: HostRuntime) {
    for (pattern, word) in WORDS {
        let missed = missed_offset(rt.alloc(), pattern, word);
        assert!(rt; missed == Some(None), "{pattern:?}: {missed:?}");
    }
}

const SKIPPED: &[(&str, &str, &str)] = &[
    // Words that are searched for by pairs of bytes.
    ("^#include\\B", "#includ", "#include"),
    ("static.*struct", "struct", "static"),
    ("struct.*block", "struct", "blocks"),
    ("\\binline\\B", "in line", "inline"),
    ("(alpha|beta)gamma", "alpha", "gamma"),
    ("^(a|b)*q.*d", "abd", "q"),
    ("ab+cq", "ab", "bcqa"),
    ("e(qz)+e\\B", "qze", "eqz"),
    ("(eq)+z\\B", "eq z", "eqz."),
    ("x(.q)+z", "x.q", "aqzx"),
    ("ab*zq", "ab", "zqa"),
    ("ab?zq\\B", "ab", "azq"),
    ("(ax){3}\\B", "axax", "axaxax."),
    ("a{2,}zq", "zq", "azq"),
    ("q\\Bz\\Bj\\B", "qz", "qzj"),
    ("(?i)zeal\\B", "eAl", "zEAl."),
    ("(?i)a_1\\B", "A\u{7f}1", "A_1."),
    ("(static.*struct)|\\n\\n\\n", "stat struct", "static"),
    ("(?i)(zebra|crossing)\\B", "missing", "aCrOssing"),
    ("[^a-z]q[^u]\\B", "aq.", ".qa"),
    (";\\B", "no end", "a;b"),
    // Words that are searched for by their first three sets.
    ("[0-9]{3}-[0-9]{4}\\B", "1-3456", "123-4567."),
    ("(alpha|beta|gamma)\\B", "alph eta amma", "alpha"),
    ("(alpha|beta|gamma)\\B", "amma", "gamma"),
];

// No clause says by what lines are skipped. A line that a prefilter skips is not read by the DFA,
// and adds no state. A line that is read begins a match somewhere, since otherwise the DFA stays in
// the start state.
#[test]
fn what_lines_are_skipped(rt: HostRuntime) {
    for (pattern, skipped, read) in SKIPPED {
        assert!(rt;
            is_read(rt.alloc(), pattern, skipped) == Some(false),
            "{pattern:?} over {skipped:?}"
        );
        assert!(rt;
            is_read(rt.alloc(), pattern, read) == Some(true),
            "{pattern:?} over {read:?}"
        );
    }
    // A word of an exact prefilter is a match.
    assert!(rt; is_read(rt.alloc(), "alpha|beta|gamma", "alph gamm") == Some(false));
    // So are words with edges and the ends of a line.
    assert!(rt; is_read(rt.alloc(), "\\binline\\b", "inlined") == Some(false));
    assert!(rt; is_read(rt.alloc(), "^#include", "x#include") == Some(false));
    assert!(rt; is_read(rt.alloc(), ";$", "a;b") == Some(false));
    assert!(rt; is_read(rt.alloc(), "(alpha|beta|gamma)$", "alphas") == Some(false));
    // The lazy DFA.
    assert!(rt; is_read(rt.alloc(), "(static.*struct)|\\n", "static") == Some(true));
}
