// The cached states of a matcher.
use cs_match::{Matcher, Program};
use cs_syntax::parse;
use std::alloc::{AllocError, Global};
use std::test::Fail;

/// The program of a pattern.
pub fn program_of(alloc: Global, pattern: &str) -> Option<Program> {
    let pattern = parse(alloc, pattern, false).ok()?;
    Program::compile(alloc, &pattern).ok()
}

/// Eleven letters, each of them `a` or `b`.
fn letters(number: usize) -> [u8; 11] {
    let mut line = [b'a'; 11];
    for k in 0..11 {
        if (number >> (10 - k)) & 1 == 1 {
            line[k] = b'b';
        }
    }
    line
}

/// The first of 4096 lines after which the matcher has only one DFA state.
fn line_without_states(matcher: &mut Matcher<'_>) -> Option<usize> {
    for i in 0..4096usize {
        let line = letters(if i < 2048 { i } else { 4095 - i });
        matcher.is_match(&line);
        if matcher.state_count() <= 1 {
            return Some(i);
        }
    }
    None
}

/// More states than the table has, in ascending and in descending order. `tests/runs/rows.py` has
/// the matches.
#[test]
fn more_sets_than_rows(rt: HostRuntime) -> Result<(), Fail> {
    let program = program_of(rt.alloc(), "a(a|b){9}$").ok_or("program")?;
    let mut matcher = Matcher::new(rt.alloc(), &program)?;
    let wrong = line_without_states(&mut matcher);
    assert!(rt; wrong.is_none(), "{wrong:?}");
    Ok(())
}

/// So many letters `a` and `b` in no order, by a linear congruential generator.
fn mixed_letters(alloc: Global, count: usize) -> Result<Vec<u8>, AllocError> {
    let mut line = Vec::new(alloc);
    let mut seed = 1u32;
    for _ in 0..count {
        seed = seed.wrapping_mul(1_664_525).wrapping_add(1_013_904_223);
        line.push(if seed >> 31 == 1 { b'a' } else { b'b' })?;
    }
    Ok(line)
}

// No clause says that a cached state is found again. Here a state is which of the last nine letters
// are `a`. A state that is not found is cached again, so that there are more.
#[test]
fn states_are_cached_once(rt: HostRuntime) -> Result<(), Fail> {
    let program = program_of(rt.alloc(), "a(a|b){8}$").ok_or("program")?;
    let mut matcher = Matcher::new(rt.alloc(), &program)?;
    let line = mixed_letters(rt.alloc(), 20_000)?;
    for reading in 1..3 {
        matcher.is_match(&line);
        let states = matcher.state_count();
        assert!(rt; states == 512, "{states} states after reading {reading}");
    }
    Ok(())
}
