// Scans with reads of one byte or of several, and with reads that fail. `tests/runs/rows.py` has
// scans of the program.
use crate::fixtures::by_chance;
use cs_fakes::number;
use cs_tree::MemSource;
use cs_trigram::{Reason, Scan, ScanFault, Scanner};
use std::alloc::{AllocError, Global};
use std::test::Fail;

/// The wanted answer of a scan: the trigrams and the number of bytes, or why the file is skipped.
type Want<'a> = Result<(&'a [&'a [u8; 3]], u64), Reason>;

/// Whether the scan gives this answer.
fn is_so(scan: &Scan, want: Want<'_>) -> bool {
    match (scan, want) {
        (Scan::Text { trigrams, bytes }, Ok((parts, count))) => {
            *bytes == count && are_numbers(trigrams, parts)
        }
        (Scan::Skip(reason), Err(want)) => *reason == want,
        _ => false,
    }
}

fn are_numbers(trigrams: &[u32], parts: &[&[u8; 3]]) -> bool {
    if trigrams.len() != parts.len() {
        return false;
    }
    for at in 0..parts.len() {
        if trigrams[at] != number(parts[at].as_slice()) {
            return false;
        }
    }
    true
}

/// A scan of the file with reads of this size, which fail after it if it is `cut`.
fn scan_of(scanner: &mut Scanner, file: &[u8], step: usize, cut: bool) -> Result<Scan, ScanFault> {
    scanner.scan(&mut MemSource::new(file, step.max(1), cut))
}

/// Whether a scan of the file, with reads of this size, gives this answer.
fn scans(scanner: &mut Scanner, file: &[u8], step: usize, want: Want<'_>) -> bool {
    match scan_of(scanner, file, step, false) {
        Ok(scan) => is_so(&scan, want),
        Err(_) => false,
    }
}

/// The same with reads of each of these sizes.
fn scans_by(scanner: &mut Scanner, file: &[u8], steps: &[usize], want: Want<'_>) -> bool {
    for step in steps {
        if !scans(scanner, file, *step, want) {
            return false;
        }
    }
    true
}

/// The number of trigrams of a scan with reads of this size, their sum, and the number of bytes.
fn sums(scanner: &mut Scanner, file: &[u8], step: usize) -> Option<(usize, u64, u64)> {
    match scan_of(scanner, file, step, false) {
        Ok(Scan::Text { trigrams, bytes }) => {
            let mut sum = 0u64;
            for trigram in &trigrams {
                sum = sum.wrapping_add(u64::from(*trigram));
            }
            Some((trigrams.len(), sum, bytes))
        }
        _ => None,
    }
}

#[test]
fn most_trigrams(rt: HostRuntime) -> Result<(), Fail> {
    let mut scanner = Scanner::new(rt.alloc())?;
    let file = by_chance(rt.alloc(), 20_243)?;
    let want = Some((20_000, 103_197_885_365, 20_243));
    for step in [1, 1000] {
        assert!(rt; sums(&mut scanner, &file, step) == want, "{step} at a time");
    }
    Ok(())
}

/// Whether a file of 20001 trigrams is skipped.
fn skips_more_trigrams(alloc: Global) -> Result<bool, AllocError> {
    let mut scanner = Scanner::new(alloc)?;
    let file = by_chance(alloc, 20_244)?;
    let many = Err(Reason::ManyTrigrams);
    Ok(scans_by(&mut scanner, &file, &[1, 1000], many))
}

#[test]
fn more_trigrams(rt: HostRuntime) {
    assert!(rt; skips_more_trigrams(rt.alloc()) == Ok(true));
}

/// Whether a scan gives the usual answer after a failed read.
fn goes_on_after(scanner: &mut Scanner) -> bool {
    fails(scanner, b"abc") && scans(scanner, b"bcd", 2, Ok((&[b"bcd"], 3)))
}

#[test]
fn used_again(rt: HostRuntime) -> Result<(), Fail> {
    let mut scanner = Scanner::new(rt.alloc())?;
    assert!(rt; goes_on_after(&mut scanner));
    Ok(())
}

/// Whether a scan of a file whose reads fail after these bytes reports a failed read.
fn fails(scanner: &mut Scanner, file: &[u8]) -> bool {
    scan_of(scanner, file, 2, true).err() == Some(ScanFault::Read)
}

/// Whether a scan reports a NUL before the read that fails.
fn reports_a_nul(scanner: &mut Scanner) -> bool {
    match scan_of(scanner, b"ab\x00c", 2, true) {
        Ok(scan) => is_so(&scan, Err(Reason::Nul)),
        Err(_) => false,
    }
}

#[test]
fn failing_reads(rt: HostRuntime) -> Result<(), Fail> {
    let mut scanner = Scanner::new(rt.alloc())?;
    assert!(rt; fails(&mut scanner, b"") && reports_a_nul(&mut scanner));
    Ok(())
}

/// Some bytes, then a part repeated, and then some others.
fn joined(
    alloc: Global,
    prefix: &[u8],
    part: &[u8],
    count: usize,
    others: &[u8],
) -> Result<Vec<u8>, AllocError> {
    let mut file = Vec::from_slice(alloc, prefix)?;
    for _part in 0..count {
        file.extend_from_slice(part)?;
    }
    file.extend_from_slice(others)?;
    Ok(file)
}

const PARTS: &[&[u8; 3]] = &[b"\xa9\xc3\xa9", b"\xc3\xa9\xc3"];

/// A letter of two bytes.
const LETTER: &[u8] = b"\xc3\xa9";

/// The file: some bytes, a part, how often it is repeated, and some others. The wanted answer.
type Repeated<'a> = (&'a [u8], &'a [u8], usize, &'a [u8], Want<'a>);

const REPEATED: &[Repeated<'static>] = &[
    (b"", b"a", 1999, b"\n", Ok((&[b"aa\n", b"aaa"], 2000))),
    (b"", b"a", 2000, b"", Ok((&[b"aaa"], 2000))),
    (b"", b"a", 2000, b"\n", Err(Reason::LongLine)),
    (b"", b"a", 2001, b"", Err(Reason::LongLine)),
    (b"", b"a", 70_000, b"\x00", Err(Reason::LongLine)),
    (b"", LETTER, 600, b"", Ok((PARTS, 1200))),
    (b"", LETTER, 1000, b"", Ok((PARTS, 2000))),
    (b"", LETTER, 1000, b"\n", Err(Reason::LongLine)),
    (b"", LETTER, 600, b"\x00", Err(Reason::Nul)),
    (b"", LETTER, 600, b"\xc3a", Err(Reason::Utf8)),
    (b"", LETTER, 600, b"\xf8", Err(Reason::Utf8)),
    (b"", LETTER, 512, b"aaa\x80", Err(Reason::Utf8)),
    (b"\n", LETTER, 511, b"\xc3a", Err(Reason::Utf8)),
    (b"\n", LETTER, 511, b"\xc3\x00", Err(Reason::Nul)),
    (b"\xff", LETTER, 600, b"\x00", Err(Reason::Utf8)),
];

/// Sizes of reads: around the longest line, and around a block of letters.
const STEPS: &[usize] = &[1, 1023, 1024, 1999, 2000, 2001];

/// Whether a scan of the file of a row gives the wanted answer.
fn scans_repeated(
    alloc: Global,
    scanner: &mut Scanner,
    row: &Repeated<'_>,
) -> Result<bool, AllocError> {
    let file = joined(alloc, row.0, row.1, row.2, row.3)?;
    Ok(scans_by(scanner, &file, STEPS, row.4))
}

#[test]
fn lines_and_letters(rt: HostRuntime) -> Result<(), Fail> {
    let mut scanner = Scanner::new(rt.alloc())?;
    for row in REPEATED {
        let is_so = scans_repeated(rt.alloc(), &mut scanner, row)?;
        assert!(rt; is_so, "{} parts and {:?}", row.2, row.3);
    }
    Ok(())
}

const MANY_LINES: Want<'static> = Ok((&[b"\nab", b"abc", b"bcd", b"cd\n", b"d\na"], 100_000));

#[test]
fn larger_than_a_block(rt: HostRuntime) -> Result<(), Fail> {
    let file = "abcd\n".repeat(rt.alloc(), 20_000)?;
    let mut scanner = Scanner::new(rt.alloc())?;
    assert!(rt; scans(&mut scanner, file.as_bytes(), 7, MANY_LINES));
    Ok(())
}
