// Searches with small limits and small buffers.
use crate::fixtures::{PLAIN, program_of};
use cs_args::{Style, ToolFault};
use cs_lines::LineSearch;
use cs_match::{Matcher, Program};
use cs_search::{GrepFault, Grepped, LineBuffer, Printer, ReadFault, grep, grep_within};
use cs_tree::{MemSink, MemSource, Source};
use std::alloc::Global;
use std::process::Abort;

/// An input: its bytes, whether it fails after them, and how many of them are searched.
#[derive(Clone, Copy)]
struct Given<'a> {
    text: &'a [u8],
    cut: bool,
    most: usize,
}

/// The output of a search, whether some line matched, and the error.
type Wanted<'a> = (&'a str, bool, Option<ReadFault>);

/// The step of a read, and the initial size of the buffer.
#[derive(Clone, Copy, Debug)]
struct Sizes {
    step: usize,
    size: usize,
}

/// The answer of a search of the first `most` bytes, with a buffer of initially `size` bytes.
fn answer_by<R: Source>(
    alloc: Global,
    search: &mut LineSearch<'_>,
    input: &mut R,
    most: usize,
    size: usize,
    style: Style,
    out: &mut MemSink,
) -> Result<Grepped, GrepFault> {
    let mut buffer = LineBuffer::of_size(alloc, size.max(1))?;
    let form = Printer { name: "t", style };
    grep_within(&form, input, most.min(1000), &mut buffer, search, out)
}

/// The same with a search for the lines of the program.
pub fn answer_within<R: Source>(
    alloc: Global,
    program: &Program,
    input: &mut R,
    most: usize,
    size: usize,
    style: Style,
    out: &mut MemSink,
) -> Result<Grepped, GrepFault> {
    let mut search = LineSearch::of_lines(Matcher::new(alloc, program)?);
    answer_by(alloc, &mut search, input, most, size, style, out)
}

/// A pattern, the input, the style, and what is wanted.
type Row<'a> = (&'a str, Given<'a>, Style, Wanted<'a>);

/// Whether a search with these sizes prints and answers what is wanted.
fn is_right(
    alloc: Global,
    program: &Program,
    row: &Row<'_>,
    sizes: Sizes,
) -> Result<bool, GrepFault> {
    let (_, given, style, (lines, matched, fault)) = *row;
    let Sizes { step, size } = sizes;
    let mut input = MemSource::new(given.text, step.max(1), given.cut);
    let mut out = MemSink::new(alloc, 1000);
    let answer = answer_within(
        alloc, program, &mut input, given.most, size, style, &mut out,
    )?;
    Ok(out.bytes() == lines.as_bytes() && answer.matched == matched && answer.fault == fault)
}

/// The sizes with which a search is wrong.
fn wrong_sizes_by(
    alloc: Global,
    program: &Program,
    row: &Row<'_>,
) -> Result<Option<Sizes>, GrepFault> {
    for step in [1, 2, 3, 7, 100] {
        for size in [1, 2, 5, 64] {
            let sizes = Sizes { step, size };
            if !is_right(alloc, program, row, sizes)? {
                return Ok(Some(sizes));
            }
        }
    }
    Ok(None)
}

/// The same for the pattern of the row.
fn wrong_sizes(alloc: Global, row: &Row<'_>) -> Result<Option<Sizes>, ToolFault> {
    let program = program_of(alloc, row.0)?;
    Ok(wrong_sizes_by(alloc, &program, row)?)
}

/// No search of these is wrong.
fn searches(rt: &impl Abort, alloc: Global, rows: &[Row<'_>]) -> Result<(), ToolFault> {
    for row in rows {
        let wrong = wrong_sizes(alloc, row)?;
        assert!(rt; wrong.is_none(), "{} by {wrong:?}", row.0);
    }
    Ok(())
}

const NUMBER: Style = Style {
    number: true,
    ..PLAIN
};

const COUNT: Style = Style {
    count: true,
    ..PLAIN
};

const LIST: Style = Style {
    list: true,
    ..PLAIN
};

/// A text, which is searched whole.
const WHOLE: Given<'static> = Given {
    text: b"",
    cut: false,
    most: 1000,
};

const LINES: &[Row<'static>] = &[
    (
        "a(b|c)*$",
        Given {
            text: b"ab\nxacb\nabd",
            ..WHOLE
        },
        NUMBER,
        ("t:1:ab\nt:2:xacb\n", true, None),
    ),
    (
        "^abd",
        Given {
            text: b"ab\nxacb\nabd",
            ..WHOLE
        },
        PLAIN,
        ("t:abd\n", true, None),
    ),
    (
        "one",
        Given {
            text: b"one\ntwo\none\n",
            ..WHOLE
        },
        Style {
            bare: true,
            ..NUMBER
        },
        ("1:one\n3:one\n", true, None),
    ),
    ("^$", Given { text: b"", ..WHOLE }, PLAIN, ("", false, None)),
    (
        "^$",
        Given {
            text: b"\n\n",
            ..WHOLE
        },
        NUMBER,
        ("t:1:\nt:2:\n", true, None),
    ),
];

#[test]
fn lines_with_numbers_and_names(rt: HostRuntime) -> Result<(), ToolFault> {
    searches(&rt, rt.alloc(), LINES)
}

const ONES: Given<'static> = Given {
    text: b"one\ntwo\none\n",
    ..WHOLE
};

const COUNTS: &[Row<'static>] = &[
    ("one", ONES, COUNT, ("t: 2\n", true, None)),
    (
        "one",
        ONES,
        Style {
            bare: true,
            ..COUNT
        },
        ("t: 2\n", true, None),
    ),
    (
        "one",
        ONES,
        Style {
            list: true,
            ..COUNT
        },
        ("t\n", true, None),
    ),
    (
        "one",
        Given {
            text: b"two\none",
            ..WHOLE
        },
        Style {
            list: true,
            ..COUNT
        },
        ("t\n", true, None),
    ),
    ("six", ONES, COUNT, ("", false, None)),
];

#[test]
fn counts_and_lists(rt: HostRuntime) -> Result<(), ToolFault> {
    searches(&rt, rt.alloc(), COUNTS)
}

const CUT: Given<'static> = Given {
    cut: true,
    text: b"one\ntwo\non",
    ..WHOLE
};

const READ: Option<ReadFault> = Some(ReadFault::Read);

const FAILING: &[Row<'static>] = &[
    ("on", CUT, PLAIN, ("t:one\n", true, READ)),
    ("one", CUT, COUNT, ("", true, READ)),
    ("one", CUT, LIST, ("t\n", true, None)),
    ("six", CUT, LIST, ("", false, READ)),
];

#[test]
fn inputs_that_fail(rt: HostRuntime) -> Result<(), ToolFault> {
    searches(&rt, rt.alloc(), FAILING)
}

const LONG: Given<'static> = Given {
    most: 10,
    text: b"a\na\na\na\na\na\na\n",
    ..WHOLE
};

const FULL: Given<'static> = Given { most: 14, ..LONG };

const TOO_LONG: Option<ReadFault> = Some(ReadFault::TooLong);

const LONG_ONES: &[Row<'static>] = &[
    (
        "a",
        LONG,
        PLAIN,
        ("t:a\nt:a\nt:a\nt:a\nt:a\n", true, TOO_LONG),
    ),
    ("a", LONG, COUNT, ("", true, TOO_LONG)),
    ("a", Given { most: 9, ..LONG }, COUNT, ("", true, TOO_LONG)),
    ("a", FULL, COUNT, ("t: 7\n", true, None)),
    ("a", Given { cut: true, ..FULL }, COUNT, ("", true, READ)),
];

#[test]
fn inputs_that_are_too_long(rt: HostRuntime) -> Result<(), ToolFault> {
    searches(&rt, rt.alloc(), LONG_ONES)
}

/// The answer of a search with `-l`.
fn listed(
    alloc: Global,
    program: &Program,
    input: &mut MemSource<'_>,
    out: &mut MemSink,
) -> Result<Grepped, GrepFault> {
    let mut search = LineSearch::of_lines(Matcher::new(alloc, program)?);
    grep(alloc, "t", input, &mut search, LIST, out)
}

/// Whether the input is read only up to the block of the first match.
fn stops_at_its_match(alloc: Global, program: &Program) -> Result<bool, GrepFault> {
    let mut input = MemSource::new(b"one\ntwo\n", 4, false);
    let mut out = MemSink::new(alloc, 1000);
    let answer = listed(alloc, program, &mut input, &mut out)?;
    let mut next = [0u8; 10];
    Ok(answer.matched && input.read(&mut next) == Ok(4) && next.starts_with(b"two\n"))
}

/// The same for a search of `one`.
fn one_stops_at_its_match(alloc: Global) -> Result<bool, ToolFault> {
    let program = program_of(alloc, "one")?;
    Ok(stops_at_its_match(alloc, &program)?)
}

#[test]
fn a_list_reads_no_further_than_its_match(rt: HostRuntime) {
    assert!(rt; one_stops_at_its_match(rt.alloc()) == Ok(true));
}
