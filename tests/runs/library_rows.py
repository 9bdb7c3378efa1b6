#!/usr/bin/env -S python3 -B
"""Runs tables of calls of the library, whose answers are known independently of it: those of rows.py
that a call can say, and lines with a newline, built and merged indexes, and pages of candidates.
usage: tests/runs/library_rows.py LIBRARY    LIBRARY is libcodesearch.so"""
import ctypes
import sys

import running
from indexes import EMPTY, ONE_FILE, UNSORTED, changed, index_of, index_of_texts
from library import BAD_LIST, BAD_NAME, BAD_ORDER, BAD_PATHS, CODES, STOPPED, UNCOVERED, UNSORTED_NAMES
from library import built, candidates, entries, given, loaded, merged, with_pattern
from rows import BYTE_SETS, CHARACTER_SETS, LONG_LINE, MANY, MANY_TRIGRAMS, NUL, RARE, SCANS, UTF8
from rows import expect, numbered, opening, queried, short

# Patterns and lines with a newline, which is a byte like another, and whether they match.
NEWLINES = [
    ("a.c", b"a\nc", False),
    ("a$", b"a\nb", False),
    ("^b", b"a\nb", False),
    ("^(?s).$", b"\n", True),
    (r"^[\0-\x{10ffff}]$", b"\n", True),
    (r"^[^\n]$", b"\n", False),
    *((f"^{pattern}$", b"\n", 10 in members) for pattern, members in BYTE_SETS),
    *((f"^{pattern}$", b"\n", any(low <= 10 <= high for low, high in ranges)) for pattern, ranges in CHARACTER_SETS),
]

# Why a text is not indexed.
SKIPPED = {NUL: 1, UTF8: 2, LONG_LINE: 4, MANY_TRIGRAMS: 5}

# Paths and files, and the length of their index, an offset and the bytes there: the last list of
# `abc` has deltas, and the closing list follows.
SAME = [b"", b"abc", b"", b"", b"", b"", b"abc", b"abc", b"abc"]
BUILT = [
    ([b"/a"], [(b"/a/x", b"abcd\n")], 122, 0, ONE_FILE),
    ([b"/a"], [], 65, 0, EMPTY),
    ([b"/t"], [(b"/t/%d" % at, text) for at, text in enumerate(SAME)], 165, 66, b"abc\2\5\1\1\0\xff\xff\xff\0"),
]
PATHS = [[b"/a", b"/a/b"], [b"/b", b"/a"], [b"/a", b"/a"], [b""], [b"/", b"/a"], [b"/a", b"/a-b", b"/a/c"]]
NAMES = [(b"", BAD_NAME), (b"/\0", BAD_NAME), (b"/b", 0), (b"/b", BAD_ORDER), (b"/c", 0)]

# The second index of docs/FORMAT.md without the last NUL of its names.
UNCLOSED = UNSORTED[:34] + UNSORTED[35:79] + b"".join(at.to_bytes(4, "big") for at in (16, 20, 34, 44, 56)) + UNSORTED[-16:]

# Indexes of other writers, in which the last offset of the name index may be any four bytes.
OTHERS = [data[:at] + last + data[at + 4 :] for last in (b"\0\0\0\x0e", b"wxyz") for data, at in ((UNSORTED, 53), (UNCLOSED, 52))]

# Indexes, and their paths, their names, and the candidates of `abc`.
READ = [(EMPTY, [b"/a"], [], [])] + [(data, [b"/a"], [b"/a/b/z", b"/a/b-x"], [0, 1]) for data in OTHERS]


# Patterns, the id at which a page begins, its room, its ids, and whether there are more.
PAGES = [
    ("xyz", 65_536, 2, [65_536, 131_071], STOPPED),
    ("xyz", 65_537, 9, [131_071, 139_999], 0),
    ("abc", 70_000, 3, [70_000, 70_001, 70_002], STOPPED),
    ("abc", 1, 2_000, [*range(1, 2_001)], STOPPED),
    ("abc", 139_999, 3, [139_999], 0),
    ("abc", 0, 0, [], STOPPED),
    ("abc", MANY, 3, [], 0),
    ("abc", 2**32 - 1, 3, [], 0),
]

# An older index, a newer one, and the index that they merge to.
BEFORE = index_of_texts([b"/a/b", b"/a/bc"], {b"/a/b/f": b"one\n", b"/a/bc/y": b"two\n"})
FILE = index_of_texts([b"/a"], {b"/a/b": b"one\n", b"/a/b-x": b"two\n"})
FOLDER = index_of_texts([b"/a"], {b"/a/b-x": b"two\n", b"/a/b/z": b"six\n"})
NO_FILE = index_of([b"/c"], [], {})
SORTED = index_of([b"/a", b"/c"], [b"/a/b-x", b"/a/b/z"], {b"abc": [0, 1]})
MERGES = [
    (
        BEFORE,
        index_of_texts([b"/a/b"], {b"/a/b/f": b"six\n"}),
        index_of_texts([b"/a/b", b"/a/bc"], {b"/a/b/f": b"six\n", b"/a/bc/y": b"two\n"}),
    ),
    # A file becomes a folder, and that a file again.
    (FILE, index_of_texts([b"/a/b"], {b"/a/b/z": b"six\n"}), FOLDER),
    (
        FOLDER,
        index_of_texts([b"/a/b"], {b"/a/b": b"ten\n"}),
        index_of_texts([b"/a"], {b"/a/b": b"ten\n", b"/a/b-x": b"two\n"}),
    ),
    # The names of the older index or of the newer one are in any order.
    (
        UNSORTED,
        index_of_texts([b"/a/b-x"], {b"/a/b-x": b"six\n"}),
        index_of([b"/a"], [b"/a/b-x", b"/a/b/z"], {b"abc": [1], b"ix\n": [0], b"six": [0]}),
    ),
    (NO_FILE, UNSORTED, SORTED),
    *((data, NO_FILE, SORTED) for data in [UNSORTED, *OTHERS]),
]

# An older index, a newer one, and why they do not merge. A name occurs twice, also if no path covers
# it; names in any order are under no path; and the ids of a damaged list are all dropped.
OUTSIDE = index_of_texts([b"/a"], {b"/b": b"", b"/c": b""})
TWICE = changed(UNSORTED, {24: ord("-"), 25: ord("x")})
FAILING = [
    (EMPTY, OUTSIDE, UNCOVERED),
    (EMPTY, changed(UNSORTED, {17: ord("c")}), UNCOVERED),
    (TWICE, EMPTY, UNSORTED_NAMES),
    (EMPTY, changed(TWICE, {17: ord("c")}), UNSORTED_NAMES),
    (changed(ONE_FILE, {59: 2}), EMPTY, BAD_LIST),
]

# Texts of five kinds before and after a change.
KINDS = [(b"abcd\n", b"bcde abcd\n"), (b"bcde abcd\n",) * 2, (b"wxyz\n", b"cdef\n"), *[(b"wxyz\n", b"wxyz abcd\n")] * 2]


def scattered(step):
    """A row of indexes, of 600 files every so many of which change."""
    names = [b"/a/%d" % (1_000 + at) for at in range(600)]
    old = {name: KINDS[at % 5][0] for at, name in enumerate(names)}
    newer = {name: KINDS[at % 5][1] for at, name in enumerate(names) if at % step == 0}
    return index_of_texts([b"/a"], old), index_of_texts([*newer], newer), index_of_texts([b"/a"], old | newer)


def try_patterns(library):
    for pattern, line, want in NEWLINES:
        call = lambda slot: library.cs_pattern_is_match(slot, *given(line))
        expect(f"{pattern} in {line}", with_pattern(library, pattern.encode(), False, call), int(want))
    return len(NEWLINES)


def try_scans(library):
    wants = [(text, SKIPPED[want] if isinstance(want, str) else 0) for text, want in SCANS]
    return sum(expect(f"a scan of {short(text)}", library.cs_text_scan(*given(text)), want) for text, want in wants)


def try_building(library):
    for paths, files, count, at, want in BUILT:
        codes, came = built(library, paths, files)
        expect(f"an index of {files}", (codes, len(came), came[at : at + len(want)]), ([0] * len(files), count, want))
    rows = len(BUILT) + sum(expect(f"an index of {paths}", built(library, paths, []), BAD_PATHS) for paths in PATHS)
    want = [code for _name, code in NAMES], index_of([b"/a"], [b"/b", b"/c"], {})
    return rows + expect("names", built(library, [b"/a"], [(name, b"") for name, _code in NAMES]), want) * len(NAMES)


def try_reading(library):
    rows = 0
    for data, error in opening():
        rows += expect(f"an index of {len(data)} bytes", library.cs_index_check(*given(data)), CODES.get(error, 0))
    for data, paths, names, ids in READ:
        came = entries(library.cs_index_path, data), entries(library.cs_index_name, data), candidates(library, b"abc", data)
        rows += expect(f"{data}", (library.cs_index_check(*given(data)), *came), (0, paths, names, ids))
    return rows


def try_candidates(library):
    rows = 0
    for data, pattern, fold, ids in queried():
        want = BAD_LIST if ids is None else [*ids]
        rows += expect(f"candidates of {short(pattern)}", candidates(library, pattern.encode(), data, fold), want)
    many = index_of([b"/none"], numbered(MANY), {b"abc": range(MANY), b"xyz": RARE})
    for pattern, start, room, want, code in PAGES:
        rows += expect(f"a page of {pattern} from {start}", page(library, pattern.encode(), many, start, room), (code, want))
    return rows


def page(library, pattern, data, start, room):
    """The answer of a page of candidates, and their ids."""
    ids, count = (ctypes.c_uint32 * max(room, 1))(), ctypes.c_size_t()
    call = lambda slot: library.cs_pattern_candidates_from(
        slot, *given(data), ctypes.c_uint32(start), ids, ctypes.c_size_t(room), ctypes.byref(count)
    )
    return with_pattern(library, pattern, False, call), ids[: count.value]


def try_merging(library):
    rows = [*MERGES, *map(scattered, (1, 2, 7, 100, 599)), *FAILING]
    return sum(expect(f"{short(older)} and {short(newer)}", merged(library, older, newer), want) for older, newer, want in rows)


def main():
    library = loaded("rows of the library's calls")
    counts = {
        "patterns": try_patterns(library),
        "texts": try_scans(library),
        "built indexes": try_building(library),
        "indexes": try_reading(library),
        "candidates": try_candidates(library),
        "merges": try_merging(library),
    }
    print(f"rows of the library: {', '.join(f'{count} of {name}' for name, count in counts.items())}, {running.wrong} wrong")
    return running.wrong > 0


if __name__ == "__main__":
    sys.exit(main())
