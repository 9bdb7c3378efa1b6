#!/usr/bin/env -S python3 -B
"""Runs tables of patterns, command lines, rules of a project, texts to index, queries and indexes,
whose answers are known independently of the program.
usage: tests/runs/rows.py PROGRAM"""
import os
import re
import shutil
import sys

import running
from indexes import EMPTY, ONE_FILE, UNSORTED, changed, ids_by_trigram, index_of, index_of_texts, mixed_text, number, trigrams_of
from running import complain, home, leave, read, run, write

# Patterns that are accepted with folding, and the largest ones without. Those beyond them are rows of
# tests/shell/errors.tsv.
ACCEPTED = [
    "", "a{,2}", "a{01}", "a||b", "^(a|b)*c{2,3}?$", "(?i:a)b(?P<n>c)(?<n>d)(?s-U).", r"\bfoo\B\C", r"[[:^digit:]-\w\x7f]", "[]a]",
    "[^]-a]", "^[[:a]$", r"\101\08\x{10ffff}é*", "a]}", r"[é][^à-ü][\x{d7ff}-\x{e000}]", "(?s)(.{1000}){9}",
]
LARGEST = ["a" * 9999, "(" * 200 + "(?i)a{1000}" + ")" * 200]

# Patterns, lines, and whether they match: loops nested to the parser's depth, a pattern of nearly
# the largest weight, many loops that stay open, and alternations of sequences whose position set
# needs more than one machine word, also within a loop.
LINES = [
    ("", "", True),
    ("(" * 200 + "a" + ")*b" * 200, "a" * 100 + "b" * 100, True),
    ("a" * 9998, "a" * 100, False),
    ("(a|b)*c" * 20 + "x", "ab" * 200 + "cc" * 200, False),
    ("a" * 63 + "b|cd|^e", "a" * 63 + "b", True),
    ("a" * 63 + "b|cd", "a" * 63 + "b", True),
    ("a" * 63 + "b|cd", "a" * 62 + "bd", False),
    ("a" * 63 + "b|cd", "a" * 63 + "cd", True),
    ("a" * 64 + "b|cd", "a" * 64 + "b", True),
    ("a" * 64 + "b|cd", "a" * 63 + "bcbd", False),
    ("a" * 64 + "[b-d]|cé", "aaacé", True),
    ("a" * 64 + "[b-d]|cé", "a" * 64 + "e" + "c" * 64, False),
    ("a" * 63 + "(b|cd|ea)+f", "a" * 63 + "bcdeaf", True),
    ("a" * 62 + "(b|cd|ea)+f", "a" * 62 + "eaf", True),
    ("a" * 63 + "(b|cd|ea)+f", "a" * 63 + "bdf", False),
    ("a" * 63 + "(b|cd|ea)+f", "a" * 63 + "bcf", False),
    ("a" * 63 + "(b|cd|ea)+f", "a" * 63 + "becdf", False),
    ("a" * 61 + r"\b(bé|cd|)e", "a" * 61 + "e", False),
    ("a" * 61 + "(bé|cd|)e", "a" * 61 + "bée", True),
]

# Lines of eleven letters, ascending and then descending, for more states than a lazy DFA keeps.
LETTERS = [f"{at:011b}".translate({48: "a", 49: "b"}) for at in [*range(2048), *reversed(range(2048))]]

# A pattern, lines one after another, and those that match.
BLOCKS = [("^ab*c", ["ab", "c", "abbcx", "bc", "", "ac"][:count], ["abbcx", "ac"][: count // 3]) for count in range(1, 7)]
BLOCKS += [("a(a|b){9}$", LETTERS, [line for line in LETTERS if line[1] == "a"])]

# Patterns of one byte, and their bytes.
BYTE_SETS = [
    (r"\C", range(256)),
    (r"\d", b"0123456789"),
    ("[a-c]", b"abc"),
    ("(?i)[[:upper:]]", b"ABCDEFGHIJKLMNOPQRSTUVWXYZabcdefghijklmnopqrstuvwxyz"),
    (r"[^\x{80}-\x{10ffff}]", range(128)),
    (r"[^\0-\x{10ffff}]", b""),
]

# Patterns of one character, and their ranges. A surrogate is no character.
MOST = 0x10FFFF
CHARACTER_SETS = [
    (".", [(0, 9), (11, MOST)]),
    ("(?s).", [(0, MOST)]),
    (r"\D", [(0, 47), (58, MOST)]),
    (r"[\x{d7ff}-\x{e000}]", [(0xD7FF, 0xE000)]),
    ("[[:^ascii:]]", [(0x80, MOST)]),
    ("[é-ëaê€😀]", [(97, 97), (0xE9, 0xEB), (0x20AC, 0x20AC), (0x1F600, 0x1F600)]),
    ("(?i)[É-ÊK-k]", [(65, 122), (0xC9, 0xCA)]),
    ("(?i)[^É]", [(0, 0xC8), (0xCA, MOST)]),
]

# Command lines with an error, and what is said.
ERRORS = [
    (["cgrep", "-n", "---c", "x"], "unknown option ---c"),
    (["cgrep", "-n", "-=v", "x"], "unknown option -=v"),
    (["csearch", "-verbose", "x"], "unknown option -verbose"),
    (["csearch", "-f", "p", "--", "x", "y"], "extra word y"),
    (["cindex", "-list="], "bad truth value in -list="),
]

# Arguments of cgrep, and what it prints where its input and the files `-n` and `y` are these lines.
GREPPED = b"a-x\nb-\nx\n"
GREPS = [
    (["-n", "-n=false", "x"], b"<standard input>:a-x\n<standard input>:x\n"),
    (["--n", "--", "-x"], b"<standard input>:1:a-x\n"),
    (["-"], b"<standard input>:a-x\n<standard input>:b-\n"),
    (["-n=T", "x", "-n", "y"], b"-n:1:a-x\n-n:3:x\ny:1:a-x\ny:3:x\n"),
]

# Files with their texts when they are indexed and afterwards; arguments of csearch, and the files
# that it lists. A file that was written later is found by -brute alone.
SEARCHED = {"a": (b"xyz", b"xyz"), "b=c": (b"xyz", b"xyz"), "d-i": (b"xyz", b"xyz"), "e-i": (b"", b"xyz"), "f-i": (b"XYZ", b"XYZ")}
SEARCHES = [
    (["-f=", "xyz"], ["a", "b=c", "d-i"]),
    (["--brute", "xyz"], ["a", "b=c", "d-i", "e-i"]),
    (["-f", "-i", "-brute", "xyz"], ["d-i", "e-i"]),
    (["-f", "a", "-f=b=c", "xyz"], ["b=c"]),
]

# Files of a project and of the user's home folder, and the files that are listed.
REPOSITORY = {"p/.git/HEAD": b"ref: refs/heads/main\n", "p/.git/objects/info": b"", "p/.git/refs/heads": b""}
LAYERS = REPOSITORY | {
    "home/.config/git/ignore": b"*~\n",
    "p/.gitignore": b"*.o\n/build/\n",
    "p/.git/info/exclude": b"notes\n",
    "p/src/.gitignore": b"",
    "p/src/.ignore": b"!a.o\n",
    **{f"p/src/{folder}/f": b"" for folder in ("a.o", "b.o", "notes", "x~", "build", ".x", ".git")},
}
LAYERED = [".gitignore", "src/.gitignore", "src/.ignore", "src/.x/f", "src/a.o/f", "src/build/f"]
RULES = REPOSITORY | {f"p/{file}": b"" for file in ("b.o", "a.o/f", "doc/x1", "src/x1")}
RULES |= {"p/.gitignore": b"*.o\n!a*/\n/doc/**/x[0-9]\n"}
PROJECTS = [
    (LAYERS | {"p/build/f": b""}, LAYERED),
    (LAYERS | {"p/build": b""}, [".gitignore", "build", *LAYERED[1:]]),
    (RULES, [".gitignore", "a.o/f", "src/x1"]),
    # The last rule takes back the folder a.o, and says nothing of src/x1.
    (RULES | {"p/.git/info/exclude": b"x1\na.o\n"}, [".gitignore", "a.o/f"]),
]

# Texts, and their trigrams or why they are not indexed. They are indexed one after another.
NUL, UTF8, LONG_LINE, MANY_TRIGRAMS = "NUL byte", "bad UTF-8", "line too long", "too many trigrams"
LETTER = "é".encode()
BCD = (b"bcd", [b"bcd"])
SCANS = [
    (b"", []),
    (LETTER, []),
    (b"\xe9a", UTF8),
    (b"\xc3", []),
    (b"a\0", NUL),
    (b"\xc3\0", NUL),
    (b"\x80", UTF8),
    (b"abcd\n", [b"abc", b"bcd", b"cd\n"]),
    (b"zzab", [b"zab", b"zza"]),
    (b"abababa", [b"aba", b"bab"]),
    (mixed_text(20_243), trigrams_of(mixed_text(20_243))),
    (mixed_text(20_244), MANY_TRIGRAMS),
    (mixed_text(20_244) + b"\xff", UTF8),
    # Nothing of a text is kept for the next one.
    (b"abc\0", NUL),
    BCD,
    (b"ab\xff", UTF8),
    BCD,
    BCD,
    BCD,
    (b"abcd", [b"abc", b"bcd"]),
    BCD,
    (mixed_text(60_000), MANY_TRIGRAMS),
    BCD,
    # The longest line, and letters of two bytes.
    (b"a" * 1999 + b"\n", [b"aa\n", b"aaa"]),
    (b"a" * 2000, [b"aaa"]),
    (b"a" * 2000 + b"\n", LONG_LINE),
    (b"a" * 2001, LONG_LINE),
    (b"a" * 70_000 + b"\0", LONG_LINE),
    (LETTER * 600, [b"\xa9\xc3\xa9", b"\xc3\xa9\xc3"]),
    (LETTER * 1000, [b"\xa9\xc3\xa9", b"\xc3\xa9\xc3"]),
    (LETTER * 1000 + b"\n", LONG_LINE),
    (LETTER * 600 + b"\0", NUL),
    (LETTER * 600 + b"\xc3a", UTF8),
    (LETTER * 600 + b"\xf8", UTF8),
    (LETTER * 512 + b"aaa\x80", UTF8),
    (b"\n" + LETTER * 511 + b"\xc3a", UTF8),
    (b"\n" + LETTER * 511 + b"\xc3\0", NUL),
    (b"\xff" + LETTER * 600 + b"\0", UTF8),
    (b"abcd\n" * 20_000, [b"\nab", b"abc", b"bcd", b"cd\n", b"d\na"]),
]

# Patterns, sets of trigrams that their query matches, and sets that it does not match.
GOOGLE = ["Goo", "oog", "ogl", "gle", "Sea", "ear", "arc", "rch"]
QUERIES = [
    ("abc", [], [""]),
    ("a(bc)", ["abc"], [""]),
    ("abc|x", [""], []),
    ("abc|abd", ["abd"], [""]),
    ("^$", [""], []),
    ("hello", ["hel ell llo"], ["ell llo", "hel llo", "hel ell"]),
    ("(ab|cd)ef", ["abe bef", "cde def"], ["abe def"]),
    ("abc.def", ["abc def"], ["abc"]),
    ("ab$", [""], []),
    ("abc$", ["abc"], []),
    (r"\bab\b|abc", [""], []),
    ("(abc)*", [""], []),
    ("ab*", [""], []),
    ("abc?", [""], []),
    ("x(abc)+", ["abc xab"], ["", "abc"]),
    ("(abc){2,}", ["abc"], []),
    ("colou?r", ["col olo lor", "col olo lou our"], ["col olo our"]),
    ("ab{3}c", ["abb bbb bbc"], ["abb bbc"]),
    ("(foo){2}", ["foo oof ofo"], ["foo"]),
    ("={70}", ["==="], [""]),
    ("(abc){1000}", ["abc bca cab"], ["abc bca"]),
    ("foo.*foo", ["foo"], [""]),
    ("fo+bar", ["fob oba bar", "foo oob oba bar"], ["foo oob bar"]),
    ("xab*cd", ["xac acd", "xab"], [""]),
    ("foo(bar|baz)+qux", ["foo oob oba bar arq rqu qux"], ["foo oob oba bar qux"]),
    ("a[bc]d", ["acd"], [""]),
    ("[ab][ab][ab]", ["bab"], [""]),
    ("(?i)abc", ["ABc"], [""]),
    ("[abc][abc][abc]", ["cab"], [""]),
    ("[a-z][a-z][a-z]", [""], []),
    ("0x[0-9a-f]+", ["0x7"], [""]),
    ("[0-9]{3}-[0-9]{4}", ["012 12- 2-3 -34 345 456"], [""]),
    # Across two parts, ten suffixes of one byte each are followed by the literal.
    ("[0-9]{3}xy", ["9xy"], ["axy"]),
    ("[0-9]{3}x", [""], []),
    ("[a-h]bc", ["hbc"], ["ibc", ""]),
    # Nine exact strings: a query at least as selective as the exact runs may leave them out; this
    # one requires up to twenty.
    ("[a-i]bc", ["abc", "ibc"], [""]),
    # Each trigram of two strings with anything between them is required.
    ("Google.*Search", [" ".join(GOOGLE)], [" ".join({*GOOGLE} - {it}) for it in GOOGLE]),
    # A literal of the largest weight, and a string in loops nested to the parser's depth: if the
    # body of each loop were analysed twice, this would not end.
    ("abc" * 3000, ["abc bca cab"], ["abc bca"]),
    ("(" * 200 + "abc" + ")+" * 200, ["abc"], [""]),
]
FOLDED = [("abc", ["abc", "aBC"], ["abd"])]

# Patterns, and the numbers of those of three texts that are candidates.
TEXTS = [b"Google Search\n", b"Google\n", b"Search\n"]
CANDIDATES = [
    ("Google.*Search", [0]),
    ("Sea|xyz", [0, 2]),
    ("", [0, 1, 2]),
    ("Goo", [0, 1]),
    ("xyz", []),
    ("(Goo|xyz).*(Sea|wxy)", [0]),
]

# Changes of the first index of docs/FORMAT.md by which the list of `abc` is damaged, and patterns
# with their candidates, or None where that list is read.
DAMAGED = [
    ({59: 2}, "abc", None),
    ({59: 2}, "xyz.*abc", None),
    ({59: 2}, "bcd|abc", None),
    ({59: 2}, "bcd", [0]),
    ({56: 255, 57: 255, 58: 255, 59: 255}, "abc", None),
]

# Candidates are found in windows of 65,536 ids, which begin at the ids of the rarest list: here
# those of `xyz`, while each name has `abc` and none has `mno`.
MANY = 140_000
RARE = [0, 65_535, 65_536, 131_071, 139_999]
WINDOWS = [
    ("xyz", RARE),
    ("abc.*xyz", RARE),
    ("(mno|abc).*xyz", RARE),
    ("abc.*(abc.*mno|abc.*xyz)", RARE),
    ("xyz|abc", range(MANY)),
    ("abc.*mno", []),
]

# A section and a list are read in pieces of so many bytes.
PIECE = 65_536

# Changes of the first index of docs/FORMAT.md, and the first error.
CHANGES = [
    ({102: 255, 103: 255, 104: 255, 105: 255}, "offsets"),
    ({16: 0, 20: 255}, "paths"),
]


def numbered(count):
    """Names with numbers of six digits, none of which exists."""
    return [b"/none/%d" % (100_000 + at) for at in range(count)]


def long_list(names):
    """An index whose list of `abc` has so many ids, and then two 300 apart, and these ids."""
    ids = [*range(names), names + 299, names + 599]
    return index_of([b"/none"], numbered(names + 600), {b"abc": ids}), ids


def queried():
    """Rows of an index, a pattern, whether it folds, and the ids of its candidates, or None if it
    reads a damaged list."""
    for fold, rows in ((False, QUERIES), (True, FOLDED)):
        for pattern, matched, others in rows:
            sets = [[it.encode() for it in each.split()] for each in [*matched, *others]]
            yield index_of([b"/none"], numbered(len(sets)), ids_by_trigram(sets)), pattern, fold, range(len(matched))
    texts = index_of_texts([b"/none"], dict(zip(numbered(len(TEXTS)), TEXTS)))
    for pattern, ids in CANDIDATES:
        yield texts, pattern, False, ids
    for changes, pattern, ids in DAMAGED:
        yield changed(ONE_FILE, changes), pattern, False, ids
    many = index_of([b"/none"], numbered(MANY), {b"abc": range(MANY), b"xyz": RARE})
    for pattern, ids in WINDOWS:
        yield many, pattern, False, ids
    # A varint of two bytes stands before, across and after the end of a piece.
    for names in range(PIECE - 7, PIECE):
        index, ids = long_list(names)
        yield index, "abc", False, ids
    # The last byte of a list of two pieces is not 0.
    index, _ids = long_list(PIECE - 3)
    yield changed(index, {index.index(b"\0\xff\xff\xff\0"): 1}), "abc", False, None


def opening():
    """Rows of bytes, and the error by which they do not open as an index, or None."""
    for index in (ONE_FILE, UNSORTED, EMPTY):
        for end in range(len(index)):
            yield index[:end], "magic" if end < 16 else "trailer"
    for changes, error in CHANGES:
        yield changed(ONE_FILE, changes), error
    # The last letter of a name stands before, across and after the end of a piece, and after three
    # pieces. That letter or its NUL is another byte. Before the name are 20 bytes and its `/a/`.
    for letters in [*range(PIECE - 8, PIECE), 3 * PIECE]:
        index = index_of([b"/a"], [b"/a/" + b"x" * letters + LETTER, b"/a/y"], {})
        yield index, None
        for at, error in ((23, "names"), (24, "names"), (25, "name index")):
            yield changed(index, {letters + at: ord("z")}), error
    yield from opening_large()


def opening_large():
    """Rows of damage in the first piece of a section and after it. A name has nine bytes with its
    NUL, and a piece has 5,957 entries of lists."""
    count = 20_000
    lists = {at.to_bytes(3, "big"): [at] for at in range(count)}
    index = index_of([b"/a"], [b"/a/%d" % (10_000 + at) for at in range(count)], lists)
    yield index, None
    names, entries = 20, len(index) - 36 - 11 * count
    offsets = entries - 4 * (count + 1)
    for at, byte, error in [
        (names + 9 * (count - 1), 0, "names"),
        (names + 9 * (count - 1) + 3, 255, "names"),
        (names + 9 * (count - 2) + 8, ord("x"), "name index"),
        (offsets + 4 * (PIECE // 9) + 3, 1, "name index"),
        (offsets + 4 * (count - 1) + 3, 1, "name index"),
        (entries + 11 * 5_956, 1, "list index"),
        (entries + 11 * 5_957 + 1, 0, "list index"),
        (entries + 11 * (count - 1) + 7, 255, "list index"),
    ]:
        yield changed(index, {at: byte}), error


def short(data):
    """The start of a text, for a message."""
    return f"{data[:60]!r} of {len(data)}"


def expect(what, came, want):
    """Compares the answers of a row, and returns 1, the number of rows."""
    if came != want:
        complain(f"{what}; wanted {short(str(want))}", short(str(came)))
    return 1


def lines_of(texts):
    return b"".join(text.encode() + b"\n" for text in texts)


def greps(args, lines, matched):
    """A row of cgrep over these lines, and those that it prints."""
    return expect(f"cgrep {short(args[-1])}", run(["cgrep", "-h", *args], lines), (0 if matched else 1, matched, b""))


def try_patterns():
    rows = sum(greps(["-i", "--", pattern], b"", b"") for pattern in ACCEPTED)
    rows += sum(greps(["--", pattern], b"", b"") for pattern in LARGEST)
    rows += sum(greps(["--", pattern], lines_of([line]), lines_of([line] * found)) for pattern, line, found in LINES)
    return rows + sum(greps(["--", pattern], lines_of(lines), lines_of(matched)) for pattern, lines, matched in BLOCKS)


def lines_of_set(ranges):
    """The characters of these ranges except the newline and surrogates, each in a line."""
    members = "".join("".join(map(chr, range(low, high + 1))) for low, high in ranges)
    return re.sub("[\n\ud800-\udfff]", "", members).replace("", "\n")[1:].encode()


def try_sets():
    bytes_of = lambda members: b"".join(bytes([at, 10]) for at in members if at != 10)
    rows = sum(greps(["--", f"^{pattern}$"], bytes_of(range(256)), bytes_of(members)) for pattern, members in BYTE_SETS)
    every = lines_of_set([(0, MOST)])
    return rows + sum(greps(["--", f"^{pattern}$"], every, lines_of_set(ranges)) for pattern, ranges in CHARACTER_SETS)


def write_tree(folder, files):
    """Replaces a folder by these files."""
    shutil.rmtree(folder, ignore_errors=True)
    for name, text in files.items():
        os.makedirs(os.path.dirname(f"{folder}/{name}"), exist_ok=True)
        write(f"{folder}/{name}", text)


def try_arguments():
    rows = sum(expect(args, run(args), (2, b"", f"{args[0]}: {error}\n".encode())) for args, error in ERRORS)
    write("-n", GREPPED)
    write("y", GREPPED)
    rows += sum(expect(args, run(["cgrep", *args], GREPPED), (0, out, b"")) for args, out in GREPS)
    write_tree("s", {name: before for name, (before, _after) in SEARCHED.items()})
    run(["cindex", "-reset", "s"])
    write_tree("s", {name: after for name, (_before, after) in SEARCHED.items()})
    for args, names in SEARCHES:
        out = "".join(f"{home}/s/{name}\n" for name in names).encode()
        rows += expect(args, run(["csearch", "-l", *args]), (0, out, b""))
    return rows


def try_projects():
    for files, listed in PROJECTS:
        write_tree("project", files)
        came = run(["cs", "--files", "project/p"], environment={"HOME": f"{home}/project/home", "GIT_CONFIG_NOSYSTEM": "1"})
        expect(sorted(files), came, (0, "".join(f"project/p/{name}\n" for name in listed).encode(), b""))
    return len(PROJECTS)


def try_scans():
    """The texts are indexed in one run, which replaces an index of another path."""
    write_tree("t", {str(at + 100): text for at, (text, _want) in enumerate(SCANS)})
    wants = {f"{home}/t/{at + 100}": want for at, (_text, want) in enumerate(SCANS)}
    skipped = [f"cindex: {name}: not indexed: {want}\n" for name, want in wants.items() if isinstance(want, str)]
    taken = {name.encode(): want for name, want in wants.items() if not isinstance(want, str)}
    leave(EMPTY)
    expect("cindex of texts", run(["cindex", "-reset", "--logskip", "t"]), (0, b"", "".join(skipped).encode()))
    want = index_of([f"{home}/t".encode()], [*taken], ids_by_trigram(taken.values()))
    return len(SCANS) - 1 + expect("the index of texts", read("index"), want)


def try_many_trigrams():
    """The most trigrams of a text, as their number and their sum say."""
    found = [int.from_bytes(it, "big") for it in trigrams_of(mixed_text(20_243))]
    return expect("the trigrams of a text", (len(found), sum(found)), (20_000, 103_197_885_365))


def try_queries():
    """No name of these indexes exists, so csearch names each candidate in an error."""
    rows = 0
    for index, pattern, fold, ids in queried():
        leave(index)
        want = (2, b"", b"csearch: bad index: list\n")
        if ids is not None:
            names = index[number(index, len(index) - 32) : number(index, len(index) - 28)].split(b"\0")
            want = (1, b"", b"".join(b"csearch: %s: no such file\n" % names[id] for id in ids))
        rows += expect(f"candidates of {short(pattern)}", run(["csearch", *["-i"] * fold, "--", pattern]), want)
    return rows


def try_opening():
    rows = 0
    for index, error in opening():
        leave(index)
        came = run(["csearch", "x"])
        want = (2, b"", f"csearch: bad index: {error}\n".encode()) if error else (1, b"")
        rows += expect(f"an index of {len(index)} bytes", came[: len(want)], want)
    return rows


def main():
    counts = {
        "patterns": try_patterns() + try_sets(),
        "command lines": try_arguments(),
        "projects": try_projects(),
        "texts": try_scans() + try_many_trigrams(),
        "queries": try_queries(),
        "indexes": try_opening(),
    }
    print(f"rows: {', '.join(f'{count} of {name}' for name, count in counts.items())}, {running.wrong} wrong")
    return running.wrong > 0


if __name__ == "__main__":
    sys.exit(main())
