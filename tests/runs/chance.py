#!/usr/bin/env -S python3 -B
"""Searches random files for random patterns, always the same ones, and compares the lines that `cgrep` and `csearch` find with those of
Python's `re`; then searches lines whose ends are near those of the blocks that are skipped at once.
usage: tests/runs/chance.py PROGRAM"""
import random
import re
import sys

import running
from running import complain, home, run, write

PATTERNS = 10_000
FILES = 12
LINES = 12

# A character of UTF-8 past ASCII, and one that is no word character.
WIDE = (
    rb"[\xc2-\xdf][\x80-\xbf]|\xe0[\xa0-\xbf][\x80-\xbf]|[\xe1-\xec\xee\xef][\x80-\xbf]{2}|\xed[\x80-\x9f][\x80-\xbf]"
    rb"|\xf0[\x90-\xbf][\x80-\xbf]{2}|[\xf1-\xf3][\x80-\xbf]{3}|\xf4[\x80-\x8f][\x80-\xbf]{2}"
)
EDGE = rb"(?:(?<![0-9A-Za-z_])(?=[0-9A-Za-z_])|(?<=[0-9A-Za-z_])(?![0-9A-Za-z_]))"
NO_EDGE = rb"(?:(?<![0-9A-Za-z_])(?![0-9A-Za-z_])|(?<=[0-9A-Za-z_])(?=[0-9A-Za-z_]))"

# The items of patterns, and their translation for Python's `re` over bytes. The first three require a rare literal.
ITEMS = [
    ("zqj", b"zqj"),
    ("q[zj]", b"q[zj]"),
    ("j", b"j"),
    ("a", b"a"),
    ("b", b"b"),
    ("a", b"a"),
    ("b", b"b"),
    ("ab", b"ab"),
    ("é", b"\xc3\xa9"),
    (".", b"(?:[^\\n\x80-\xff]|" + WIDE + b")"),
    ("[ab]", b"[ab]"),
    ("[^a]", b"(?:[^a\x80-\xff]|" + WIDE + b")"),
    (" ", b" "),
    ("_", b"_"),
    (r"\w", b"[0-9A-Za-z_]"),
    (r"\W", b"(?:[^0-9A-Za-z_\x80-\xff]|" + WIDE + b")"),
    ("(?i:b)", b"[bB]"),
    ("^", rb"\A"),
    ("$", rb"\Z"),
    (r"\b", EDGE),
    (r"\B", NO_EDGE),
]
REPEATS = ["*", "+", "?", "{2}", "{0,2}", "{2,}", "{3,4}"]
BYTES = [b"a", b"a", b"a", b"b", b"b", b"b", b"B", b"z", b"q", b"j", b"zqj", b" ", b"_", b"-", b"\t", b"\r", "é".encode(), "€".encode()]


# Patterns that mean the same to Python, a matching text for each, and the lengths of the rest of the line.
PARTS = [
    ("[0-9]{3}-[0-9]{4}", "123-4567"),
    ("[0-9]{3}-[0-9]{4}", "123-456"),
    ("(?i)copyright", "copyRight"),
    ("alpha|beta|gamma", "beta"),
    ("alpha|be?ta|gamma$", "gamma"),
    ("(ab|cd)x*[0-9]+ef", "cd17ef"),
    ("^(ab+c|qz.)$", "abbbc"),
    (r"\bq(xy|wz)+\b", "qxywz"),
    ("", ""),
]
LENGTHS = [0, 1, 29, 30, 31, *range(62, 71), *range(510, 515)]


def repeated(chance, ours, theirs):
    """An item or a group, which is repeated a third of the time."""
    if chance.random() < 0.35:
        repeat = chance.choice(REPEATS)
        return f"(?:{ours}){repeat}", b"(?:" + theirs + b")" + repeat.encode()
    return ours, theirs


def pattern_of(chance, depth=2):
    """A random pattern of a few items, groups and alternations."""
    ours, theirs = "", b""
    for _ in range(chance.randint(1, 5)):
        if depth and chance.random() < 0.2:
            inner = pattern_of(chance, depth - 1)
            item = f"({inner[0]})", b"(?:" + inner[1] + b")"
        else:
            item = chance.choice(ITEMS)
        item = repeated(chance, *item)
        bar = chance.random() < 0.1
        ours, theirs = ours + "|" * bar + item[0], theirs + b"|" * bar + item[1]
    return ours, theirs


def line_of(chance, is_text):
    pieces = [chance.choice(BYTES) for _ in range(chance.randint(0, 8))]
    return b"".join(pieces if is_text else [*pieces, b"\xc3", chance.choice(BYTES)])


def judge_parts():
    """Searches lines of these lengths, each before a line that is the matching text alone."""
    for pattern, part in PARTS:
        for length in LENGTHS:
            lines = [" " * (length // 2) + part + " " * (length - length // 2), part] * 2
            matches = [f"{at}:{line}\n" for at, line in enumerate(lines, 1) if re.search(pattern, line)]
            came = run(["cgrep", "-h", "-n", pattern], "".join(line + "\n" for line in lines).encode())
            if came != (0 if matches else 1, "".join(matches).encode(), b""):
                complain(f"cgrep {pattern!r} in lines of {length} bytes beside {part!r}", came)


def main():
    judge_parts()
    chance = random.Random(2012)
    files = {}
    for at in range(FILES):
        # (the last one is not text, so it is not indexed)
        name = f"{home}/t{at:02}"
        files[name] = [line_of(chance, at < FILES - 1) for _ in range(LINES)]
        write(name, b"".join(line + b"\n" for line in files[name]))
    if run(["cindex", *files])[0]:
        complain("the files are not indexed", "")
    for _ in range(PATTERNS):
        ours, theirs = pattern_of(chance)
        found = re.compile(theirs, re.S)
        matches = {name: [name.encode() + b":" + line + b"\n" for line in lines if found.search(line)] for name, lines in files.items()}
        for tool, names in (["cgrep", ours, *files], [*files]), (["csearch", ours], [*files][:-1]):
            lines = b"".join(line for name in names for line in matches[name])
            came = run(tool)
            if came != (0 if lines else 1, lines, b""):
                complain(f"{tool[0]} {ours!r}: wanted {lines}", came)
    print(f"random patterns: {PATTERNS}, {running.wrong} wrong")
    return running.wrong > 0


sys.exit(main())
