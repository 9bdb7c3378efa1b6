#!/usr/bin/env -S python3 -B
"""Compares the matches of lines that the library finds with those of a relation in Python that tries all spans: random patterns on
random lines, ASCII or UTF-8 with broken bytes, whole words and all matches, one by one and as lists. Then compares the non-empty
ones of some patterns and lines with GNU `grep -o` and `grep -ow`.
usage: tests/runs/spans.py LIBRARY [PATTERNS [SEED]]    LIBRARY is libcodesearch.so"""
import ctypes
import random
import shutil
import subprocess
import sys

PATTERNS = int(sys.argv[2]) if len(sys.argv) > 2 else 20_000
chance = random.Random(int(sys.argv[3]) if len(sys.argv) > 3 else 1)
library = ctypes.CDLL(sys.argv[1])
WORD = set(b"0123456789abcdefghijklmnopqrstuvwxyzABCDEFGHIJKLMNOPQRSTUVWXYZ_")
STOPPED = -6


class Slot(ctypes.Structure):
    _fields_ = [("at", ctypes.c_void_p), ("filled", ctypes.c_bool)]


class Span(ctypes.Structure):
    _fields_ = [("start", ctypes.c_size_t), ("end", ctypes.c_size_t)]


def size(n):
    return ctypes.c_size_t(n)


# ---- the library


class Pattern:
    """A compiled pattern, or None in `slot` if the text is none."""

    def __init__(self, text):
        self.slot, at = Slot(None, False), ctypes.c_size_t()
        code = library.cs_pattern_compile(text, size(len(text)), ctypes.c_bool(False), ctypes.byref(self.slot), ctypes.byref(at))
        self.is_compiled = code == 0

    def close(self):
        library.cs_pattern_free(ctypes.byref(self.slot))

    def spans(self, line, whole):
        """The matches, one by one."""
        find = library.cs_pattern_find_word if whole else library.cs_pattern_find
        find_after = library.cs_pattern_find_word_after if whole else library.cs_pattern_find_after
        span, spans = Span(), []
        code = find(ctypes.byref(self.slot), line, size(len(line)), size(0), ctypes.byref(span))
        while code == 1 and len(spans) <= len(line) + 1:
            spans.append((span.start, span.end))
            last = Span(span.start, span.end)
            code = find_after(ctypes.byref(self.slot), line, size(len(line)), ctypes.byref(last), ctypes.byref(span))
        return spans if code == 0 else (code, spans)

    def listed(self, line, whole, budget, room):
        """The matches as one list, and whether it was stopped."""
        call = library.cs_pattern_word_spans if whole else library.cs_pattern_spans
        spans, count = (Span * room)(), ctypes.c_size_t(77)
        code = call(ctypes.byref(self.slot), line, size(len(line)), size(budget), spans, size(room), ctypes.byref(count))
        return [(span.start, span.end) for span in spans[: count.value]], {0: False, STOPPED: True}.get(code, code)


# ---- the relation: which spans of a line a tree matches


def char_at(line, i):
    """The character at an offset, and where it ends."""
    for n in range(1, 5):
        try:
            char = line[i : i + n].decode()
        except UnicodeDecodeError:
            continue
        if len(char) == 1 and i + n <= len(line):
            return ord(char), i + n
    return None


def is_word(line, i):
    return 0 <= i < len(line) and line[i] in WORD


def union(sets):
    return set().union(*sets)


def ends(tree, line, i, known):
    """The ends of the matches that begin at an offset."""
    key = (id(tree), i)
    if key in known:
        return known[key]
    kind, *parts = tree
    if kind == "set":
        char = char_at(line, i)
        out = {char[1]} if char and parts[0](char[0]) else set()
    elif kind == "start":
        out = {i} if i == 0 else set()
    elif kind == "end":
        out = {i} if i == len(line) else set()
    elif kind == "edge":
        out = {i} if (is_word(line, i - 1) != is_word(line, i)) == parts[0] else set()
    elif kind == "cat":
        out = {i}
        for part in parts[0]:
            out = union(ends(part, line, j, known) for j in out)
    elif kind == "alt":
        out = union(ends(part, line, i, known) for part in parts[0])
    else:
        part, least, most = parts
        now, out = {i}, set() if least else {i}
        for step in range(1, (len(line) + least + 2 if most is None else most) + 1):
            now = union(ends(part, line, j, known) for j in now)
            out |= now if step >= least else set()
    known[key] = out
    return out


def wanted_spans(tree, line, whole):
    known, spans, start, least = {}, [], 0, 0
    while True:
        for i in range(start, len(line) + 1):
            found = [j for j in ends(tree, line, i, known) if j >= least]
            if whole:
                found = [j for j in found if not is_word(line, i - 1) and not is_word(line, j)]
            if found:
                break
        else:
            return spans
        spans.append((i, max(found)))
        start, least = spans[-1][1], spans[-1][1] + 1


# ---- random patterns and lines


def one_of(chars):
    return ("set", lambda c: chr(c) in chars)


ASCII = [(one_of("a"), "a"), (one_of("a"), "a"), (one_of("b"), "b"), (one_of("-"), "-"), (one_of("ab"), "[ab]"), (one_of("b_"), "[b_]")]
WIDE = [
    (one_of("é"), "é"),
    (one_of("日"), "日"),
    (("set", lambda c: 0xE0 <= c <= 0x65E5 or c == 97), "[aà-日]"),
    (("set", lambda c: not 0xE8 <= c <= 0x10348), "[^è-\U00010348]"),
]
OTHERS = [
    (("set", lambda c: c != 10), "."),
    (("set", lambda c: c != 97), "[^a]"),
    (("start",), "^"),
    (("end",), "$"),
    (("edge", True), r"\b"),
    (("edge", False), r"\B"),
    (("cat", []), "(?:)"),
]


def random_tree(depth, is_wide):
    """A tree and its text."""
    kind = chance.random()
    if depth == 0 or kind < 0.35:
        return chance.choice(ASCII + ASCII + (WIDE if is_wide else []) + OTHERS)
    if kind < 0.6:
        parts = [random_tree(depth - 1, is_wide) for _ in range(chance.randint(2, 4))]
        return ("cat", [tree for tree, _ in parts]), "".join(text for _, text in parts)
    if kind < 0.78:
        parts = [random_tree(depth - 1, is_wide) for _ in range(chance.randint(2, 3))]
        return ("alt", [tree for tree, _ in parts]), "(?:" + "|".join(text for _, text in parts) + ")"
    tree, text = random_tree(depth - 1, is_wide)
    least, most, sign = chance.choice([(0, None, "*"), (1, None, "+"), (0, 1, "?"), (2, None, "{2,}"), (0, 2, "{0,2}"), (1, 3, "{1,3}")])
    return ("rep", tree, least, most), f"(?:{text}){sign}" + chance.choice(["", "", "?"])


PIECES = [b"a", b"a", b"b", b"-", "é".encode(), "à".encode(), "日".encode(), "\U00010348".encode()]
BROKEN = [b"\xc3", b"\xa9", b"\xe6\x97", b"\xf0\x90", b"\xed\xa0\x80", b"\xff", b"\xe0\x80\x80"]


def random_line(is_wide):
    pieces = PIECES + BROKEN if is_wide else [b"a", b"a", b"b", b"b", b"-", b"c", b" "]
    return b"".join(chance.choice(pieces) for _ in range(chance.randint(0, 9)))


wrong = 0


def compare(what, wanted, came):
    global wrong
    if wanted != came:
        wrong += 1
        if wrong < 10:
            print(f"{what}: wanted {wanted}, got {came}")


spans = refused = 0
for _ in range(PATTERNS):
    is_wide = chance.random() < 0.5
    tree, text = random_tree(chance.randint(1, 4), is_wide)
    pattern = Pattern(text.encode())
    if not pattern.is_compiled:
        refused += 1
        continue
    line = random_line(is_wide)
    for whole in (False, True):
        wanted = wanted_spans(tree, line, whole)
        spans += len(wanted)
        what = f"{text!r} on {line!r}" + (", whole words" if whole else "")
        compare(what, wanted, pattern.spans(line, whole))
        compare(what + ", listed", (wanted, False), pattern.listed(line, whole, 1 << 40, len(wanted) + 1))
        room = chance.randint(0, len(wanted))
        compare(what + f", room {room}", (wanted[:room], True), pattern.listed(line, whole, 1 << 40, room))
        came, is_stopped = pattern.listed(line, whole, chance.randint(0, 40), len(wanted) + 1)
        compare(what + ", in a budget", (wanted[: len(came)], is_stopped or len(came) == len(wanted)), (came, True))
    pattern.close()

# ---- GNU grep prints the matches that are not empty
ROWS = ["a|ab|aab", "x*", "a*b", "ab?c?", "(a|b)*c", "[a-z]+", "-", "a|a-b", r"\bab", "b$", "^a", "é|a", "[ab]{2}", "a.c"]
LINES = ["xaab aab", "axxb", "aaab b", "abc ac ab", "abacc", "ab_c de", " - a-a -", "a-bc a-b", "ab xab", "éa é", "abab bb", "abc a-c"]
if shutil.which("grep") and b"GNU grep" in subprocess.run(["grep", "--version"], stdout=subprocess.PIPE).stdout:
    for text in ROWS:
        pattern = Pattern(text.encode())
        for line in LINES:
            data = line.encode()
            # (in this locale grep takes a letter beyond ASCII for a word character)
            for whole in (False, True)[: 1 + line.isascii()]:
                command = ["grep", "-ow" if whole else "-o", "-E", "-e", text]
                printed = subprocess.run(command, input=data + b"\n", stdout=subprocess.PIPE, env={"LC_ALL": "C.UTF-8", "PATH": "/usr/bin:/bin"}).stdout
                came = [data[i:j] for i, j in pattern.spans(data, whole) if i < j]
                compare(f"{' '.join(command[:2])} {text!r} on {line!r}", printed.splitlines(), came)
        pattern.close()

print(f"{PATTERNS} patterns, {refused} refused, {spans} matches, {wrong} wrong")
sys.exit(wrong > 0)
