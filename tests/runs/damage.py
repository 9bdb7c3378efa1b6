#!/usr/bin/env -S python3 -B
"""Runs the program over random, cut, spliced and flipped indexes, always the same ones, and compares each answer with a reference
reader of docs/FORMAT.md, "The index as it is read".
usage: tests/runs/damage.py PROGRAM

Each run has 2 GB of address space and 5 seconds. Its status is 0 to 2. If the bytes do not open, each tool fails with the name of the
error, and the file stays unchanged. If they do, `cindex -list` lists their paths, `csearch -brute` succeeds, `csearch` fails if its
posting list is damaged, and `cindex PATH` fails with the right name and an unchanged file, or leaves the index of the remaining names
and the new ones. Last, `csearch` has 16 MB for an index of 4 GB of zeros, and for one of ten million names."""
import os
import random
import resource
import sys

import running
from indexes import MAGIC, TRAILER, Fault, is_below, made, number, opened, trigrams
from running import complain, home, leave, read, run, write

INDEXES = 2500
FRESH = b""  # the index of t/d
GIGABYTE = 1 << 30


def is_clean(path):
    elements = path.split(b"/")
    return path == b"/" or path[:1] == b"/" and not {b"", b".", b".."}.intersection(elements[1:])


def spliced(chance, whole):
    """An index with a part replaced by a part of some index."""
    one, other = chance.choice(whole), chance.choice(whole)
    a, b = sorted(chance.randrange(len(one) + 1) for _ in range(2))
    c = chance.randrange(len(other) + 1)
    return one[:a] + other[c : c + chance.randrange(40)] + one[b:]


def flipped(chance, whole):
    """An index with some bytes changed, mostly by one bit or to a special value."""
    data = bytearray(chance.choice(whole))
    for _ in range(chance.choice((1, 1, 1, 2, 4))):
        at = chance.randrange(len(data))
        data[at] = chance.choice((data[at] ^ 1 << chance.randrange(8), 0, 1, 127, 128, 255, chance.randrange(256)))
    return bytes(data)


def shifted(chance, whole):
    """An index with an offset or a count changed by a little, or to a large value."""
    data = bytearray(chance.choice(whole))
    end = len(data) - 36
    offsets = [end + 4 * i for i in range(5)]
    offsets += range(number(data, end + 12), number(data, end + 16), 4)
    for entry in range(number(data, end + 16), end, 11):
        offsets += [entry + 3, entry + 7]
    at = chance.choice(offsets)
    value = chance.choice((number(data, at) + chance.choice((-11, -4, -1, 1, 4, 11)), 0, 1 << 31, (1 << 32) - 1))
    data[at : at + 4] = (value % (1 << 32)).to_bytes(4, "big")
    return bytes(data)


def framed(chance, whole):
    """Sections of random bytes, with offsets that may be right."""
    sections = [bytes(chance.choice(b"\0\0\1\2ab/\x80\xff") for _ in range(chance.randrange(14))) for _ in range(5)]
    sections[0] = b"/a\0" * chance.randrange(3) + b"\0" + sections[0][: chance.choice((0, 0, 1))]
    offsets = [16]
    for section in sections[:4]:
        offsets.append(offsets[-1] + len(section))
    return MAGIC + b"".join(sections) + b"".join(at.to_bytes(4, "big") for at in offsets) + TRAILER


def renamed(chance, whole):
    """An index with one letter of a path or a name changed."""
    data = bytearray(chance.choice(whole))
    letters = [at for at in range(16, number(data, len(data) - 28)) if data[at : at + 1].isalpha()]
    data[chance.choice(letters)] = chance.choice(b"abz")
    return bytes(data)


def shapes(chance, whole):
    """A damaged index."""
    kind = chance.randrange(9)
    if kind == 0:
        return chance.randbytes(chance.randrange(200))
    if kind == 1:
        one = chance.choice(whole)
        return one[: chance.randrange(len(one))]
    if kind == 2:
        return spliced(chance, whole)
    if kind == 3:
        return framed(chance, whole)
    if kind == 8:
        return renamed(chance, whole)
    return (flipped if kind < 6 else shifted)(chance, whole)


def ends(args, index):
    """The answer of a run over these bytes of the index file, and the error that it names."""
    leave(index)
    status, out, err = run(args, seconds=5)
    if status not in (0, 1, 2):
        complain(f"{args} over {index!r}: its status", (status, err))
    lines = err.decode("latin-1").splitlines()
    fault = lines[-1].split(": ", 1)[1] if status == 2 and lines else None
    if status == 2 and (read("index") != index or os.path.lexists("index~")):
        complain(f"{args} over {index!r}: it fails, and the file has changed", fault)
    return status, out, fault


def judge(index):
    """Runs each tool over the bytes, and returns the outcome."""
    answers = {args: ends(args.split(), index) for args in ("cindex -list", "csearch one", "csearch -brute one", "cindex t/d")}
    joined = read("index")
    try:
        paths, names, entries, lists = opened(index)
    except Fault as fault:
        want = f"bad index: {fault}"
        for args, (status, out, came) in answers.items():
            if (status, out, came) != (2, b"", want):
                complain(f"{args} over {index!r}: wanted {want}", (status, out, came))
        return want
    sets, damaged = trigrams(names, entries, lists)
    error = None
    if not all(map(is_clean, paths)):
        error = "bad index: paths"
    elif len(set(names)) != len(names):
        error = "index holds a name twice"
    elif damaged:
        error = "bad index: list"
    wanted = {
        "cindex -list": None,
        "csearch one": "bad index: list" if b"one" in damaged else None,
        "csearch -brute one": None,
        "cindex t/d": error,
    }
    for args, (status, out, came) in answers.items():
        listed = b"".join(path + b"\n" for path in paths)
        if came != wanted[args] or args == "cindex -list" and out != listed:
            complain(f"{args} over {index!r}: wanted {wanted[args]}", (status, out, came))
    if error is None and not is_joined(paths, sets, joined):
        complain(f"cindex t/d over {index!r}: another index", joined)
    return f"open, cindex {error or 'done'}"


def is_joined(paths, sets, joined):
    """Whether the index is that of these paths and names, merged with the new ones of t/d."""
    new = [f"{home}/t/d".encode()]
    fresh, _ = trigrams(*opened(FRESH)[1:])
    wanted = {name: parts for name, parts in sets.items() if not is_below(name, new)}
    wanted.update(fresh)
    paths = set(paths + new)
    paths = sorted(path for path in paths if not is_below(path, paths - {path}))
    try:
        names = opened(joined)
    except Fault:
        return False
    return names[0] == paths and names[1] == sorted(wanted) and trigrams(*names[1:]) == (wanted, set())


def overlaps():
    """Two posting lists. One is the end of the other: the deltas of the first have the trigram of the second."""
    names = [b"/a/%03d" % number for number in range(700)]
    lists = b"bonone\1\1\0\xff\xff\xff\0"
    return made([b"/a"], names, lists, [(b"bon", 5, 0), (b"one", 2, 3)])


def counted():
    """A posting list whose entry counts 2^32 - 1 ids, and has one."""
    return made([b"/a"], [b"/a/x"], b"one\1\0\xff\xff\xff\0", [(b"one", (1 << 32) - 1, 0)])


# A section of zeros in an index whose other sections are sound, and the answer of csearch.
ZEROS = [(0, "paths"), (1, "names"), (2, None), (3, "name index"), (4, "list index")]


def sparse(section):
    """Makes the index file one of 2^32 - 1 bytes, whose section of this number is zeros."""
    sections = [b"/a\0\0", b"x\0\0", b"\xff\xff\xff\0", bytes(8), b"\xff\xff\xff" + bytes(8)]
    sections[section] = b""
    zeros = (1 << 32) - 1 - 16 - 36 - sum(map(len, sections))
    starts = [16]
    for number, data in enumerate(sections):
        starts.append(starts[-1] + (zeros if number == section else len(data)))
    with open("index", "wb") as file:
        file.write(MAGIC)
        for at, data in zip(starts, sections):
            file.seek(at)
            file.write(data)
        file.seek(starts[5])
        file.write(b"".join(at.to_bytes(4, "big") for at in starts[:5]) + TRAILER)


def zeros():
    """Zeros of 4 GB are refused, or never read, in 16 MB, whichever section has them."""
    for section, fault in ZEROS:
        sparse(section)
        status, out, err = run(["csearch", "one"], space=1 << 24, seconds=5)
        want = b"" if fault is None else f"bad index: {fault}\n".encode()
        if status != (1 if fault is None else 2) or out or not err.endswith(want) or bool(err) != bool(want):
            complain(f"csearch over zeros, section {section}", (status, out, err))
    os.remove("index")


def large():
    """A million paths are listed, and ten million names are searched in 16 MB."""
    paths = [b"/a/%06d" % number for number in range(1000000)]
    leave(made(paths, [], b"\xff\xff\xff\0", []))
    if run(["cindex", "-list"]) != (0, b"".join(path + b"\n" for path in paths), b""):
        complain("cindex -list of a million paths", "another answer")
    leave(made([b"/a"], [b"x"] * 10000000, b"\xff\xff\xff\0", []))
    came = run(["csearch", "one"], space=1 << 24)
    if came != (1, b"", b""):
        complain("csearch over ten million names", came)


def main():
    global FRESH
    resource.setrlimit(resource.RLIMIT_AS, (2 * GIGABYTE, 2 * GIGABYTE))
    os.makedirs("t/d")
    write("t/p", b"one\ntwo\none\n")
    write("t/d/r", b"three\none")
    write("t/d/s", b"bone alone\n")
    whole = []
    for args in (["-reset", "t/d"], ["-reset", "t"], ["-reset", "t/d", "t/none", "t/p"]):
        run(["cindex"] + args)
        whole.append(read("index"))
    FRESH = whole[0]
    chance = random.Random(2500)
    counts = {}
    for _ in range(INDEXES):
        outcome = judge(shapes(chance, whole))
        counts[outcome] = counts.get(outcome, 0) + 1
    if judge(overlaps()) != "open, cindex done":
        complain("overlapping lists", "they are not read")
    if judge(counted()) != "open, cindex bad index: list":
        complain("a list of 2^32 - 1 ids", "it is read")
    zeros()
    large()
    if "-v" in sys.argv:
        for outcome, count in sorted(counts.items()):
            print(f"{count:6} {outcome}")
    print(f"damaged indexes: {INDEXES} indexes, {4 * INDEXES} runs, {running.wrong} wrong")
    return running.wrong != 0


sys.exit(main())
