#!/usr/bin/env -S python3 -B
"""Runs the program with each of its allocations failing in turn, and compares each run with the one that has ample memory.
usage: tests/runs/allocations.py PROGRAM

For each job the Nth allocation fails, N = 1, 2, .., until a run has no failing allocation: first the Nth alone, then the Nth and all
later ones, as on a machine that stays out of memory. A run gives the answer of ample memory; or it prints a prefix of the output and
of the lines on standard error, then one line that it is out of memory, ends with status 2, and leaves the index file byte for byte,
with nothing beside it. Last, five jobs in a row are run so, from no index and from one whose names are not sorted: the resulting index
is that of the jobs that succeeded."""
import os
import sys
from itertools import groupby

import running
from running import build_failer, complain, leave, read, write

runs = allocations = 0

# How often the last line of a job may change between the program's own line and the tool's: the tool reads its arguments before
# the program opens the index file and makes the buffer of its output; `csearch` also reads posting lists after its query is known.
TURNS = {"cgrep": 5, "cindex": 7, "csearch": 9}


def run(args, given=b""):
    """A run with ample memory."""
    global runs
    runs += 1
    return running.run(args, given)


def failing_run(args, number, given=b""):
    """A run with that allocation failing, and whether one failed."""
    global runs
    runs += 1
    return running.failing_run(args, number, given)


def judge(args, came, ample, before, after):
    """What is wrong with a run that had a failing allocation, and whose line ended it."""
    status, out, err = came
    if came == ample:
        return (None if read("index") == after else "another index"), "same"
    tool = args[0].encode()
    for who in (tool, b"codesearch"):
        line = who + b": out of memory\n"
        if err.endswith(line) and ample[2].startswith(err[: -len(line)]) and err[: -len(line)][-1:] in (b"", b"\n"):
            break
    else:
        return "its lines", None
    if status != 2:
        return "its status", None
    if not ample[1].startswith(out):
        return "its output", None
    if read("index") != before or os.path.lexists("index~"):
        return "its index file", None
    return None, who.decode()


def each_failing(args, index=None, given=b"one\ntwo\none\n", bare=False):
    """Runs one job with each of its allocations failing, over these bytes of the index file; with `bare` only one at a time."""
    leave(index)
    ample = run(args, given)
    after = read("index")
    for more in [""] if bare else ["", "+"]:
        ends = []
        while True:
            number = f"{len(ends) + 1}{more}"
            leave(index)
            came, has_failed = failing_run(args, number, given)
            if not has_failed:
                break
            what, end = judge(args, came, ample, index, after)
            if what:
                complain(f"{args}, allocation {number} failing: {what}", came)
            ends.append(end)
        if came != ample or read("index") != after:
            complain(f"{args}, none failing: not as with ample memory", came)
        # The line is the tool's, except while the environment, the index file or its lists are read, while the line
        # itself is made, and while the index file is written.
        whose = [end for end in ends if end not in ("same", None)]
        turns = len(list(groupby(whose)))
        if more and args[0] in whose or turns > TURNS.get(args[0], 1):
            complain(f"{args}, each failing: whose line", whose)
        tally(args, more, ends)


def tally(args, more, ends):
    """Counts the runs of a job, and with -v prints how many ended by which line."""
    global allocations
    allocations += 0 if more else len(ends)
    if "-v" in sys.argv:
        shown = []
        for end in ends:
            if shown and shown[-1][0] == end:
                shown[-1][1] += 1
            else:
                shown.append([end, 1])
        print(" ".join(args), more, len(ends), ", ".join(f"{end} {count}" for end, count in shown), flush=True)


# Jobs on a path, on a path below it, without a path, with -reset and with -list, while files change.
JOBS = [["cindex", "a"], ["cindex", "a/b"], ["cindex"], ["cindex", "-reset", "a/b"], ["cindex", "-list"]]


def snapshot(job):
    """Writes the files that the job reads."""
    os.makedirs("a/b", exist_ok=True)
    write("a/b/f", b"six\n" if job else b"one\n")
    write("a/g", b"ten\n" if job else b"two\n")


def answers(first, skipped=None):
    """The answers of the jobs from this one on, without a skipped one, and the index after them."""
    came = []
    for job in range(first, len(JOBS)):
        snapshot(job)
        if job != skipped:
            came.append(run(JOBS[job]))
    return came, read("index")


def five_jobs(before):
    """Lets each allocation of five jobs in a row fail, from these bytes of the index file on: a failed job does not change the
    answers of the others."""
    global allocations
    for job, args in enumerate(JOBS):
        leave(before)
        whole = answers(job)
        leave(before)
        others = answers(job, job)
        number = 0
        while True:
            number += 1
            leave(before)
            snapshot(job)
            first, has_failed = failing_run(args, str(number))
            as_failed = first[0] == 2 and first[2].endswith(b": out of memory\n") and read("index") == before
            rest, index = answers(job + 1)
            if ([first] + rest, index) != whole and not (has_failed and as_failed and (rest, index) == others):
                complain(f"{args} of five jobs, allocation {number} failing: the answers or the index", (first, rest))
            if not has_failed:
                break
            allocations += 1
        leave(before)
        snapshot(job)
        run(args)
        before = read("index")


def unsorted_index():
    """An index whose names are not sorted, as other programs write one: both files have `abc`."""
    path = f"{running.home}/a".encode()
    names = [path + b"/g", path + b"/b/f"]
    sections = [
        path + b"\0\0",
        b"".join(name + b"\0" for name in names) + b"\0",
        b"abc\1\1\0\xff\xff\xff\0",
        b"".join(number.to_bytes(4, "big") for number in (0, len(names[0]) + 1, len(b"".join(names)) + 2)),
        b"abc\0\0\0\2\0\0\0\0" + b"\xff\xff\xff\0\0\0\0\0\0\0\6",
    ]
    begin = b"csearch index 1\n"
    offsets = [len(begin + b"".join(sections[:at])) for at in range(5)]
    return begin + b"".join(sections) + b"".join(offset.to_bytes(4, "big") for offset in offsets) + b"\ncsearch trailr\n"


def main():
    build_failer()
    os.makedirs("t/d")
    write("t/p", b"one\ntwo\none\n")
    write("t/q", b"Two\n")
    write("t/d/r", b"three\none")
    write("t/d/s", b"abcdefghijklmnopqrstuvwxyz\n" * 40)
    write("t/nul", b"a\0b\n")
    write("t/latin", b"caf\351\n")
    write("long", b"a line that is printed\n" * 8000)
    leave(None)
    run(["cindex", "t"])
    index = read("index")
    offset = index.index(b"one", int.from_bytes(index[-28:-24], "big")) + 3
    bad_list = index[:offset] + b"\x7f" + index[offset + 1 :]

    each_failing(["cgrep", "one"])
    each_failing(["cgrep", "one", "t/p", "t/none", "t/q", "t/d"])
    each_failing(["cgrep", "line", "long", "t/none"], bare=True)
    for style in ("-c", "-h", "-i", "-l", "-n"):
        each_failing(["cgrep", style, "T[a-z]o"], bare=True)
        each_failing(["cgrep", style, "a(b|c)*$", "t/none", "t/p"], bare=True)
    for args in (["cgrep"], ["cgrep", "-v", "x"], ["cgrep", "a**"]):
        each_failing(args)

    each_failing(["csearch", "one"], index)
    each_failing(["csearch", "-brute", "-f", "[rp]$", "-n", "one"], index)
    for style in ("-c", "-h", "-i", "-l", "-n"):
        each_failing(["csearch", style, "two|t.*ee"], index, bare=True)
    for args in (["csearch", "-f", "(", "x"], ["csearch", "x", "y"]):
        each_failing(args, index)
    for damaged in (b"", b"no index", index[:-1], index[:20] + b"\0" + index[21:], bad_list):
        each_failing(["csearch", "one"], damaged, bare=True)
        each_failing(["csearch", "-brute", "one"], damaged, bare=True)
    each_failing(["csearch", "one"])

    each_failing(["cindex", "-reset", "t"])
    each_failing(["cindex", "-logskip", "t", "t/none"], index)
    each_failing(["cindex", "t/d"], index)
    for args in (["t"], [], ["-list"], ["-reset"], ["-reset", "t/d"], [""], ["-reset", ""], ["t/none"]):
        each_failing(["cindex"] + args, index, bare=True)
    for damaged in (b"no index", index[:-1], bad_list):
        each_failing(["cindex", "t"], damaged, bare=True)
        each_failing(["cindex", "-list"], damaged, bare=True)
        each_failing(["cindex", "-reset", "t/d"], damaged, bare=True)
    for args in (["t/d"], [], ["-list"], ["-reset"]):
        each_failing(["cindex"] + args, bare=True)
    five_jobs(None)
    snapshot(0)
    unsorted = unsorted_index()
    for args in (["a/g"], [], ["-list"]):
        each_failing(["cindex"] + args, unsorted, bare=True)
    five_jobs(unsorted)
    print(f"failing allocations: {allocations} allocations, {runs} runs, {running.wrong} wrong")
    return running.wrong != 0


sys.exit(main())
