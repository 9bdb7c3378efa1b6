#!/usr/bin/env -S python3 -B
"""Runs the program over an index file that changes while it is read, and never settles.
usage: tests/runs/changing.py PROGRAM

For each job and each way to change the file, the bytes change from the Nth read on, N = 1, 2, .., until a run has fewer reads; each later
read gives other bytes again. No answer is right then, but each run ends by itself, with status 0 to 2, in 2 GB and 5 seconds. With
status 2 its last line names an error, and the index file is the one before, with nothing beside it. Each line that `csearch` prints is a
line of the file that it names. `cindex` leaves the old index, or one that opens and that `csearch` can search."""
import os
import re
import sys

import running
from running import build_preloaded, complain, home, leave, read, run, write

GIGABYTE = 1 << 30
# How the bytes change: they are those of another index at each second read, a flipped bit in 61 bytes, another byte, other letters,
# zeros, ones; or the file ends at once, or grows.
CHANGES = ["other", "bits", "byte", "texts", "zeros", "ones", "end", "grow"]
# At most so many reads of a run are the first to change.
READS = 60
ERROR = re.compile(rb"^c\w+: (bad index: [a-z ]+|index holds a name twice|cannot read \S+|too large|out of memory)$")
runs = 0


def changed(args, change, first):
    """A run in which the bytes change from a read on, and the number of its reads."""
    global runs
    runs += 1
    write("counted", b"")
    around = {"LD_PRELOAD": home + "/change_reads.so", "CHANGE": change, "FROM": str(first), "OTHER": home + "/other", "COUNTED": home + "/counted"}
    return run(args, environment=around, seconds=5, space=2 * GIGABYTE), len(read("counted"))


def is_line(line):
    """Whether a file has the line that is printed after its name."""
    name, _, text = line.partition(b":")
    return text in (read(name) or b"").split(b"\n")


def judge(args, came, index):
    """What is wrong with a run over an index that changes."""
    status, out, err = came
    lines = err.splitlines()
    if status not in (0, 1, 2):
        return "its status"
    if status == 2 and not (lines and ERROR.match(lines[-1])):
        return "its line"
    if os.path.lexists("index~"):
        return "its new file"
    if args[0] == "csearch" and not all(map(is_line, out.splitlines())):
        return "its output"
    if read("index") == index:
        return None
    if args[0] != "cindex" or status != 0:
        return "its index file"
    for check in (["cindex", "-list"], ["csearch", "-brute", "one"], ["csearch", "one"]):
        if run(check, seconds=5)[0] == 2:
            return "its index: " + " ".join(check)
    return None


def each_change(args, index):
    """Runs a job with the bytes changing in each way from each read on."""
    for change in CHANGES:
        first = 1
        while True:
            leave(index)
            came, reads = changed(args, change, first)
            fault = judge(args, came, index)
            if fault:
                complain(f"{args}, {change} from read {first} on: {fault}", came)
            if reads < first or first == READS:
                break
            first += 1


def main():
    build_preloaded("change_reads", "an index that changes")
    os.makedirs("t/d")
    os.makedirs("u")
    for number in range(2400):
        text = b"two" if number % 3 else b"one two"
        write(f"t/{number:04}-{'n' * 30}", b"%s %d\nline\n" % (text, number))
    for name, text in (("t/d/one", b"one\n"), ("t/d/two", b"two\nthree\n"), ("u/four", b"one four\n")):
        write(name, text)
    indexes = []
    for paths in (["t/d", "u"], ["t"], ["t/d"]):
        leave(None)
        if run(["cindex"] + paths)[0] != 0:
            complain("no index", paths)
        indexes.append(read("index"))
    small, large, other = indexes
    write("other", other)
    for args in (["cindex", "-list"], ["csearch", "one"], ["csearch", "-brute", "three"], ["csearch", "(one|three)"], ["cindex", "t/d"], ["cindex", "u"], ["cindex"]):
        each_change(args, small)
        if args != ["cindex"]:
            each_change(args, large)
    print(f"changing: {runs} runs, {running.wrong} wrong")
    sys.exit(running.wrong > 0)


main()
