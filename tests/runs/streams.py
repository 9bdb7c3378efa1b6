#!/usr/bin/env -S python3 -B
"""Runs each job of the program with each set of standard streams closed, and compares the run with the one in which all are open:
the status, what the open streams get, and the bytes of the index file.
usage: tests/runs/streams.py PROGRAM

A closed stream that nothing is read from or printed on changes nothing. If something is, the run ends as if the read or the write
had failed: an input has a line, and a failed write ends a job with status 2, the index unchanged."""
import itertools
import os
import shutil
import subprocess
import sys

import running
from running import complain, home, leave, read, write

SETS = [closed for size in range(4) for closed in itertools.combinations(range(3), size)]
strace = shutil.which("strace")
# name, arguments, whether there is an index before; `missing` and `t/gone` have a fault line
JOBS = [
    ("a first index", ["cindex", "t"], False),
    ("a first index with a line", ["cindex", "t", "missing"], False),
    ("join", ["cindex", "u"], True),
    ("join with a line", ["cindex", "u", "missing"], True),
    ("-reset", ["cindex", "-reset", "u"], True),
    ("-reset with a line", ["cindex", "-reset", "u", "missing"], True),
    ("-reset of nothing", ["cindex", "-reset"], True),
    ("-logskip", ["cindex", "-logskip", "u"], True),
    ("-logskip with a line", ["cindex", "-logskip", "t"], True),
    ("refresh", ["cindex"], True),
    ("refresh with a line", ["cindex", "t/gone", "t/p"], True),
    ("-list", ["cindex", "-list"], True),
    ("wrong arguments", ["cindex", "-x"], True),
    ("csearch", ["csearch", "-f", "/t/p$", "one"], True),
    ("csearch with a line", ["csearch", "-brute", "one"], True),
    ("csearch that finds nothing", ["csearch", "-f", "/t/p$", "nowhere"], True),
    ("cgrep", ["cgrep", "one", "t/p"], False),
    ("cgrep with a line", ["cgrep", "one", "t/p", "missing"], False),
    ("cgrep that finds nothing", ["cgrep", "nowhere", "t/p"], False),
    ("cgrep of the input", ["cgrep", "one"], False),
]


def run(args, closed, before=[]):
    """The status, and what the streams and the index have then; None for what a closed stream has."""
    given = os.open("given", os.O_RDONLY)
    out, err = (os.open(name, os.O_WRONLY | os.O_CREAT | os.O_TRUNC, 0o666) for name in ("out", "err"))
    shell = "exec " + " ".join(["env -i CSEARCHINDEX=index", '"$@"'] + [f"{number}<&-" for number in closed])
    command = before + ["/bin/sh", "-c", shell, "sh", running.program] + args
    status = subprocess.run(command, stdin=given, stdout=out, stderr=err, timeout=60).returncode
    for file in (given, out, err):
        os.close(file)
    return status, None if 1 in closed else read("out"), None if 2 in closed else read("err"), read("index")


def wanted(args, closed, usual, index):
    """The answers of a run with closed streams, from the usual one and the index before."""
    status, out, err, new = usual
    if 0 in closed and args == ["cgrep", "one"]:
        status, out, err = 1, b"", b"cgrep: <standard input>: cannot be read\n"
    fails = 1 in closed and out or 2 in closed and err
    if not fails:
        return [(status, None if 1 in closed else out, None if 2 in closed else err, new)]
    # What is printed before the failure depends on the buffer.
    blamed = b"%s: output failed\n" % args[0].encode()
    outs = [None] if 1 in closed else [b"", out]
    errs = [None] if 2 in closed else [blamed, err + blamed]
    return [(2, some, line, index) for some in outs for line in errs]


def closed_streams(index):
    """Each job with each set of closed streams. Returns the number of runs."""
    runs = 0
    for (name, args, has_index), closed in itertools.product(JOBS, SETS):
        old = index if has_index else None
        leave(old)
        usual = run(args, [])
        leave(old)
        came = run(args, closed)
        runs += 1
        if came not in wanted(args, closed, usual, old) or os.path.lexists("index~"):
            complain(f"{name} with {closed} closed: wanted {wanted(args, closed, usual, old)}", came)
    return runs


def unheld_streams(index):
    """`/` cannot be opened: the run goes on if no stream is closed, and changes nothing otherwise."""
    for error, line in (("EACCES", b"codesearch: cannot read /\n"), ("EMFILE", b"codesearch: too many open files\n")):
        for closed in SETS:
            leave(index)
            usual = run(["cindex", "u"], [])
            leave(index)
            refuse = [strace, "-f", "-qq", "-o", "log", "-P", "/", "-e", "trace=openat", "-e", f"inject=openat:error={error}"]
            came = run(["cindex", "u"], closed, refuse)
            refused = (2, None if 1 in closed else b"", None if 2 in closed else line, index)
            if came != (refused if closed else usual) or b"(INJECTED)" not in read("log"):
                complain(f"an open of / that ends with {error}, {closed} closed", came)


def main():
    for name, text in (("t/p", b"one\ntwo\n"), ("t/gone", b"one\n"), ("t/odd", b"a\0b"), ("u/q", b"one\nthree\n")):
        os.makedirs(os.path.dirname(name), exist_ok=True)
        write(name, text)
    write("given", b"one\ntwo\n")
    leave(None)
    run(["cindex", "t"], [])
    os.remove("t/gone")
    runs = closed_streams(read("index"))
    if strace is not None and not subprocess.call([strace, "-qq", "-o", "/dev/null", "true"], stderr=subprocess.DEVNULL):
        unheld_streams(read("index"))
    else:
        print("skipped: an open of / that fails: there is no working strace")
    print(f"closed streams: {runs} runs, {running.wrong} wrong")
    return running.wrong != 0


sys.exit(main())
