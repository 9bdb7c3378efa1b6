#!/usr/bin/env -S python3 -B
"""Runs cindex with standard error on a terminal and on a pipe: only the terminal gets a line that says how much was read, and at the
end the terminal shows what the pipe got.
usage: tests/runs/progress.py PROGRAM"""
import os
import pty
import subprocess
import sys

import running
from running import complain, home, read, write

FILES = 60
LINE = b" MB read"


def run(args, on_terminal):
    """The status, what standard output got, and what standard error got."""
    environment = {"CSEARCHINDEX": home + "/index"}
    if not on_terminal:
        ended = subprocess.run([running.program] + args, env=environment, capture_output=True, timeout=120)
        return ended.returncode, ended.stdout, ended.stderr
    try:
        master, slave = pty.openpty()
    except OSError as error:
        running.skip("the progress of cindex", f"there is no terminal ({error})")
    child = subprocess.Popen([running.program] + args, env=environment, stdout=subprocess.PIPE, stderr=slave)
    os.close(slave)
    got = b""
    while True:
        try:
            part = os.read(master, 65536)
        except OSError:
            break
        if not part:
            break
        got += part
    out = child.stdout.read()
    status = child.wait(timeout=120)
    os.close(master)
    return status, out, got


def shown(got):
    """The text that a terminal shows."""
    rows, column = [bytearray()], 0
    for byte in got:
        if byte == 13:
            column = 0
        elif byte == 10:
            rows.append(bytearray())
        else:
            rows[-1][column : column + 1] = bytes([byte])
            column += 1
    return b"\n".join(bytes(row).rstrip() for row in rows)


def compare(name, args, has_line):
    status, out, err = run(args, False)
    index = read("index")
    now, out_now, got = run(args, True)
    if (now, out_now, read("index")) != (status, out, index):
        complain(f"{name}: on a terminal the same run", (now, out_now))
    if LINE in err or b"\r" in err:
        complain(f"{name}: on a pipe no line of progress", err)
    if (LINE in got) != has_line:
        complain(f"{name}: on a terminal {'a' if has_line else 'no'} line of progress", got)
    if shown(got) != err:
        complain(f"{name}: the terminal shows {err!r} at the end", shown(got))
    return err


# Links to one file, whose reading takes seconds altogether, and in between what is not text.
os.mkdir("t")
write("t/a", b"".join(b"%d is a line of a text that is long enough\n" % n for n in range(200000)))
for n in range(FILES):
    os.link("t/a", f"t/b{n:02}")
for name in ("t/b19-", "t/b39-", "t/c"):
    write(name, b"\0")

err = compare("cindex -logskip", ["cindex", "-reset", "-logskip", "t"], True)
if err.count(b"\n") != 3:
    complain("cindex -logskip: a line for each file that is not text", err)
compare("cindex", ["cindex", "-reset", "t"], True)
compare("cindex without a file to read", ["cindex", "missing"], False)
compare("csearch", ["csearch", "-c", "line"], False)
compare("cgrep", ["cgrep", "-c", "line", "t/a", "missing"], False)

print(f"progress: 5 jobs on a terminal and on a pipe, {running.wrong} wrong")
sys.exit(running.wrong != 0)
