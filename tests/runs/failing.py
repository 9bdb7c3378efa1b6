#!/usr/bin/env -S python3 -B
"""Runs the program with its system calls failing in turn, by strace, and compares each run with the one in which none fails. Also
runs it over pipes, with a small stack, and over the deepest folders that paths allow.
usage: tests/runs/failing.py PROGRAM

For each job and each kind of call the Nth such call fails, N = 1, 2, .., until none is left. A run gives the usual answer; or it
leaves out one file or folder, with one line that it cannot be read, and the status is the one without it; or it prints a prefix of
the output, ends with status 2, and leaves the index file unchanged. A call to open, read, write, sync or lock that a signal
interrupts is retried, so the answer does not change, and a folder is read again from its start."""
import os
import resource
import shutil
import subprocess
import sys
import threading
import time

import running
from running import complain, home, leave, read, write

CALLS = ["read", "pread64", "write", "openat", "getdents64", "statx", "fsync", "ftruncate", "flock", "rename", "unlink", "close", "fchmod"]
# The calls that are retried after an interrupt.
AGAIN = ["read", "pread64", "write", "openat", "getdents64", "fsync", "flock"]
# The timeout of a run that could block, in seconds.
PATIENCE = 20
# The stack that is enough for the tools, in bytes: cindex(1), "CAVEATS".
SMALL_STACK = 128 * 1024
# The longest path.
LONGEST_PATH = 4095
failures = 0
strace = shutil.which("strace")


def run(args, call=None, error="", when=0):
    """The answer of a run, and whether a call failed in it; None if it failed before the program began."""
    given = open("given", "rb")
    around = {"CSEARCHINDEX": home + "/index"}
    if call is None:
        traced = []
    else:
        traced = [strace, "-qq", "-o", "log", "-e", f"trace={call}", "-e", f"inject={call}:error={error}:when={when}"]
    with given, open("out", "wb") as out, open("err", "wb") as err:
        status = subprocess.call(traced + [running.program] + args, stdin=given, stdout=out, stderr=err, env=around)
    failed = call is not None and b"(INJECTED)" in read("log")
    if failed and b"while loading shared libraries" in read("err"):
        failed = None
    return (status, read("out"), read("err")), failed


def judge(args, call, came, ample, before, after):
    """What is wrong with a run in which a call failed."""
    status, out, err = came
    index = read("index")
    if came == ample and index == after:
        return None
    if status == 2:
        whole = b"".join(err.splitlines(True)[:-1]) if err else b""
        blamed = err[len(whole) :]
        known = blamed.endswith((b": output failed\n", b"cannot read %s/index\n" % home.encode(), b"cannot write %s/index\n" % home.encode()))
        if not known and not (call == "write" and not blamed):
            return "its line"
        if not ample[2].startswith(whole) or not ample[1].startswith(out):
            return "its output"
        # If the system does not say what is beside the index, it is not removed.
        if index != before or os.path.lexists("index~") and call != "statx":
            return "its index file"
        return None
    lost = [line for line in err.splitlines(True) if line not in ample[2].splitlines(True)]
    if len(lost) != 1 or not lost[0].endswith(b": cannot be read\n"):
        return "its lines"
    name = lost[0].split(b": ")[1]
    if args[0] == "cindex":
        return None if status == 0 and out == ample[1] and not has(index, name) else "its index"
    mine = lines_of(name, out)
    right = lines_of(name, ample[1])[: len(mine)] == mine and others(name, out) == others(name, ample[1])
    return None if right and status == (0 if out else 1) and index == before else "its output or its status"


def lines_of(name, out):
    return [line for line in out.splitlines(True) if line.startswith(name + b":")]


def others(name, out):
    return [line for line in out.splitlines(True) if not line.startswith(name + b":")]


def has(index, name):
    """Whether the index has the file, or a file below the folder."""
    start, end = (int.from_bytes(index[at : at + 4], "big") for at in (-32, -28))
    return any(file == name or file.startswith(name + b"/") for file in index[start:end].split(b"\0"))


def each_failing(args, index):
    global failures
    leave(index)
    ample, _ = run(args)
    after = read("index")
    for call in CALLS:
        for error in ["EIO", "EINTR"] if call in AGAIN else ["EIO"]:
            when = 0
            while True:
                when += 1
                leave(index)
                came, failed = run(args, call, error, when)
                if failed is None:
                    continue
                if not failed:
                    break
                failures += 1
                if error == "EINTR":
                    what = None if came == ample and read("index") == after else "not retried"
                else:
                    what = judge(args, call, came, ample, index, after)
                if what:
                    complain(f"{args}, {call} {when} fails by {error}: {what}", came)


def calls():
    """Judges all runs in which a call fails."""
    run(["cindex", "t"])
    index = read("index")
    for args in (["cgrep", "one"], ["cgrep", "-n", "one", "t/p", "t/d/r"], ["csearch", "one"], ["csearch", "-brute", "-c", "one"]):
        each_failing(args, index)
    for args in (["cindex", "-reset", "t"], ["cindex", "t/d"], ["cindex"], ["cindex", "-list"], ["cindex", "-reset"]):
        each_failing(args, index)
    each_failing(["cindex", "t"], None)
    print(f"failing system calls: {failures} runs, {running.wrong} wrong")


def bounded(args, prefix=[], stack=None):
    """The status, the output and the lines on standard error of a run that could block; None if it does."""
    limits = None if stack is None else lambda: resource.setrlimit(resource.RLIMIT_STACK, (stack, stack))
    child = subprocess.Popen(
        prefix + [running.program] + args,
        stdin=subprocess.DEVNULL,
        stdout=subprocess.PIPE,
        stderr=subprocess.PIPE,
        env={"CSEARCHINDEX": home + "/index"},
        preexec_fn=limits,
    )
    try:
        out, err = child.communicate(timeout=PATIENCE)
    except subprocess.TimeoutExpired:
        child.kill()
        child.communicate()
        return None
    return child.returncode, out, err


def expect(what, came, wanted):
    if came != wanted:
        complain(f"{what}: wanted {wanted}", came)


def put_pipe(name):
    os.remove(name)
    os.mkfifo(name)


def put_file(name, text):
    os.remove(name)
    write(name, text)


def pipes():
    """An indexed file that has become a pipe cannot be read, and does not block; cgrep reads a pipe that is an argument."""
    path = (home + "/t/p").encode()
    leave(None)
    run(["cindex", "t"])
    put_pipe("t/p")
    found = (home + "/t/d/r").encode() + b":one\n"
    for args in (["csearch", "one"], ["csearch", "-brute", "one"]):
        expect(f"{args} over a pipe", bounded(args), (0, found, b"csearch: " + path + b": cannot be read\n"))
    expect("cindex over a pipe", bounded(["cindex", "t"]), (0, b"", b""))
    writer = threading.Thread(target=lambda: write("t/p", b"one\n"))
    writer.start()
    expect("cgrep of a pipe", bounded(["cgrep", "one", "t/p"]), (0, b"t/p:one\n", b""))
    writer.join()
    expect("cgrep of a device", bounded(["cgrep", "one", "/dev/null"]), (1, b"", b""))
    put_file("t/p", b"one\ntwo\none\n")


def late_pipes():
    """A file that becomes a pipe while cindex runs, before its Nth call of statx."""
    line = b"cindex: " + (home + "/t/p").encode() + b": cannot be read\n"
    blamed = 0
    for when in range(1, 20):
        leave(None)
        delay = [strace, "-qq", "-o", "log", "-e", "trace=statx", "-e", f"inject=statx:delay_enter=400000:when={when}"]
        swap = threading.Timer(0.2, put_pipe, ["t/p"])
        swap.start()
        status, out, err = bounded(["cindex", "-reset", "t"], delay) or (None, b"", b"it waits")
        swap.join()
        put_file("t/p", b"one\ntwo\none\n")
        if status != 0 or out or err not in (b"", line):
            complain(f"a late pipe at statx {when}", (status, out, err))
        blamed += err == line
        if b"(DELAYED)" not in read("log"):
            break
    if not blamed:
        complain("late pipes", "none was opened")


def put_pipe_beside():
    """Replaces the file beside the index, unless it has been removed meanwhile."""
    try:
        put_pipe("index~")
    except FileNotFoundError:
        pass


def late_temporary():
    """A file that a killed run left beside the index becomes a pipe before the Nth file is opened: cindex does not wait for it."""
    run(["cindex", "-reset", "t"])
    index = read("index")
    for when in range(1, 20):
        leave(index)
        write("index~", b"csearch in")
        delay = [strace, "-qq", "-o", "log", "-e", "trace=openat", "-e", f"inject=openat:delay_enter=400000:when={when}"]
        swap = threading.Timer(0.2, put_pipe_beside)
        swap.start()
        status, out, err = bounded(["cindex", "t"], delay) or (None, b"", b"it waits")
        swap.join()
        if (status, err) not in ((0, b""), (2, b"codesearch: cannot write %s/index\n" % home.encode())) or read("index") != index:
            complain(f"a late pipe beside the index at openat {when}", (status, out, err))
        if os.path.lexists("index~"):
            os.remove("index~")
        if b"(DELAYED)" not in read("log"):
            break


def emptied_temporary():
    """A program that knows nothing of locks empties the temporary file while cindex syncs it, and may write to it: the index stays."""
    run(["cindex", "-reset", "t"])
    index = read("index")
    for text in (b"", b"csearch index 1\n"):
        leave(index)
        delay = [strace, "-qq", "-o", "log", "-e", "trace=fsync", "-e", "inject=fsync:delay_enter=400000:when=1"]
        swap = threading.Timer(0.2, write, ["index~", text])
        swap.start()
        came = bounded(["cindex", "t"], delay)
        swap.join()
        if came != (2, b"", b"codesearch: cannot write %s/index\n" % home.encode()) or read("index") != index:
            complain(f"the temporary file gets {text} during the sync", came)


def small_stack():
    """Each tool and each kind of job with a small stack."""
    for args in ("cindex -reset t", "cindex t/d", "cindex", "cindex -list", "csearch one", "cgrep one t/p", "cindex -reset"):
        ample = bounded(args.split())
        expect(f"{args} with a small stack", bounded(args.split(), stack=SMALL_STACK), ample)


def deepest():
    """A folder whose path has 4095 bytes, below folders as deep as paths allow: it cannot be read, and the walk down to it needs
    no more stack than any other one."""
    top = home + "/deep"
    os.mkdir(top)
    os.chdir(top)
    length, levels = len(os.fsencode(top)), 0
    while length < LONGEST_PATH:
        name = "aa" if LONGEST_PATH - length == 3 else "a"
        write("f", b"one\n")
        os.mkdir(name)
        os.chdir(name)
        length += 1 + len(name)
        top = f"{top}/{name}"
        levels += 1
    os.chdir(home)
    leave(None)
    line = b"cindex: " + os.fsencode(top) + b": cannot be read\n"
    expect("the deepest folder", bounded(["cindex", "-reset", "deep"], stack=SMALL_STACK), (0, b"", line))
    status, out, err = bounded(["csearch", "-c", "one"]) or (None, b"", b"")
    if (status, err) != (0, b"") or len(out.splitlines()) != levels:
        complain("the files on the way down", (status, len(out.splitlines()), err))
    subprocess.call(["rm", "-rf", "deep"])


def main():
    os.makedirs("t/d")
    write("t/p", b"one\ntwo\none\n")
    write("t/d/r", b"three\none")
    write("given", b"one\ntwo\n")
    traces = strace is not None and not subprocess.call([strace, "-qq", "-o", "/dev/null", "true"], stderr=subprocess.DEVNULL)
    if traces:
        calls()
        late_pipes()
        late_temporary()
        emptied_temporary()
    else:
        print("skipped: failing system calls and late pipes: there is no working strace")
    pipes()
    small_stack()
    deepest()
    print(f"pipes and deep folders: {running.wrong} wrong in all")
    return running.wrong != 0


sys.exit(main())
