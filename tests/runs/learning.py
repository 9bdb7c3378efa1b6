#!/usr/bin/env -S python3 -B
"""Tries the rules of the state of `cs`: how much one search learns, when an update is due, when the state is opened, where a first
one is made, what is not learned, where it is stored, and that it knows the files of a disk that the system numbers anew.
usage: tests/runs/learning.py PROGRAM

Only what is more than 2 s old is learned: the rows of all projects are in three stages, with a wait before each. Which files a
search opens is seen by inotify, and whether a state was stored by its inode and times."""
import ctypes
import hashlib
import os
import pty
import random
import shutil
import struct
import subprocess
import sys
import time

import running
from running import complain, home, program, read, write

CANNOT = b"cs: what is known of the project cannot be stored\n"
NOWHERE = ["-c", "nowhere at all"]
dice = random.Random(1)
rows = 0


def settle():
    """Waits until all files are old."""
    time.sleep(3.2)


def text(size):
    """A text of this many bytes, and few trigrams."""
    return (b"marker line\n" * (size // 12 + 1))[: size - 1] + b"\n"


def mixed(size):
    """A text of this many bytes, and many trigrams."""
    return b"\n".join(b"%x" % dice.getrandbits(200) for _ in range(size // 50 + 1))[: size - 1] + b"\n"


class Project:
    def __init__(self, name, files, body, kind=".git"):
        """A folder of so many files with this body, and a repository, if there is to be one."""
        self.top = f"{home}/{name}"
        os.makedirs(self.top)
        [write(f"{self.top}/f{number:04}", body()) for number in range(files)]
        [os.makedirs(f"{self.top}/.git/{it}") for it in ["objects", "refs"] if kind]
        write(self.top + "/.git/HEAD", b"ref: refs/heads/one\n") if kind else None
        self.around = {"HOME": f"{home}/home of {name}", "PATH": os.environ["PATH"], "LC_ALL": "C"}
        self.cache = f"{home}/home of {name}/.cache/codesearch/{hashlib.sha1(self.top.encode()).hexdigest()}/state"
        self.state = self.top + "/.git/codesearch/state" if kind else self.cache

    def start(self, words, err):
        return subprocess.Popen([program, "cs", *words], cwd=self.top, env=self.around, stdin=subprocess.DEVNULL, stdout=subprocess.PIPE, stderr=err)

    def ran(self, *words):
        """The status, and what standard error got."""
        child = self.start(words, subprocess.PIPE)
        err = child.communicate()[1]
        return child.returncode, err

    def on_terminal(self, *words):
        """The same, where standard error is a terminal: its last line, without the line of progress."""
        up, down = pty.openpty()
        child = self.start(words, down)
        os.close(down)
        child.stdout.read()
        status, got = child.wait(), b""
        try:
            while part := os.read(up, 4096):
                got += part
        except OSError:
            pass
        os.close(up)
        return status, got.replace(b"\r\n", b"\n").split(b"\r")[-1].lstrip(b" ")

    def stored(self):
        """The state that is there, as what no two have in common."""
        if not os.path.lexists(self.state):
            return None
        there = os.lstat(self.state)
        return there.st_ino, there.st_mtime_ns, there.st_size

    def opened(self, *words):
        """How many files of the folder a search opens."""
        libc = ctypes.CDLL(None, use_errno=True)
        watch = libc.inotify_init1(os.O_NONBLOCK)
        if watch < 0 or libc.inotify_add_watch(watch, self.top.encode(), 0x20) < 0:
            return None
        self.ran(*words)
        names, got = set(), b""
        try:
            while part := os.read(watch, 1 << 16):
                got += part
        except BlockingIOError:
            pass
        os.close(watch)
        while got:
            length = struct.unpack_from("iIII", got)[3]
            names.add(got[16 : 16 + length].rstrip(b"\0"))
            got = got[16 + length :]
        return sum(name.startswith(b"f") for name in names)


def row(what, came, wanted):
    global rows
    rows += 1
    complain(f"{what}; wanted {wanted}", came) if came != wanted else None


def stays(what, project, *words, status=1):
    """A run that leaves the state, or its absence, as it is."""
    before = project.stored()
    row(what, (project.ran(*words)[0], project.stored()), (status, before))


def stores(what, project, *words, status=1):
    """A run that stores a state, or another one."""
    before = project.stored()
    row(what, (project.ran(*words)[0], project.stored() not in (None, before)), (status, True))


def limit(project):
    """So many bytes are not worth an update: 1 MB, and half of the state."""
    return 1_000_000 + os.path.getsize(project.state) // 2


def budget(large):
    """A search learns files of 150 MB, here 500; the line says it only on a terminal."""
    wanted = b"cs: 500 of 520 files are known; cs --update learns the others\n"
    row("the first search", large.on_terminal(*NOWHERE), (1, wanted))
    row("the second one learns the rest", large.on_terminal(*NOWHERE), (1, b""))
    stays("after which all is known", large, "--update", status=0)
    os.remove(large.state)
    row("no terminal", large.ran(*NOWHERE), (1, b""))
    row("an update learns all", large.on_terminal("--update"), (0, b""))
    stays("after which all is known", large, "--update", status=0)


def opens(project, length):
    """Files are read before the state is opened: from then on it knows all."""
    before = 100 if length < 2_000_000 else max(600, length // 100_000)
    came = project.opened(*NOWHERE)
    print("skipped: learning: which files are read: inotify does not work here") if came is None else row("files that are read", came, before - 1)


def not_learned(odd):
    """An empty file is not noted, and a young one not learned."""
    stores("a first state", odd, "--update", status=0)
    stays("of empty files nothing is to be learned", odd, "--update", status=0)
    write(odd.top + "/young", b"marker\n")
    odd.ran("--update")
    settle()
    stores("a young file is not learned", odd, "--update", status=0)
    stays("an old one is", odd, "--update", status=0)


def damaged(project):
    """A damage that only an update finds takes the state away."""
    state = bytearray(read(project.state))
    state[len(state) // 2] ^= 1
    write(project.state, state)
    row("an update of a damaged state", (project.ran("--update"), project.stored()), ((2, CANNOT), None))
    stores("the next one makes it anew", project, "--update", status=0)


def batches(project):
    """An update that is killed leaves the batches that it has stored, each of 300 MB, and the next one learns the rest."""
    child = project.start(["--update"], subprocess.DEVNULL)
    while child.poll() is None and not project.stored():
        time.sleep(0.001)
    child.kill()
    child.communicate()
    came = project.opened(*NOWHERE)
    row("what a killed update has learned", came is None or 99 <= came < 104, True)
    row("an update learns the rest", project.ran("--update")[0], 0)
    stays("after which all is known", project, "--update", status=0)


def taken(project):
    """Beside a `state~` that is not its own nothing is stored, there or elsewhere."""
    os.makedirs(os.path.dirname(project.state), mode=0o700)
    write(project.state + "~", b"a file of somebody\n")
    row("a search says nothing", project.on_terminal(*NOWHERE), (1, b""))
    row("an update fails", project.ran("--update"), (2, CANNOT))
    row("on a terminal too", project.on_terminal("--update"), (2, CANNOT))
    row("the cache is not tried", (project.stored(), os.path.exists(project.cache)), (None, False))
    row("what is there stays", read(project.state + "~"), b"a file of somebody\n")
    os.remove(project.state + "~")


def mounted(*words):
    return os.getuid() == 0 and subprocess.run(["mount", *words], check=False, capture_output=True).returncode == 0


def unwritable(project):
    """The cache is tried where the folder of the state cannot be written to, unless there is a state."""
    folder = os.path.dirname(project.state)
    os.makedirs(folder, mode=0o700, exist_ok=True)
    if not mounted("-t", "tmpfs", "-o", "ro,mode=700", "tmpfs", folder):
        print("skipped: learning: a folder that cannot be written to: this user can mount nothing")
        return
    row("a search where nothing can be written", (project.ran(*NOWHERE)[0], os.path.exists(project.cache)), (1, True))
    os.remove(project.cache)
    mounted("-o", "remount,rw", folder)
    project.ran("--update")
    [write(f"{project.top}/f{number:04}", text(4000)) for number in range(600)]
    settle()
    mounted("-o", "remount,ro", folder)
    stays("a state that cannot be replaced", project, *NOWHERE)
    row("an update of one", (project.ran("--update"), os.path.exists(project.cache)), ((2, CANNOT), False))
    subprocess.run(["umount", folder], check=True)


def numbered_anew(project):
    """The same folder on another device, as after a reboot or in a container; then one with a file on a device of its own."""
    base = os.path.dirname(project.top) + "/disk"
    os.makedirs(base)
    if not mounted("-t", "tmpfs", "tmpfs", base):
        print("skipped: learning: another device: this user can mount nothing")
        return
    [os.makedirs(f"{base}/{it}") for it in ["lower", "upper", "work", "over"]]
    shutil.move(project.top, base + "/lower/project")
    project.top, project.state = base + "/lower/project", base + "/lower/project/.git/codesearch/state"
    os.makedirs(project.top + "/inner")
    settle()
    stores("a first state", project, "--update", status=0)
    below, layers = os.stat(project.top + "/f0001"), "lowerdir={0}/lower,upperdir={0}/upper,workdir={0}/work".format(base)
    if mounted("-t", "overlay", "-o", layers, "overlay", base + "/over"):
        above = os.stat(base + "/over/project/f0001")
        row("the device is another one", (above.st_dev != below.st_dev, above.st_ino, above.st_ctime_ns), (True, below.st_ino, below.st_ctime_ns))
        project.top, project.state = base + "/over/project", base + "/over/project/.git/codesearch/state"
        stays("on another device all is known", project, "--update", status=0)
        opens(project, os.path.getsize(project.state))
        write(project.top + "/f0001", b"changed\n")
        row("a file that changes there", project.ran("-q", "changed"), (0, b""))
        subprocess.run(["umount", base + "/over"], check=True)
        project.top, project.state = base + "/lower/project", base + "/lower/project/.git/codesearch/state"
    else:
        print("skipped: learning: another device: there is no overlay file system")
    if mounted("-t", "tmpfs", "tmpfs", project.top + "/inner"):
        write(project.top + "/inner/f", b"another device\n")
        settle()
        stores("a file on a device of its own", project, "--update", status=0)
        stays("is known by its number", project, "--update", status=0)
        subprocess.run(["umount", project.top + "/inner"], check=True)
    subprocess.run(["umount", base], check=True)


def main():
    large = Project("large", 520, lambda: text(300_000))
    due = [Project(f"due{it}", 700, lambda: mixed(10_000)) for it in range(2)]
    few, lot = Project("few", 300, lambda: text(4000)), Project("lot", 600, lambda: text(4000))
    plain, gone = Project("plain", 600, lambda: text(4000), ""), Project("gone", 1700, lambda: text(1000), "")
    odd, full = Project("odd", 0, lambda: b""), Project("full", 600, lambda: text(4000))
    read_only, moved = Project("read only", 600, lambda: text(4000)), Project("moved", 300, lambda: text(4000))
    [write(f"{odd.top}/{it}", b"") for it in range(10)]
    write(odd.top + "/f", b"marker\n")
    killed = Project("killed", 104, lambda: text(4000))
    [os.truncate(f"{killed.top}/f{number:04}", 290_000_000) for number in range(100, 104)]
    settle()
    batches(killed)
    budget(large)
    shutil.rmtree(large.top)
    [stores("a first state", it, "--update", status=0) for it in [*due, few, gone]]
    row("a search outside of a repository makes no state", (plain.ran(*NOWHERE), plain.stored()), ((1, b""), None))
    stores("an update does", plain, "--update", status=0)
    stores("a search of 500 files learns", lot, *NOWHERE)
    stays("fewer are not learned", few, *NOWHERE)
    [opens(it, os.path.getsize(it.state)) for it in [due[0], few, plain]]
    taken(full)
    not_learned(odd)
    for more, project in enumerate(due):
        write(project.top + "/f0699", text(limit(project) + more))
    [write(f"{plain.top}/f{number:04}", text(4000)) for number in range(500)]
    [os.remove(f"{gone.top}/f{number:04}") for number in range(1400)]
    settle()
    stays("an update that is not worth it", due[0], *NOWHERE)
    stores("one that is", due[1], *NOWHERE)
    damaged(due[0])
    stores("a search outside of a repository updates a state", plain, *NOWHERE)
    stores("and makes an outdated one anew", gone, *NOWHERE)
    row("which knows nothing that is gone", os.path.getsize(gone.state) < 1000, True)
    stores("and learns by an update", gone, "--update", status=0)
    unwritable(read_only)
    numbered_anew(moved)
    print(f"learning: {rows} rows, {running.wrong} wrong")
    return running.wrong > 0


sys.exit(main())
