#!/usr/bin/env -S python3 -B
"""Runs random histories of projects: files are written, moved, ignored and removed, branches are switched, and the state that `cs`
keeps of a project is damaged, replaced, or in use. After each step a search prints what a search with `--no-state` prints, to the
byte, on both outputs, with the same status, and nothing outside of the project and its state has changed.
usage: tests/runs/fresh.py PROGRAM [ROUNDS [SEED]]

A state knows a file that was more than 2 s old. So a round changes all projects, waits once for all of them, and changes them again."""
import contextlib
import hashlib
import os
import random
import shutil
import subprocess
import sys
import time

import running
from running import complain, home, program, read, write

# How many files each project has (a search reads the first 99 always), and whether its `.git` is a folder, a file, or missing.
PROJECTS = [(1000, "git"), (1300, "git"), (40, "git"), (900, "file"), (1000, "plain")]
RARE = ["marker", "rarest", "Omega", "zetazeta", "return"]
PATTERNS = [*RARE, "nowhere at all", "(?i)OMEGA", "^alpha", "a$", "", "marker|rarest", "zeta[a-z]"]
OPTIONS = "-n -c -l -L -i -w -o -v -x -q -a -m1 -C1 -B2 --vimgrep --heading -0 -S -u -d2 -g*.c -tc -F --color=always --no-update".split()
PLACES = [[], [], [], ["src"], ["a", "src/deep"], ["."], ["a b", "a b"]]
FOLDERS = [b"a", b"b", b"src", b"src/deep", b"src/deep/er", b"a-b", b"a b", b"src.d", b"Z/src"]
ENDS = [b".c", b".h", b".t", b".o", b":1", b" x", "é".encode(), b".c\n"]
RULES = [b"*.o\n", b"*.o\na/\n", b"*.o\n!src/f1*\n", b"src/deep\n", b"f?\n"]
PRECIOUS = os.fsencode(home) + b"/precious"
# Root reads and writes what others protect, unless it gives up that capability.
POWERS = "-dac_override,-dac_read_search"
POWERLESS = ["setpriv", "--bounding-set", POWERS, "--inh-caps", POWERS] if os.getuid() == 0 and shutil.which("setpriv") else []


def text(dice, chance):
    """The bytes of a file: text, each rare word in it with this chance, or something that an index does not hold."""
    lines = [b" ".join(dice.choice([b"alpha", b"beta", b"gamma"]) + b"%c" % dice.randrange(97, 123) for _ in range(9)) for _ in range(dice.randrange(20, 80))]
    plain = b"\n".join(lines + [word.encode() for word in RARE if dice.random() < chance]) + dice.choice([b"\n", b"\n", b""])
    odd = [b"\0 marker " + plain, plain + b"x" * 8000 + b"\0marker\n", b"marker \xe9 " + plain, b"marker " * 400 + b"\n" + plain, b"", b"ma"]
    return dice.choice(odd) if dice.random() < 0.07 else plain


def attempt(call, *words):
    with contextlib.suppress(OSError):
        call(*words)


class Project:
    searches = damages = 0

    def __init__(self, number, size, kind, seed):
        self.dice, self.top, self.kind, self.seen, self.word = random.Random(f"{seed} {number}"), os.fsencode(f"{home}/{number}"), kind, set(), RARE[0]
        self.around = {"PATH": os.environ["PATH"], "HOME": f"{home}/home{number}", "GIT_CONFIG_GLOBAL": "/dev/null", "LC_ALL": "C"}
        cache = f"{home}/home{number}/.cache/codesearch/{hashlib.sha1(self.top).hexdigest()}"
        self.kept = self.top + b"/.git/codesearch" if kind == "git" else os.fsencode(cache)
        os.makedirs(self.top)
        self.git("init -q -b one .")
        self.put(self.top + b"/.git", b"gitdir: " + PRECIOUS + b"\n") if kind == "file" else None
        while len(self.files(size)) < size:
            [self.put(self.path() + b"%d" % it, text(self.dice, 0.03)) for it in range(size // 4)]
        self.git("add -A", "commit -q -m 1", "branch two")

    def git(self, *commands):
        for command in commands if self.kind == "git" else []:
            words = f"git -c user.name=ann -c user.email=ann@localhost -c gc.auto=0 {command}".split()
            subprocess.run(words, cwd=self.top, env=self.around, check=False, capture_output=True)

    def path(self):
        return b"%s/%s/f%d%s" % (self.top, self.dice.choice(FOLDERS), self.dice.randrange(200), self.dice.choice(ENDS))

    def files(self, most):
        every = [folder + b"/" + name for folder, _, names in os.walk(self.top) for name in names if b"/.git" not in folder]
        found = sorted(it for it in every if os.path.isfile(it) and os.access(it, os.R_OK) and not os.path.islink(it))
        return self.dice.sample(found, min(most, len(found)))

    def states(self):
        path = self.kept + b"/state"
        is_real = os.path.isfile(path) and not os.path.islink(path) and not os.path.islink(self.kept)
        return [path] if is_real and read(path)[-17:-1] == b"codesearch state" else []

    def put(self, path, data):
        """Writes a file, if it is in the project and no folder."""
        attempt(os.makedirs, os.path.dirname(path))
        attempt(write, path, data) if os.path.realpath(path).startswith(self.top + b"/") else None

    def start(self, words, folder=None):
        command, none, pipe = [*POWERLESS, program, "cs", *words], subprocess.DEVNULL, subprocess.PIPE
        return subprocess.Popen(command, cwd=folder or self.top, env=self.around, stdin=none, stdout=pipe, stderr=pipe)

    def ran(self, words, folder=None):
        child = self.start(words, folder)
        return *child.communicate(), child.returncode

    def compare(self, why, times=2):
        """Compares searches over the state with searches that use none."""
        for number in range(times):
            words, folder = ["-c", self.word], self.top
            if number:
                words = [*self.dice.sample(OPTIONS, self.dice.choice([0, 1, 1, 2])), "-e", self.dice.choice(PATTERNS), *self.dice.choice(PLACES)]
                folder = self.dice.choice([self.top, self.top, *[self.top + b"/src"] * os.path.isdir(self.top + b"/src")])
            wanted, came = self.ran(["--no-state", *words], folder), self.ran(words, folder)
            Project.searches += 1
            self.seen |= {os.lstat(it).st_ino for it in self.states()}
            if came != wanted:
                complain(f"{os.fsdecode(folder)}: {words} after {why}; wanted {wanted[0][:300]}, {wanted[1:]}", (came[0][:300], *came[1:]))
                shutil.copytree(home, f"/tmp/fresh-{os.getpid()}", symlinks=True, dirs_exist_ok=True)

    def update(self, why):
        self.ran(["--update"])
        self.compare(f"{why}, and an update")

    def rewritten(self):
        """A word in files, whose length and time of the last write stay."""
        self.word = self.dice.choice(RARE)
        for path in self.files(5):
            before, old = os.stat(path), read(path)
            write(path, (old[:9] + self.word.encode() + old[9 + len(self.word) :])[: len(old)])
            os.utime(path, ns=(before.st_atime_ns, before.st_mtime_ns))

    def swapped(self):
        for path in self.files(1):
            os.remove(path)
            self.put(path + b"/f1.c", text(self.dice, 0.5))
        path = self.top + b"/" + self.dice.choice(FOLDERS)
        shutil.rmtree(path, ignore_errors=True)
        self.put(path, text(self.dice, 0.5))

    def away_and_back(self):
        """A folder is away for a search, or a file in its place; then it is back, with its old stamps."""
        path = self.top + self.dice.choice([b"/src", b"/src/deep", b"/a"])
        if os.path.isdir(path):
            os.rename(path, self.top + b".away")
            self.put(path, b"marker in place\n") if self.dice.random() < 0.5 else None
            time.sleep(3.2) if self.dice.random() < 0.2 else None
            self.update("away")
            os.remove(path) if os.path.lexists(path) else None
            os.rename(self.top + b".away", path)

    def there_or_not(self, path, names, data):
        if os.path.lexists(self.top + path):
            shutil.rmtree(self.top + path) if os.path.isdir(self.top + path) else os.remove(self.top + path)
        else:
            [self.put(self.top + path + name, data) for name in names]

    def change(self):
        rules, pick = [b"/.gitignore", b"/src/.gitignore", b"/Z/src/.gitignore", b"/.ignore"], self.dice.choice
        steps = {
            "submodule": lambda: self.there_or_not(b"/Z/src/.git", [b"/HEAD", b"/objects/a", b"/refs/a"], b"ref: refs/heads/one\n"),
            "a name that is not UTF-8": lambda: self.there_or_not(b"/a b/\xff.c", [b""], b"marker\n"),
            "linked": lambda: attempt(os.symlink, pick([*self.files(1), self.top + b"/src", PRECIOUS]), self.path()),
            "written": lambda: [self.put(path, text(self.dice, 0.5)) for path in [*self.files(4), self.path(), self.path()]],
            "removed": lambda: [os.remove(path) for path in self.files(3)],
            "moved": lambda: [attempt(os.renames, path, self.path()) for path in self.files(2)],
            "ignored": lambda: self.put(self.top + pick(rules), pick(RULES)),
            "protected": lambda: [os.chmod(path, os.stat(path).st_mode ^ 0o444) for path in self.files(1)],
            "switched": lambda: self.git("add -A", "commit -q --allow-empty -m x", "checkout -q " + pick(["one", "two"])),
        }
        name, step = pick([*steps.items(), *((it.__name__, it) for it in [self.rewritten, self.swapped, self.away_and_back])])
        step()
        self.compare(name)

    def damage(self, others):
        """The state is cut, of zeros, empty, longer, of another project, or has some zeros or a changed bit."""
        for path in self.states():
            state, other = read(path), [read(it) for one in others if one is not self for it in one.states()]
            at, bit = self.dice.randrange(len(state)), bytearray(state)
            bit[at] ^= 1 << self.dice.randrange(8)
            zeros = state[:at] + bytes(len(state[at : at + 4000])) + state[at + 4000 :]
            write(path, self.dice.choice([state[:at], bytes(len(state)), b"", b"x" + state, *other[:1], zeros, bytes(bit), bytes(bit)]))
            Project.damages += 1

    def protected(self, others):
        paths = [path for it in self.states() for path in (it, self.kept)]
        [os.chmod(path, os.stat(path).st_mode & ~0o222) for path in paths]
        self.update("protection")
        [os.chmod(path, os.stat(path).st_mode | 0o200) for path in paths]
        self.damage(others)
        [os.chown(path, 12345, 12345) for path in self.dice.sample(paths, len(paths) // 2) if os.getuid() == 0]
        self.update("another user")
        shutil.rmtree(self.kept, ignore_errors=True)

    def planted(self, _others):
        """A link in place of the state, of its temporary file, or of their folder, to what is not the project's."""
        name, goal = self.dice.choice([(b"", b""), *((name, goal) for name in (b"/state", b"/state~") for goal in (b"/file", b"/none"))])
        shutil.rmtree(self.kept, ignore_errors=True)
        os.makedirs(self.kept if name else os.path.dirname(self.kept), exist_ok=True)
        os.symlink(PRECIOUS + goal, self.kept + name)
        self.update(f"a link at {name}")
        os.remove(self.kept + name) if os.path.islink(self.kept + name) else None

    def killed(self, _others):
        for step in range(4):
            shutil.rmtree(self.kept, ignore_errors=True)
            child = self.start(["--update"])
            time.sleep(0.002 + step * self.dice.random() * 0.02)
            child.kill()
            child.communicate()
            self.compare("a kill", 1)

    def at_once(self, _others):
        """Searches beside two updates; then an update beside a writer."""
        children = [self.start(["--update"]) for _ in range(2)]
        self.compare("an update at once", 3)
        children += [self.start(["--update"])]
        while children[-1].poll() is None:
            self.rewritten()
        [it.communicate() for it in children]

    def stopped(self, _others):
        """A search whose reader goes, and one that ends at its first match, take no state away."""
        before = self.states()
        child = self.start(["-c", ""])
        child.stdout.read(1)
        child.stdout.close()
        child.stderr.close()
        child.wait()
        self.ran(["-q", ""])
        complain("a stopped search took the state away", before) if before and not self.states() else None

    def full_disk(self, _others):
        shutil.rmtree(self.kept, ignore_errors=True)
        os.makedirs(self.kept)
        mount = ["mount", "-t", "tmpfs", "-o", "size=200k", "tmpfs", self.kept]
        if subprocess.run(mount, check=False, capture_output=True).returncode == 0:
            try:
                self.update("a full disk")
            finally:
                subprocess.run(["umount", self.kept], check=True)

    def trouble(self, others):
        self.dice.choice([self.damage, self.damage, self.protected, self.planted, self.killed, self.stopped, self.at_once, self.full_disk])(others)
        self.compare("trouble with the state")


def main():
    if not shutil.which("git"):
        print("skipped: fresh: git is not installed")
        return False
    rounds, seed = int(sys.argv[2]) if sys.argv[2:] else 4, sys.argv[3] if sys.argv[3:] else "1"
    [os.makedirs("precious/" + folder) for folder in ["folder", "objects", "refs"]]
    [write("precious/" + file, b"precious marker\n") for file in ["file", "HEAD"]]
    precious = sorted(os.walk("precious"))
    projects = [Project(number, *one, seed) for number, one in enumerate(PROJECTS)]
    for _ in range(rounds):
        [project.change() for _ in range(3) for project in projects]
        time.sleep(3.2)
        for project in projects:
            project.compare("a wait")
            project.update("a wait") if project.dice.random() < 0.7 else None
            project.rewritten()
            project.compare("other bytes of the same length")
            project.trouble(projects)
        if read("precious/file") != b"precious marker\n" or sorted(os.walk("precious")) != precious:
            complain("outside of the projects", [*os.walk("precious")])
    states = sum(len(project.seen) for project in projects)
    complain("no state was made", 0) if not states else None
    print(f"fresh: {rounds} rounds, {Project.searches} searches, {states} states, {Project.damages} damaged ones, {running.wrong} wrong")
    return running.wrong > 0


sys.exit(main())
