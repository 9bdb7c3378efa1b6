#!/usr/bin/env -S python3 -B
"""Runs histories of jobs over small trees that change, always the same ones. The index after each job is compared with the one that a
reference writes (docs/FORMAT.md) from the remaining paths and the text last read of each file below them. If each indexed file is
unchanged, `csearch` has to print what `cgrep` prints over those files. The same with folders of many files, and with files of many
trigrams.
usage: tests/runs/histories.py PROGRAM"""
import os
import random
import shutil
import sys

import running
from indexes import index_of_texts, mixed_text
from running import complain, home, leave, read, run, write

HISTORIES = 1000
JOBS = 4
# The number of files of each of three folders, and the new number of one of them. The numbers of
# indexed files with 20,000 trigrams: 24 files fill one batch of the radix sort.
JOINED = [(1, 0), (9, 8), (128, 127), (140, 0), (140, 131), (300, 300), (300, 1)]
BATCHES = [1, 23, 24, 25, 26, 49]

# Names that differ in a `/` and a lower byte, a name that is sometimes a folder, and a separate folder.
FILES = ["a/b/f", "a/b/g", "a/b-x", "a/b.c", "a/g", "c/f", "c/d/e"]
PATHS = ["a", "a/b", "a/b-x", "a/g", "c", "c/d"]
TEXTS = [b"one\n", b"two\none\n", b"sixes\n", b"", b"o", None, None]


def covers(path, name):
    return name == path or name.startswith(path + "/")


def below(paths, names):
    return [name for name in names if any(covers(path, name) for path in paths)]


class Model:
    """The state after some jobs: the paths, or None without an index, and the text last read of each file."""

    def __init__(self):
        self.paths, self.kept = None, {}

    def job(self, resets, given, files):
        """Does a job over files, and returns its status."""
        if resets:
            self.paths, self.kept = None, {}
        walked = given or self.paths
        if walked is None:
            return 0 if resets else 2
        every = {*(self.paths or ()), *given}
        self.paths = sorted(path for path in every if not any(covers(it, path) for it in every - {path}))
        kept = {name: text for name, text in self.kept.items() if not below(walked, [name])}
        self.kept = kept | {name: files[name] for name in below(walked, files)}
        return 0

    def index(self, chance=None):
        """The bytes of the index, or None without one. The names are sorted, or shuffled, as another tool may leave them."""
        if self.paths is None:
            return None
        names = sorted(self.kept)
        if chance:
            chance.shuffle(names)
        return index_of_texts([path.encode() for path in self.paths], {name.encode(): self.kept[name] for name in names})


def write_tree(files):
    """Replaces the tree by these files, and returns them by their absolute names."""
    shutil.rmtree("t", ignore_errors=True)
    os.mkdir("t")
    for name, text in files.items():
        os.makedirs(os.path.dirname(f"t/{name}"), exist_ok=True)
        write(f"t/{name}", text)
    return {f"{home}/t/{name}": text for name, text in files.items()}


def random_tree(chance):
    """A random tree."""
    files = {name: text for name in FILES if (text := chance.choice(TEXTS)) is not None}
    if chance.random() < 0.2:
        # (a file in place of a folder)
        files = {name: text for name, text in files.items() if not covers("a/b", name)} | {"a/b": b"file\n"}
    return write_tree(files)


def finds_the_same(model, files):
    """Whether csearch prints what cgrep prints over the indexed files, if these are unchanged."""
    if not model.kept or any(files.get(name) != text for name, text in model.kept.items()):
        return True
    pattern = ["-n", "(one|six)"]
    return run(["csearch", *pattern]) == run(["cgrep", *pattern, *sorted(model.kept)])


def does(model, given, files, resets=False):
    """Whether a job over these files leaves the index of the model, and csearch finds what cgrep does."""
    status, out, _err = run(["cindex", *(["-reset"] if resets else []), *given])
    return (status, out, read("index")) == (model.job(resets, given, files), b"", model.index()) and finds_the_same(model, files)


def history(chance):
    """The first wrong job of a random history, or None."""
    leave(None)
    model = Model()
    for job in range(JOBS):
        files = random_tree(chance)
        if chance.random() < 0.2:
            leave(model.index(chance))
        resets = chance.random() < 0.15
        given = [f"{home}/t/{path}" for path in PATHS if chance.random() < 0.25]
        if not does(model, given, files, resets):
            return f"job {job}: {given}, reset: {resets}, over {files}"
    return None


def folder(path, count, state):
    """Files with a text that all have, one that few have, and one that a third has in each state."""
    return {f"{path}/{at + 1000}": b"all" + b"few" * (at % 130 == 0) + b"third" * ((at + state) % 3 == 0) for at in range(count)}


def is_joined(count, now, changed):
    """Whether the index of three folders is right after one of them has so many files, whose ids may need two bytes."""
    folders = {path: folder(path, count, 0) for path in "bcd"}
    tree = lambda: write_tree({name: text for files in folders.values() for name, text in files.items()})
    model = Model()
    if not does(model, [f"{home}/t"], tree(), resets=True):
        return False
    folders[changed] = folder(changed, now, 1)
    return does(model, [f"{home}/t/{changed}"], tree())


def main():
    chance = random.Random(2012)
    for at in range(HISTORIES):
        wrong = history(chance)
        if wrong:
            complain(f"history {at}, {wrong}", read("index"))
    for count, now in JOINED:
        for changed in "bcd":
            if not is_joined(count, now, changed):
                complain(f"{now} files for {count}, in {changed}", "another index")
    text = mixed_text(20_243)
    for count in BATCHES:
        if not does(Model(), [f"{home}/t"], write_tree({f"f/{at + 1000}": text for at in range(count)}), resets=True):
            complain(f"{count} files of many trigrams", "another index")
    print(f"histories: {HISTORIES} of {JOBS} jobs, {3 * len(JOINED)} of many files, {len(BATCHES)} of many trigrams, {running.wrong} wrong")
    return running.wrong > 0


sys.exit(main())
