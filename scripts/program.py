#!/usr/bin/env python3
"""Proves the libraries below a crate in parallel, each from nothing, and keeps of each its statements alone, as `rt ci` does: one
process reads a sixth of what it reads over whole proofs. `rt lib` and `rt run` take what this makes for built. scripts/program.sh
runs it for a first build.
usage: scripts/program.py CRATE    RT_JOBS gives the number of lanes; else as many as there are processors and memory"""
import os
import shutil
import sys
import time
from importlib.machinery import SourceFileLoader
from pathlib import Path

sys.dont_write_bytecode = True
top = str(Path(__file__).resolve().parent.parent)
kit = os.path.dirname(os.path.realpath(shutil.which("rt")))
sys.path.insert(0, kit)
rt = SourceFileLoader("rt_command", f"{kit}/rt").load_module()
rtlib = rt.rtlib


def to_prove(below):
    """The libraries that are not built, and those over them: statements fit only the libraries that they were made over."""
    names = set()
    for crate in below:
        if not crate.is_built() or any(it.name in names for it in crate.deps):
            names.add(crate.name)
    return [crate for crate in below if crate.name in names]


def prove(crate, jobs):
    """Proves a library; whether it is proved, and its files are still as they were."""
    folder = Path(crate.folder, "out")
    folder.mkdir(exist_ok=True)
    stamp, log = crate.stamp(), folder / "build.log"
    with log.open("w") as crate.out:
        failed = crate.build_rlib(["--jobs", str(jobs)], anew=True)
    if failed:
        print(log.read_text(), file=sys.stderr)
    if failed or stamp != crate.stamp():
        return False
    (folder / "rlib/stamp").write_text(stamp)
    return True


def main(name):
    rtlib.guarded()
    os.chdir(top)
    rtlib.Crate.cuts_libraries = True
    below, start = rtlib.Crate(f"{top}/crates/{name}", top, {}, name=None).below(), time.time()
    held = rtlib.lock(below)
    todo = to_prove(below)

    def task(crate):
        mine = [(it.name, "proof") for it in crate.below() if it in todo]

        def call(given, jobs):
            if not all(given[it] for it in mine):
                return False
            minutes = int(time.time() - start) // 60
            print(f"codesearch: proving {crate.name}, {len(given) + 1} of {len(todo)}, {minutes} min so far", file=sys.stderr)
            return prove(crate, jobs)

        return mine, crate.count(rb"\n"), rt.need(crate), call

    given = rt.in_lanes({(it.name, "proof"): task(it) for it in todo})
    for it in held:
        os.close(it)
    return int(not all(given.values()))


try:
    sys.exit(main(sys.argv[1]))
except KeyboardInterrupt:
    # (the proofs end with this process)
    os._exit(130)
