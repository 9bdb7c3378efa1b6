#!/usr/bin/env python3
"""Checks names and types of the crates, without a proof. A crate is left out if it is built, so proved, or if it passed before, and
its sources and those below are as they were then: out/names has the sums.
usage: scripts/names.py"""
import os
import shutil
import subprocess
import sys
from pathlib import Path

sys.dont_write_bytecode = True
sys.path[:0] = [str(Path(__file__).resolve().parent), os.path.dirname(os.path.realpath(shutil.which("rt")))]
import rtlib
from mutants import crates, sources_sum, top


def is_built(crate):
    """Whether the toolchain built the library or the program from these sources."""
    stamp = rtlib.Crate(str(crate), str(top), {}, name=None).stamp()
    kept = [crate / "out/rlib/stamp", crate / f"out/{crate.name}.stamp"]
    return any(it.exists() and it.read_text().startswith(stamp) for it in kept)


for name in crates(top):
    crate, kept = top / "crates" / name, top / "out/names" / name
    total = sources_sum(crate, ("src", "specs"))
    if is_built(crate) or (kept.exists() and kept.read_text() == total):
        continue
    print(f"names and types of {name}", flush=True)
    how = {"stdout": subprocess.PIPE, "stderr": subprocess.STDOUT, "text": True, "errors": "replace"}
    ran = subprocess.run(["rt", "check", "--only="], cwd=crate, **how)
    if ran.returncode:
        sys.exit(ran.stdout)
    kept.parent.mkdir(parents=True, exist_ok=True)
    kept.write_text(total)
