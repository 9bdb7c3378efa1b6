#!/usr/bin/env python3
"""Has the next `rt lib` take the libraries that `rt ci` has just proved, in place of proving them again: `make check` runs it
between both. rt ci leaves no stamp beside a library, which then holds statements alone, and fits only libraries of the same run. So
nothing is stamped if one is of another run.
usage: scripts/stamps.py"""
import os
import shutil
import sys
from pathlib import Path

sys.dont_write_bytecode = True
sys.path[:0] = [str(Path(__file__).resolve().parent), os.path.dirname(os.path.realpath(shutil.which("rt")))]
import rtlib
from mutants import crates, top

built = [top / "crates" / name for name in crates(top) if (top / f"crates/{name}/out/rlib/{name}.rlib/format").exists()]
if not any((it / "out/rlib/stamp").exists() for it in built):
    for crate in built:
        stamp = rtlib.Crate(str(crate), str(top), {}, name=None).stamp()
        (crate / "out/rlib/stamp").write_text(stamp)
