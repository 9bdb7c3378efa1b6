#!/usr/bin/env python3
"""Compares the processor time that the proof of each crate takes with budget.txt, so that growth is seen in the change that brings it.
usage: scripts/budget.py COMMAND..    runs a command, as `rt ci`, keeps what each crate took in out/gate.tsv, and prints the crates
                                      that are above their budget; it ends with the status of the command
       scripts/budget.py              compares the last run, and ends with 1 if a crate is above its budget or has none
       scripts/budget.py --write [SECONDS]   writes the last run, of an idle machine, into budget.txt; a crate that was not proved
                                      keeps its line. SECONDS is the yardstick of this machine, now .85: the processor time of Go's
                                      `cindex -reset` over Debian's golang-1.19-src

A line of budget.txt is CRATE MINUTES or CRATE:tests MINUTES, of an idle machine with a yardstick of .85 s. On another or a busy one
each crate takes longer, and all by about the same factor: so each is compared with MARGIN times its budget, times the median of these
factors over the crates of the run.
Where fewer than FEW crates were proved, the factor is not known, and BUSY stands for it. Proofs that an earlier run kept take no time,
and are not compared. Without budget.txt a run is measured, and nothing is compared."""
import os
import statistics
import subprocess
import sys
import threading
import time
from pathlib import Path

top = Path(__file__).resolve().parent.parent
file, last = top / "budget.txt", top / "out/gate.tsv"
MARGIN = 1.3
FEW, BUSY = 5, 1.8
# A crate of less is not compared, in seconds: its time is that of loading the logic.
SMALL = 60
YARDSTICK = 0.85
TICK = os.sysconf("SC_CLK_TCK")


def processes():
    """The processes of rattle that prove: (number, start) with the crate, the processor seconds, and the parent."""
    found = {}
    for pid in filter(str.isdigit, os.listdir("/proc")):
        try:
            words = Path(f"/proc/{pid}/cmdline").read_bytes().split(b"\0")
            if not words[0].endswith(b"/rattle") or b"--crate-name" not in words:
                continue
            stat = Path(f"/proc/{pid}/stat").read_text()
        except OSError:
            continue
        fields = stat[stat.rindex(")") + 2 :].split()
        crate = words[words.index(b"--crate-name") + 1].decode()
        kind = crate + ":tests" * (b"--test" in words)
        found[pid, fields[19]] = kind, sum(map(int, fields[11:13])) / TICK, fields[1]
    return found


def below(pid):
    """Whether a process descends from this one."""
    while pid not in ("0", "1"):
        if pid == str(os.getpid()):
            return True
        try:
            stat = Path(f"/proc/{pid}/stat").read_text()
        except OSError:
            return False
        pid = stat[stat.rindex(")") + 2 :].split()[1]
    return False


def watched(command):
    """Runs a command: its status, and the processor seconds of each crate."""
    spent, mine, ended = {}, {}, threading.Event()

    def watch():
        while not ended.wait(1):
            for key, (kind, seconds, _) in processes().items():
                if mine.setdefault(key, below(key[0])):
                    spent[key] = kind, seconds

    watching = threading.Thread(target=watch)
    watching.start()
    status = subprocess.run(command).returncode
    ended.set()
    watching.join()
    sums = {}
    for kind, seconds in spent.values():
        sums[kind] = sums.get(kind, 0) + seconds
    return status, sums


def budgets():
    """The seconds of each crate."""
    lines = (it.split("#")[0].split() for it in file.read_text().splitlines()) if file.exists() else []
    return {name: float(minutes) * 60 for name, minutes in filter(None, lines)}


def kept():
    """What each crate took in the last run, in seconds."""
    return {kind: float(seconds) for kind, seconds in (line.split("\t") for line in last.read_text().splitlines())}


def compare(spent):
    """Prints the crates that are above their budgets, and returns whether there are some."""
    known = budgets()
    both = [it for it in spent if known.get(it, 0) >= SMALL]
    factor = max(1, statistics.median(spent[it] / known[it] for it in both)) if len(both) >= FEW else BUSY
    found = []
    for it in sorted(spent):
        took = f"{it} took {spent[it] / 60:.1f} minutes of processor"
        if it not in known and spent[it] >= SMALL * factor:
            found.append(f"{took}, and budget.txt has no line of it")
        elif it in both and spent[it] > MARGIN * factor * known[it]:
            found.append(f"{took}; its budget is {known[it] / 60:.1f}, and most took {factor:.2f} times theirs")
    print(f"budget: {sum(spent.values()) / 60:.1f} minutes of processor for the proofs of the run; factor {factor:.2f}, of {len(both)} crates")
    if not file.exists():
        print("budget: there is no budget.txt, so nothing is compared (scripts/budget.py --write makes it)")
        return False
    for it in found:
        print(f"budget: {it}", file=sys.stderr)
    return bool(found)


def main(words):
    if words and words[0] != "--write":
        status, spent = watched(words)
        last.parent.mkdir(exist_ok=True)
        last.write_text("".join(f"{it}\t{spent[it]:.1f}\n" for it in sorted(spent)))
        compare(spent)
        return status
    if not last.exists():
        sys.exit("budget: no run was measured (scripts/budget.py rt ci)")
    if not words:
        return int(compare(kept()))
    scale = YARDSTICK / float(words[1]) if words[1:] else 1
    known = budgets() | {kind: seconds * scale for kind, seconds in kept().items() if seconds * scale >= SMALL}
    text = f"# Processor minutes of a proof from nothing, on an idle machine with a yardstick of {YARDSTICK} s. scripts/budget.py compares them.\n"
    file.write_text(text + "".join(f"{it} {known[it] / 60:.1f}\n" for it in sorted(known)))
    return 0


sys.exit(main(sys.argv[1:]))
