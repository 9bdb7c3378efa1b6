#!/usr/bin/env python3
"""Judges each mutant by itself: those that `rt ci` tries, must-fail/*.edit, and the others, mutants/*.mutants. A file of several
mutants has a line `# NAME` before each, and `rt ci` counts it as refused if one of them is.
usage: scripts/mutants.py [CRATE | CRATE/NAME]..

A verdict is kept in out/mutants, under a sum of the mutant and of the sources of its crate and of those below, and printed again as
long as these stay as they are. So a run that was interrupted goes on where it was.

A check reports for each function whether it is proved, and proves it from the contracts of the functions that it calls,
whatever their bodies are. So one check judges many mutants, each by a function that it changes. Functions of a cycle are
proved together, so their mutants get separate checks. A mutant that changes something else, as a definition, gets a check
of its own, and so does one whose functions are proved there. The script works on a copy of the crates, with what `rt check`
has kept. It judges all mutants of a crate, or the named ones; without arguments those of all crates.

A mutant is refused by a goal that stays open. A written answer that no longer fits, since the mutant gives its goal another name
or another type, refuses nothing: the check is made again without that answer. The open goals of each refused mutant are printed. A
goal is false if the check has found values at which it is, or if a person has read it and the mutant has a line `false: GOAL`; a
mutant without a false goal has to be read. So has one of a definition, which some proof refuses.

judged.txt of a crate has its mutants that were refused by a false goal, each with a sum of the mutant and of the contracts
of the functions that it changes (of the file, for a mutant of a definition). The script keeps it; after a change of a contract the
line no longer counts, and scripts/promises.py lists the mutant as one that is not judged on the present contract."""
import hashlib
import json
import re
import shutil
import subprocess
import sys
import tempfile
from collections import Counter
from pathlib import Path

top = Path(__file__).resolve().parent.parent
NAME = re.compile(r"^# (\w+)\n", re.M)
FUNCTION = re.compile(r'^ *(?:#\[cycle\((\w+)\)\]\n *)?(?:pub(?:\(\w+\))? )?(?:const )?(?:extern "C" )?fn (\w+)', re.M)
TYPE = re.compile(r"^impl(?:<[^>]*>)? (?:.* for )?(\w+).*\{$", re.M)
# The line of a function, which follows the notes on it.
LINE = re.compile(r"^fn (\S+): (.*)\n", re.M)
# The goals of a function that stay open, and what each says.
OPEN = re.compile(r"no proof: expected answers in \./(\S+); `search` did not prove (`\S+`(?:, `\S+`)*)")
GOAL = re.compile(r"^note: `(\S+)` of (\S+) must prove: (.*?)\n(?=\S|  names you can use)", re.M | re.S)
FALSE = "; the facts known there allow values at which this goal is false"
# A proof that the check refuses.
WRONG = re.compile(r"^\./((?:proofs|specs)/\S+?):(\d+):\d+: error: (.*)", re.M)
# The path before the name of a definition.
MODULE = re.compile(r"\b(?:Rattle|mathlib|lib|Prim|denote|borrow)\.(?:\w+\.)*")


class Mutant:
    """A mutant: texts that occur once in files of a crate, and what replaces them."""

    def __init__(self, crate, name, text):
        self.name, self.changes, self.false, path, old = name, [], set(), "", ""
        self.sum = hashlib.sha256(text.encode()).hexdigest()
        for line in text.splitlines():
            if line.startswith("file: "):
                path = line[6:]
            elif line.startswith("old: "):
                old = line[5:]
            elif line.startswith("new:"):
                self.changes.append((path, old, line[4:].removeprefix(" ")))
            elif line.startswith("false: "):
                self.false.add(line[7:])
        found = [function(crate, path, old) for path, old, _new in self.changes]
        self.functions = {} if None in found else dict(found)


def function(crate, path, old):
    """The function that contains a text, as a pattern of the name in a check, and the group with which it is proved."""
    before = (crate / path).read_text().partition(old)[0]
    found = FUNCTION.findall(before)
    if not path.startswith("src/") or not found:
        return None
    cycle, name = found[-1]
    owners = TYPE.findall(before[before.rfind("\n}\n") + 1 :])
    module = path[len("src/") : -len(".rt")].replace("/", "::")
    # (the path of a method has its type in place of the module)
    owner = rf"(?:\w+::)+{owners[-1]}\w*" if owners else module
    pattern = f"{crate.name}::{owner}::{name}"
    return pattern, f"{module} {cycle}" if cycle else pattern


def contract(crate, path, old):
    """The signature and the contract of the function that contains a text, whatever their layout; elsewhere the text of the file."""
    text = (crate / path).read_text()
    found = [*FUNCTION.finditer(text.partition(old)[0])] if path.startswith("src/") else []
    if not found:
        return text
    kept = []
    for line in text[found[-1].start() :].splitlines():
        if line.strip() in ("{", "{}") or (line.endswith(" {") and not any("ensures" in it for it in kept)):
            break
        kept.append(line)
    return " ".join(" ".join(kept).split())


def contract_sum(crate, mutant):
    """A sum of a mutant and of the contracts of the functions that it changes."""
    parts = [part for path, old, new in mutant.changes for part in (path, old, new, contract(crate, path, old))]
    return hashlib.sha256("\0".join(parts).encode()).hexdigest()[:12]


def judged(crate):
    """The mutants of a crate that were refused by a false goal, each with the sum that it had then."""
    path = crate / "judged.txt"
    return dict(line.split() for line in path.read_text().splitlines()) if path.exists() else {}


def is_judged(crate, mutant):
    return judged(crate).get(mutant.name) == contract_sum(crate, mutant)


def note_judged(crate, verdicts):
    """Keeps in judged.txt of the crate which mutants are refused by a false goal, of those with a verdict."""
    listed = {it.name: it for it in mutants(crate)}
    kept = {name: total for name, total in judged(crate).items() if name in listed}
    for name, verdict in verdicts.items():
        kept.pop(name, None)
        if verdict == "refused":
            kept[name] = contract_sum(crate, listed[name])
    lines = "".join(f"{name} {total}\n" for name, total in sorted(kept.items()))
    (crate / "judged.txt").write_text(lines)


def mutants(crate):
    """The mutants of a crate."""
    found = {}
    for file in sorted([*crate.glob("must-fail/*.edit"), *crate.glob("mutants/*.mutants")]):
        parts = NAME.split(file.read_text())
        for name, text in zip(parts[1::2], parts[2::2]) if parts[1:] else [(file.stem, parts[0])]:
            if name in found:
                sys.exit(f"{crate.name}: two mutants have the name {name}")
            found[name] = Mutant(crate, name, text)
    return [*found.values()]


def with_mutants(folder):
    """The crates of a folder that have mutants."""
    return sorted({it.parent for name in ("must-fail", "mutants") for it in folder.glob(f"*/{name}")})


def changed(crate, chosen):
    """The changed files with all these mutants applied, or None if a text does not occur exactly once."""
    texts = {}
    for path, old, new in (change for mutant in chosen for change in mutant.changes):
        text = texts.get(path) or (crate / path).read_text()
        if text.count(old) != 1:
            return None
        texts[path] = text.replace(old, new)
    return texts


def go_together(crate, chosen):
    """Whether one check judges each of these mutants by itself."""
    proved = [it for mutant in chosen for it in {*mutant.functions.values()}]
    return all(it.functions for it in chosen) and len({*proved}) == len(proved) and changed(crate, chosen) is not None


def rounds(crate, listed):
    """These mutants of a crate, grouped by checks."""
    found = []
    for mutant in listed:
        chosen = next((it for it in found if go_together(crate, [*it, mutant])), None)
        if chosen:
            chosen.append(mutant)
        else:
            found.append([mutant])
    return found


def fitting(crate, said):
    """The texts of the files of answers in which a check refuses some, without these; None if a file has no other answer."""
    wrong, texts = {}, {}
    for path, line, _error in WRONG.findall(said):
        if path.endswith("/Answers.antt"):
            wrong.setdefault(path, set()).add(int(line))
    for path, lines in wrong.items():
        # (a blank line separates answers)
        kept, start = [], 1
        for part in (crate / path).read_text().rstrip("\n").split("\n\n"):
            end = start + part.count("\n") + 2
            if not lines & {*range(start, end)}:
                kept.append(part)
            start = end
        texts[path] = "\n\n".join(kept) + "\n" if any(": goal." in it for it in kept) else None
    return texts


def check(crate, chosen):
    """The output of a check of the crate with these mutants, without the answers that then no longer fit, and the files of these."""
    texts = changed(crate, chosen)
    if texts is None:
        sys.exit(f"{crate.name}: {chosen[0].name}: a text does not occur exactly once in its file")
    kept = {}
    while True:
        kept = {path: (crate / path).read_text() for path in texts} | kept
        for path, text in texts.items():
            (crate / path).unlink() if text is None else (crate / path).write_text(text)
        how = {"stdout": subprocess.PIPE, "stderr": subprocess.STDOUT, "text": True, "errors": "replace"}
        said = subprocess.run(["rt", "check"], cwd=crate, **how).stdout
        # (a change that does not compile has no verdict, but an error)
        if "\nlogic=" not in said and not re.search(r"^(\S+: )?error", said, re.M):
            sys.exit(f"{crate.name}: a check ended early: {said[-300:]}")
        texts = {} if any(path.startswith("specs/") for path in kept) else fitting(crate, said)
        if not texts:
            break
    for path, text in kept.items():
        (crate / path).write_text(text)
    return said, {path for path in kept if path.startswith("proofs/")}


def short(text):
    """A goal or an error in a line."""
    text = MODULE.sub("", " ".join(text.partition(" … (cut short")[0].split()))
    return text if len(text) <= 200 else f"{text[:120]} … {text[-77:]}"


def reasons(mutant, said, unfit, alone):
    """Why a check refuses a mutant: a line for each open goal, and whether it is false. If the check is of several mutants, these are
    the goals of the functions that this one changes."""
    parts, found = LINE.split(said), {}
    texts = {(path, goal): text for goal, path, text in GOAL.findall(said)}
    for notes, name, verdict in zip(parts[::3], parts[1::3], parts[2::3]):
        goals = OPEN.match(verdict)
        if goals and (alone or any(re.fullmatch(it, name) for it in mutant.functions)):
            how = " (without the answers that no longer fit)" if goals[1] in unfit else ""
            for goal in re.findall(r"`(\S+?)`", goals[2]):
                is_false = goal in mutant.false or f"(`{goal}`){FALSE}" in notes
                line = f"{name}{how}: {goal}{' is false' if is_false else ''}: {short(texts.get((goals[1], goal), ''))}"
                found[line] = is_false
    if alone and not found and "\nlogic=not-proved" in said:
        found = {f"{path}:{line}: {short(error)}": False for path, line, error in WRONG.findall(said)[:3]}
        found = found or {"logic=not-proved": False}
    return found


class Verdicts:
    """The verdicts that earlier runs kept, a file for each crate: the sum of a mutant and of all that it was judged with, its verdict
    and its lines."""

    def __init__(self, crate):
        self.path = top / "out/mutants" / f"{crate.name}.json"
        self.kept = json.loads(self.path.read_text()) if self.path.exists() else {}
        self.sources = sources_sum(crate)

    def key(self, mutant):
        return hashlib.sha256(f"{self.sources}{mutant.name}{mutant.sum}".encode()).hexdigest()

    def keep(self, mutant, verdict, lines):
        self.kept[self.key(mutant)] = [verdict, *lines]
        self.path.parent.mkdir(parents=True, exist_ok=True)
        written = self.path.with_suffix(".new")
        written.write_text(json.dumps(self.kept, indent=0))
        written.replace(self.path)


def crates(folder):
    """The crates of crates.txt, each with those that it uses."""
    lines = (folder / "crates.txt").read_text().splitlines()
    return {it.split()[0].rstrip(":"): it.partition(":")[2].split() for it in lines if ":" in it}


def sources_sum(crate, parts=("src", "specs", "proofs")):
    """A sum of these parts of a crate and of those below it, of this script and of the toolchain."""
    uses, names, left = crates(crate.parent.parent), set(), [crate.name]
    while left:
        name = left.pop()
        if name in uses and name not in names:
            names.add(name)
            left += uses[name]
    files = [it for name in names for part in parts for it in crate.parent.glob(f"{name}/{part}/**/*") if it.is_file()]
    total = hashlib.sha256(subprocess.run(["rt", "version"], capture_output=True, check=True).stdout)
    for path in [Path(__file__), *sorted(files)]:
        total.update(f"{path.name} {path.stat().st_size}\n".encode() + path.read_bytes())
    return total.hexdigest()


def judge(crate, wanted):
    """Prints for mutants of a crate whether each is refused, and why, and returns how many have which verdict."""
    verdicts, counts = Verdicts(crate), Counter()

    def tell(mutant, verdict, lines):
        counts[verdict] += 1
        note_judged(top / "crates" / crate.name, {mutant.name: verdict})
        print(f"{crate.name}: {mutant.name}: {verdict}", *lines, sep="\n    ", flush=True)

    listed = [it for it in mutants(crate) if not wanted or it.name in wanted]
    missing = wanted - {it.name for it in listed}
    if missing:
        sys.exit(f"{crate.name}: no mutant {', '.join(sorted(missing))}")
    left = []
    for mutant in listed:
        known = verdicts.kept.get(verdicts.key(mutant))
        tell(mutant, known[0], known[1:]) if known else left.append(mutant)
    if left and "\nlogic=proved" not in check(crate, [])[0]:
        sys.exit(f"{crate.name} is not proved")
    for chosen in rounds(crate, left):
        while chosen:
            said, unfit = check(crate, chosen)
            found = {it.name: reasons(it, said, unfit, len(chosen) == 1) for it in chosen}
            if len(chosen) > 1 and not any(found.values()):
                found[chosen[0].name] = reasons(chosen[0], *check(crate, chosen[:1]), True)
            # A function is not checked if one that it calls is refused, so a mutant of it waits for the next check.
            done = [it for it in chosen if found[it.name]] or chosen[:1]
            for mutant in done:
                lines = found[mutant.name]
                verdict = "refused" if any(lines.values()) else "refused, to be read" if lines else "NOT REFUSED"
                verdicts.keep(mutant, verdict, lines)
                tell(mutant, verdict, lines)
            chosen = [it for it in chosen if it not in done]
    return counts


def main():
    given = sys.argv[1:] or [it.name for it in with_mutants(top / "crates")]
    names = [*dict.fromkeys(it.partition("/")[0] for it in given)]
    wanted = lambda name: {it.partition("/")[2] for it in given if it.startswith(name + "/")}
    leave = lambda at, files: {"incremental"} & {*files} if Path(at).parent.name not in names else set()
    with tempfile.TemporaryDirectory(prefix="mutants") as folder:
        copy = Path(folder)
        shutil.copytree(top / "crates", copy / "crates", ignore=leave)
        for name in ("crates.txt", "HANDLES"):
            shutil.copy(top / name, copy)
        (copy / ".git").mkdir()
        counts = sum((judge(copy / "crates" / name, wanted(name)) for name in names), Counter())
    print(f"{sum(counts.values())} judged:", ", ".join(f"{count} {verdict}" for verdict, count in sorted(counts.items())))
    return "NOT REFUSED" in counts


if __name__ == "__main__":
    sys.exit(main())
