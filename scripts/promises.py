#!/usr/bin/env python3
"""Lists each promise with the clauses that state it, the definitions that these cite, and the mutants that are refused for it:
make promises writes the list to out/promises.md.
usage: scripts/promises.py [--check]

The promises of a crate are in its promises.txt, one in each paragraph: what is promised; `by:`, the functions, each with the
names of the clauses that state it (none: the whole contract), or of the fields of a record that such a clause states; `refused:`,
the mutants; and `not proved:`. A name of another crate has the crate before it, as in cs_tree/covers. The list of clauses,
definitions and files is made from src and specs/.

--check fails if a promise names a function, a clause, a field or a mutant that is not there, or has neither a mutant nor says why,
if a text that a mutant changes does not occur once, and if docs/PROMISES.md names a clause that no promise has. Before, it tries each of these tests on a wrong promise."""
import re
import sys
from collections import defaultdict
from pathlib import Path

sys.dont_write_bytecode = True
from mutants import Mutant, is_judged, mutants, with_mutants
from trusted import imports, reached, words

top = Path(__file__).resolve().parent.parent
crates = top / "crates"
FIELD = re.compile(r"^(by|refused|not proved): ?", re.M)
START = re.compile(r'^( *)(?:pub(?:\(\w+\))? )?(?:const )?(?:unsafe )?(?:extern "C" )?fn (\w+)', re.M)
OWNER = re.compile(r"^(?:pub )?(?:impl|trait)\b(?:<[^>]*>)? ?(?:.* for )?(\w+)", re.M)
CLAUSE = re.compile(r"^\s+(?:ensures|requires) (?:(\w+) )?\{.*?(?=^\s+(?:ensures|requires)\b|\Z)", re.M | re.S)


class Function:
    """A function of the code: its file, its line, and the text of each clause of its contract."""

    def __init__(self, path, text, found):
        rest = text[found.start() :]
        owners = OWNER.findall(text[: found.start()]) if found[1] else []
        self.path, self.name, self.owner = path, found[2], owners[-1] if owners else ""
        self.line = text[: found.start()].count("\n") + 1
        ends = re.search(r"^ *\{\}?\n|;\n", rest, re.M)
        self.contract = rest[: ends.start() if ends else 0]
        self.clauses = {name or "": it.rstrip() for it, name in ((it[0], it[1]) for it in CLAUSE.finditer(self.contract))}


def functions():
    """The functions of each crate, by their names."""
    found = defaultdict(lambda: defaultdict(list))
    for path in sorted(crates.glob("*/src/**/*.rt")):
        text = path.read_text()
        for it in START.finditer(text):
            function = Function(path, text, it)
            found[path.relative_to(crates).parts[0]][function.name].append(function)
    return found


code = functions()
edits = {it.name: {found.name: found for found in mutants(it)} for it in with_mutants(crates)}
fields = defaultdict(set)
for file in crates.glob("*/specs/**/*.antt"):
    record = ""
    for line in file.read_text().splitlines():
        begins = re.match(r"(?:\w+ )*?(?:record|data|abbrev)\b(?: pub| mutual)* (\w+)", line)
        record = begins[1] if begins else record if line.startswith((" ", "-")) or not line else ""
        if record:
            fields[record] |= {*re.findall(r"^\s+(?:pub )?([\w-]+) :", line)}


class Promise:
    def __init__(self, crate, text):
        self.crate, self.errors = crate, []
        self.says, *rest = FIELD.split(text)
        parts = {name: " ".join(it.split()) for name, it in zip(rest[::2], rest[1::2])}
        self.not_proved = parts.get("not proved", "")
        self.clauses = [it for group in parts.get("by", "").split(";") for it in self.group(group.strip())]
        self.refused = [self.mutant(it) for it in parts.get("refused", "").split(", ") if it]
        if not self.clauses and "by" not in parts:
            self.errors.append("no clause")
        if not self.refused and not re.search(r"[Nn]o (?:mutant|body)|no_mutant|Worked examples", text):
            self.errors.append("no mutant, and no reason")

    def group(self, group):
        """The clauses of some functions, each with its function; a field of a record has no clause."""
        if group.startswith("("):
            return
        names, clauses = re.fullmatch(r"(.*?)(?:(?<!:):(?!:) ?(.*))?", group).groups()
        wanted = clauses.split(", ") if clauses else []
        crate, owner, found = self.crate, "", []
        for name in names.split(", "):
            before, _, name = name.rpartition("/")
            crate = before or crate
            before, _, name = name.rpartition("::")
            owner = before or owner
            named = [it for it in code[crate][name] if not before or before == "laws" or it.owner == before]
            if not named:
                self.errors.append(f"no function {crate}/{owner}::{name}")
            found += named
        for clause in wanted:
            record, _, field = clause.rpartition(".")
            having = [it for it in found if clause in it.clauses]
            if record and field not in fields[record]:
                self.errors.append(f"{record} has no field {field}")
            elif not record and not having:
                self.errors.append(f"{group}: no clause {clause}")
            yield from ((it, clause) for it in having)
        yield from ((it, clause) for it in found for clause in it.clauses if not any(name in it.clauses for name in wanted))

    def mutant(self, name):
        crate, _, name = name.rpartition("/")
        crate = crate or self.crate
        if name not in edits[crate] and not any(it.stem == name for it in (crates / crate).glob("m*/*.[em]*")):
            self.errors.append(f"no mutant {name} in {crate}")
        return crate, name

    def definitions(self):
        """The files that the clauses cite."""
        found = set()
        for function, clause in self.clauses:
            found |= {*imports(function.path.read_text(), words(function.clauses[clause]))}
        return sorted(f"{it.relative_to(crates).parts[0]}/{it.stem}" for it in found)


def promises(crate, text):
    return [Promise(crate, it) for it in re.split(r"\n\n+", text.strip())]


def stale(crate, text):
    return [f"{crate}: {it.says.split('.')[0][:70]}: {error}" for it in promises(crate, text) for error in it.errors]


def unfit(crate, mutant):
    """The texts of a mutant that do not occur once in their file, where each is looked for after the changes before it."""
    files = {path: (crates / crate / path).read_text() for path, _old, _new in mutant.changes}
    for path, old, new in mutant.changes:
        if files[path].count(old) != 1:
            yield f"{crate}: {mutant.name}: {files[path].count(old)} times in {path}: {old}"
        files[path] = files[path].replace(old, new)


def unnamed(page, listed):
    """The clauses that the page names and no promise has: each `function`: `clause`."""
    named = {(it.name, clause) for promise in listed for it, clause in promise.clauses}
    pairs = re.findall(r"`(?:\w+::)?(\w+)`: `([a-z]\w*)`", page)
    return [f"docs/PROMISES.md: no promise has the clause {clause} of {name}" for name, clause in pairs if (name, clause) not in named]


def listing(all_promises):
    """The list, in Markdown."""
    yield "# Promises, clause by clause\n\nMade by scripts/promises.py from promises.txt, must-fail/, mutants/, src and specs/ of each crate.\n"
    for crate, listed in all_promises.items():
        yield f"\n## {crate}\n"
        for it in listed:
            yield f"\n### {' '.join(it.says.split())}\n"
            for function in dict.fromkeys(function for function, _ in it.clauses):
                owner = f"{function.owner}::" if function.owner else ""
                yield f"\n`{owner}{function.name}`, {function.path.relative_to(top)}:{function.line}\n\n```rust\n"
                yield from (function.clauses[clause] + "\n" for owner, clause in it.clauses if owner is function)
                yield "```\n"
            defined = ", ".join(it.definitions())
            yield f"\nDefined in: {defined}.\n" if defined else ""
            names = [f"`{name}`" + ("" if other == crate else f" of {other}") for other, name in it.refused]
            yield f"\nRefused: {', '.join(names)}.\n" if names else ""
            yield f"\nNot proved: {it.not_proved}\n" if it.not_proved else ""
    yield "\n## Mutants that are not known to be judged on the present contract\n"
    for crate, found in sorted(edits.items()):
        left = [name for name, it in found.items() if not is_judged(crates / crate, it)]
        yield f"\n{crate}: {len(found)} mutants, {len(left)} not judged{': ' if left else ''}{', '.join(left)}\n"


def main():
    texts = {it.parent.name: it.read_text() for it in sorted(crates.glob("*/promises.txt"))}
    for wrong in [
        "It is so.\nby: covers_nothing\nrefused: covers_by_text_prefix",
        "It is so.\nby: covers: lost\nrefused: covers_by_text_prefix",
        "It is so.\nby: covers\nrefused: covers_by_no_prefix",
        "It is so.\nby: covers",
    ]:
        if not stale("cs_tree", wrong):
            sys.exit(f"promises.py: not found: {wrong}")
    if not [*unfit("cs_tree", Mutant(crates / "cs_tree", "none", "file: src/paths.rt\nold: no such text\nnew: none"))]:
        sys.exit("promises.py: not found: a text that is not there")
    listed = {crate: promises(crate, text) for crate, text in texts.items()}
    found = [error for crate, text in texts.items() for error in stale(crate, text)]
    found += [it for crate, some in edits.items() for mutant in some.values() for it in unfit(crate, mutant)]
    found += unnamed((top / "docs/PROMISES.md").read_text(), [it for some in listed.values() for it in some])
    if "--check" in sys.argv:
        print(*found, sep="\n", end="\n" if found else "")
        return bool(found)
    out = top / "out/promises.md"
    out.parent.mkdir(exist_ok=True)
    out.write_text("".join(listing(listed)))
    left = sum(not is_judged(crates / crate, it) for crate, some in edits.items() for it in some.values())
    total = sum(map(len, edits.values()))
    print(f"{out}: {sum(map(len, listed.values()))} promises, {total} mutants, {left} of them not known to be judged on the present contract")
    return 0


if __name__ == "__main__":
    sys.exit(main())
