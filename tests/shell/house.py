#!/usr/bin/env python3
"""Fails if a comment of the code is wider than 100 columns, or a line of a contract than 110, where a definition is missing; if two
types have one name in crates one of which uses the other; or if two definitions of a crate have one name. Before, it tries each of these tests on a wrong text.
usage: tests/shell/house.py [FOLDER]"""
import re
import sys
from itertools import combinations
from pathlib import Path

top = Path(sys.argv[1] if sys.argv[1:] else Path(__file__).parent.parent.parent).resolve()
COMMENT, CLAUSE = 100, 110
TYPE = re.compile(r"^\s*(?:pub(?:\(\w+\))? )?(?:struct|enum|trait|union) (\w+)", re.M)
DEFINITION = re.compile(r"^(?:(?:abbrev|unfoldable|pub|record|data) )+([\w']+)[^\n]* : ", re.M)


def wide(path, text):
    """The lines of a file of code that are too wide. Code itself has the width of the formatter."""
    for number, line in enumerate(text.split("\n"), 1):
        stripped = line.lstrip()
        if stripped.startswith("//"):
            if len(line) > COMMENT:
                yield f"{path}:{number}: a comment of {len(line)} columns"
        elif len(line) > CLAUSE and not re.match(r'(ghost )?use |#!?\[|b?"', stripped):
            yield f"{path}:{number}: a line of {len(line)} columns"


def uses(text):
    """The crates of crates.txt, each with all that it uses, directly or not."""
    direct = {line.split(":")[0].split()[0]: line.partition(":")[2].split() for line in text.splitlines() if ":" in line}

    def below(name, seen):
        for lower in direct.get(name, []):
            if lower not in seen:
                seen.add(lower)
                below(lower, seen)
        return seen

    return {name: below(name, set()) for name in direct}


def homonyms(crates, below):
    """The names that two types have, of one crate or of two that meet. `crates` has the declared types of each crate."""
    for one, two in combinations(sorted(crates), 2):
        if one in below.get(two, ()) or two in below.get(one, ()):
            for name in sorted({*crates[one]} & {*crates[two]}):
                yield f"{name}: a type of {one} and of {two}"
    for crate, names in crates.items():
        for name in sorted({it for it in names if names.count(it) > 1}):
            yield f"{name}: two types of {crate}"


def repeated(crate, files):
    """The names that two files of `specs/` of a crate define."""
    places = {}
    for path, text in files.items():
        for name in {*DEFINITION.findall(text)}:
            places.setdefault(name, []).append(path)
    for name, found in sorted(places.items()):
        if len(found) > 1:
            yield f"{name}: defined by {crate} in {' and '.join(sorted(found))}"


assert [*wide("a.rt", "// " + "x" * 98)] and [*wide("a.rt", "    ensures { " + "x" * 97 + " }")]
assert [*homonyms({"a": ["T"], "b": ["T"]}, {"a": {"b"}})] and [*homonyms({"a": ["T", "T"]}, {})]
assert not [*homonyms({"a": ["T"], "b": ["T"]}, {"a": set()})]
assert [*repeated("a", {"P": "abbrev pub f : N\n", "Q": "pub record f (n : N) : Type 0 where\n"})]

found, types = [], {}
for path in sorted((top / "tests/libraries").glob("**/*.rs")):
    found += wide(path.relative_to(top), path.read_text())
for crate in sorted(it for it in (top / "crates").iterdir() if (it / "src").is_dir()):
    for path in sorted(crate.glob("src/**/*.rt")):
        found += wide(path.relative_to(top), path.read_text())
    if not re.search(r"_tests$|_fakes$", crate.name):
        types[crate.name] = [name for path in crate.glob("src/**/*.rt") for name in TYPE.findall(path.read_text())]
        found += repeated(crate.name, {path.stem: path.read_text() for path in crate.glob("specs/**/*.antt")})
found += homonyms(types, uses((top / "crates.txt").read_text()))
print(*found, sep="\n") if found else None
sys.exit(bool(found))
