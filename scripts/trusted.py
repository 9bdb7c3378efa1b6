#!/usr/bin/env python3
"""Lists what one has to read to believe the tools: for the contract of each, the files of specs/ that its clauses reach by
imports, and those that the contracts of traits reach whose ghosts the clauses name (`T.snapshot` is a ghost of `Tree`). Files are
counted by lines, and by lines of definitions (without blanks, comments and imports).
usage: scripts/trusted.py [-q] [--check]
-q omits the files, which are otherwise listed from the clauses down; --check fails if a tool is above its limit."""
import re
import sys
from pathlib import Path

crates = Path(__file__).resolve().parent.parent / "crates"
IMPORT = re.compile(r"^\s*(?:pub )?(?:ghost )?use Rattle\.(cs_\w+|codesearch)\.specs\.([A-Za-z_.]+?)(?:\.\{([^}]*)\}| as (\S+?))?;?$", re.M)

# the clauses of csearch_stored except `selective`, which says how few files its query selects
STORED = "searches unopened silent unread tree outputs store".split()

# the function, its file, the clauses that count besides its requirements (none: all), and the maximum number of lines
# of definitions
CONTRACTS = [
    ("cindex", "cs_cindex/src/job.rt", ["indexes"], 518),
    ("cgrep", "cs_search/src/searching.rt", [], 812),
    ("csearch_stored", "cs_search/src/stored.rt", STORED, 1320),
    ("cindex_stored", "cs_cindex/src/job.rt", [], 1250),
    ("run", "codesearch/src/running.rt", [], 2435),
    ("execute", "codesearch/src/execution.rt", [], 2570),
    ("run_project", "cs_project/src/answer.rt", [], 3500),
]

# the files of the traits
TRAITS = {
    "Tree": "cs_tree/src/tree.rt",
    "Look": "cs_tree/src/tree.rt",
    "Source": "cs_tree/src/sink.rt",
    "Sink": "cs_tree/src/sink.rt",
    "Store": "cs_tree/src/store.rt",
    "Output": "cs_tree/src/output.rt",
    "IndexFolder": "cs_storage/src/folder.rt",
}


def spec(crate, module):
    """The file of a module of definitions; a module that is derived from types of the code has none."""
    file = crates / crate / "specs" / (module.replace(".", "/") + ".antt")
    return file if file.exists() else None


def clauses(source, name, wanted):
    """The text of the clauses of a function, and the trait of each of its type parameters."""
    contract = re.search(r"pub(?:\(crate\))? fn " + name + r"\b.*?\n\{\n", source, re.S).group(0)
    parts = re.findall(r"\n\s+(ensures|requires) (\w*) ?\{(.*?)(?=\n\s+ensures|\n\s+requires|\n\{)", contract, re.S)
    bounds = dict(re.findall(r"(\w+): (\w+)", contract[: contract.index("(", contract.index(" fn "))]))
    return " ".join(text for kind, clause, text in parts if kind == "requires" or not wanted or clause in wanted), bounds


def promises(source, trait):
    """The text of the ghosts and the clauses of a trait."""
    body = re.search(r"pub trait " + trait + r"\b.*?\n\}\n", source, re.S).group(0)
    return " ".join(re.findall(r"^ +(?:ghost|ensures)\b(.*?)(?=;$|^ +ensures)", body, re.S | re.M))


def words(text):
    return set(re.findall(r"[^\s(){}.,;∷]+", text))


def imports(text, words=None):
    """The files that the text imports; with `words` only those imports that have one of them."""
    for crate, module, items, alias in IMPORT.findall(text):
        names = [item.split(" as ")[-1].strip() for item in items.split(",")] if items else [alias or module.split(".")[-1]]
        if words is not None:
            names = [name for name in names if name in words]
        file = names and spec(crate, module)
        if file and module == "Cited":
            yield from imports(file.read_text(), names)
        elif file:
            yield file


def cited(name, path, wanted):
    """The files that the clauses of a function cite, and those of the traits whose ghosts they name."""
    source = (crates / path).read_text()
    text, bounds = clauses(source, name, wanted)
    yield from imports(source, words(text))
    for parameter, trait in bounds.items():
        if trait in TRAITS and re.search(r"\b" + parameter + r"\.\w", text):
            source = (crates / TRAITS[trait]).read_text()
            yield from imports(source, words(promises(source, trait)))


def reached(files):
    """The files, and everything that they import, nearest first."""
    seen = dict.fromkeys(files)
    pending = list(seen)
    for file in pending:
        new = [it for it in imports(file.read_text()) if it not in seen]
        seen.update(dict.fromkeys(new))
        pending.extend(dict.fromkeys(new))
    return list(seen)


def definitions(text):
    lines = [line.strip() for line in text.splitlines()]
    return sum(1 for line in lines if line and not line.startswith(("--", "use ", "pub use ")))


def main():
    above = 0
    for name, path, wanted, most in CONTRACTS:
        counts = []
        for file in reached(cited(name, path, wanted)):
            text = file.read_text()
            counts.append((definitions(text), len(text.splitlines()), str(file.relative_to(crates))))
        total = sum(count for count, _, _ in counts)
        limit = f" ({'ABOVE its limit' if total > most else 'limit'} {most})" if most else ""
        print(f"{name}: {len(counts)} files, {sum(lines for _, lines, _ in counts)} lines, {total} of definitions{limit}")
        above += bool(most and total > most)
        if "-q" not in sys.argv:
            for count, lines, file in counts:
                print(f"  {lines:5} {count:5}  {file}")
    return "--check" in sys.argv and above != 0


if __name__ == "__main__":
    sys.exit(main())
