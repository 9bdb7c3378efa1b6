#!/usr/bin/env python3
"""Fails if a page names what is not there: a file, a name of the code, a heading of a page, which comments of the code cite too, or
a number of lines that scripts/trusted.py does not print. Before, it tries each of these tests on a wrong line. It fails too if the
pages have too many words. What PROMISES.md says of clauses and mutants is tested by scripts/promises.py.
usage: tests/shell/docs.py [FOLDER]"""
import re
import subprocess
import sys
from pathlib import Path

top = Path(sys.argv[1] if sys.argv[1:] else Path(__file__).parent.parent.parent).resolve()
PROMISES = "docs/PROMISES.md"
# All pages together, except the changelog, which only grows, have at most so many words.
MOST = 25_600
# Names of other programs, and those that a change would add.
OTHERS = {"BufWriter", "root_squash", "start_lib", "skips_lines_under_v", "queries_under_v", "FilesystemLoop"}
LIST = "git ls-files 2> /dev/null || find * -type f -not -path '*/out/*'"
FILE = re.compile(r"[\w./+-]+\.(?:rt|antt|md|sh|py|awk|edit|txt|tsv|svg|pl|[1-9ch]|rs)")
CITED = re.compile(r'\b(README|[A-Z]+\.md)[`)]?(?:\([\w/.]+\))?, ((?:"[^"]+"(?:,? and |, )?)+)')


def run(*command):
    return subprocess.run(command, cwd=top, stdout=subprocess.PIPE, text=True, check=True).stdout


def read(path):
    """The text of a file; nothing of this one, which has wrong lines, and of a program."""
    return "" if path.endswith("/docs.py") or path.startswith("proved/") else (top / path).read_text(errors="ignore")


files = {path: read(path) for path in run("sh", "-c", LIST).split("\n") if path and (top / path).exists()}
pages = [path for path in files if path.endswith(".md") and not path.startswith("crates/")]
folded = {path.rpartition("/")[2]: path for path in pages}
edits = {path: text for path, text in files.items() if re.search("/(must-fail|mutants)/", path)}
mutants = {name for path, text in edits.items() for name in [Path(path).stem, *re.findall(r"^# (\w+)$", text, re.M)]}
mutants |= {path.split("/")[1] for path in files if path.startswith("crates/")}
words = {word for path, text in files.items() if path not in pages for word in re.findall(r"\w+", text)}
words |= OTHERS | mutants
trusted = re.findall(r"^(\w+): .*, (\d+) of definitions", run(sys.executable, "-B", "scripts/trusted.py", "-q"), re.M)


def stale(path, text):
    """What a file names that is not there."""
    # (a citation may go on in the next line of a comment)
    for page, cited in CITED.findall(re.sub(r"\n[ \t]*(?://[/!]?|--|#)?[ \t]*", " ", text)):
        page = folded.get(page.removesuffix(".md") + ".md", page)
        heads = re.findall(r"^#+ (.*)$", files.get(page, ""), re.M)
        yield from (f'{page} has no heading "{head}"' for head in re.findall(r'"([^"]+?)[.,]?"', cited) if head not in heads)
    if path not in pages:
        return
    for link in re.findall(r"\]\(([^)#\s]+)", text):
        if "://" not in link and not (top / path).parent.joinpath(link).exists():
            yield f"no file {link}"
    for code in re.findall(r"`([^`\n]+)`", text):
        if FILE.fullmatch(code) and not code.startswith(("rattle/", "crates/NAME/")):
            if not any(f"/{file}".endswith(f"/{code}") for file in files):
                yield f"no file {code}"
        elif path != "docs/PERFORMANCE.md" and re.fullmatch(r"[\w:.]+", code):
            yield from (f"no name {name}" for name in re.findall(r"\w*[a-z](?:_|[A-Z])\w+", code) if name not in words)
    if path == PROMISES:
        for name, lines in trusted:
            said = re.findall(rf"(\d[\d,]*)(?:\s+lines\s+of\s+definitions)?\s+for\s+`{name}`", text)
            if said != [f"{int(lines):,}"]:
                yield f"{name} has {int(lines):,} lines of definitions, and not {' or '.join(said)}"


# A wrong line of each kind, in a page.
for path, line in [
    (PROMISES, "`loses_a_line_that_is_not_there`"),
    (PROMISES, "7 lines of definitions for `cgrep`"),
    ("README.md", "`crates/cs_tree/src/lost.rt`"),
    ("README.md", "[a page](docs/LOST.md)"),
    ("README.md", "`Matcher::is_nowhere`"),
    ("docs/FORMAT.md", '[PATTERNS.md](PATTERNS.md), "Weight" and "A heading that is not there"'),
    ("crates/cs_tree/src/lib.rt", '// docs/FORMAT.md,\n// "A heading that is not there".'),
]:
    if {*stale(path, files[path] + "\n\n" + line + "\n")} <= {*stale(path, files[path])}:
        sys.exit(f"docs.py: not found in {path}: {line}")

found = [f"{path}: {what}" for path, text in files.items() for what in stale(path, text)]
count = sum(len(files[path].split()) for path in pages if path != "CHANGELOG.md")
found += [f"the pages have {count:,} words, and not at most {MOST:,}"] if count > MOST else []
print(*found, sep="\n", end="\n" if found else "")
sys.exit(bool(found))
