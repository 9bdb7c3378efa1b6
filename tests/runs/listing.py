#!/usr/bin/env python3
"""compares the files that `cs --files -0` lists with those that git lists, in random projects
usage: tests/runs/listing.py PROGRAM [PROJECTS [SEED]]"""
import os
import running
import subprocess
import sys

NAMES = ["a", "b", "ab", "a.b", ".c", "b.log", "x y", "é", "[a]", "#a", "!b", "a*", "A", "doc", "foo"]
SETTINGS = {"GIT_CONFIG_GLOBAL": "/dev/null", "GIT_CONFIG_NOSYSTEM": "1", "HOME": "/nonexistent", "LC_ALL": "C"}


# parts of a class, some of which make it match nothing, or end it
CLASS_PARTS = ["a", "b", "-", "]", "[", ":", "!", "^", "\\]", "\\a", "\\-", "a-b", "A-Z", "a-\\z", "[:", ":]", "[:alpha:]"]
CLASS_PARTS += ["[:digit:]", "[:upper:]", "[:Alpha:]", "[:a[:digit:]", "[:]", "[::]", "[.a.]", "[=a=]", "[:alpha]", "\\"]


def some_class(dice):
    """a class, which may not end"""
    parts = [dice.choice(CLASS_PARTS) for _ in range(dice.randint(1, 4))]
    return "[" + dice.choice(["", "", "!", "^"]) + "".join(parts) + dice.choice(["]", "]", "]", ""])


def rule(dice):
    """a line of a rule file, as in gitignore(5)"""
    kind = dice.random()
    if kind < 0.05:
        return dice.choice(["", "#a", "\\#a", "!", "/", "**", "*", "a ", "a\\ ", "\\!b", "a\r", "\\"])
    names = []
    for _ in range(dice.choice([1, 1, 1, 2, 2, 3])):
        name = dice.choice(NAMES)
        change = dice.random()
        if change < 0.15:
            name = "*"
        elif change < 0.25:
            name = "**"
        elif change < 0.4:
            name = "*" + name[-1:]
        elif change < 0.5:
            name = name[:1] + "*"
        elif change < 0.6:
            name = "?" + name[1:]
        elif change < 0.65:
            name = "[" + dice.choice(["a-b", "!a", "^b", "a", "A-Z", "[:alpha:]", "!-", "]a"]) + "]" + name[1:]
        elif change < 0.75:
            name = some_class(dice) + name[1:]
        elif change < 0.8:
            name = name[:1] + some_class(dice)
        names.append(name)
    line = "/".join(names)
    if dice.random() < 0.25:
        line = "/" + line
    if dice.random() < 0.2:
        line += "/"
    if dice.random() < 0.3:
        line = "!" + line
    return line


def rules(dice):
    """the bytes of a rule file"""
    lines = [rule(dice) for _ in range(dice.randint(0, 5))]
    text = "\n".join(lines) + dice.choice(["", "\n", "\n"])
    return dice.choice(["", "", "", "\ufeff"]) + text


def fill(dice, folder, depth):
    """makes files and folders, and a rule file in some of them"""
    for name in dice.sample(NAMES, dice.randint(1, 6)):
        path = os.path.join(folder, name)
        if depth and dice.random() < 0.4:
            os.mkdir(path)
            fill(dice, path, depth - 1)
        else:
            with open(path, "w", encoding="utf-8") as out:
                out.write("x\n")
    if dice.random() < 0.5:
        with open(os.path.join(folder, ".gitignore"), "w", encoding="utf-8", newline="") as out:
            out.write(rules(dice))


def listed(words, folder):
    """the names that a command prints, with a NUL after each"""
    ran = subprocess.run(words, cwd=folder, capture_output=True, env={**os.environ, **SETTINGS}, check=False)
    return sorted(it for it in ran.stdout.split(b"\0") if it), ran.stderr


def compare(program, dice, folder):
    """whether both list the same, below the root and below a folder"""
    subprocess.run(["git", "init", "-q", folder], check=True, env={**os.environ, **SETTINGS})
    fill(dice, folder, 3)
    if dice.random() < 0.3:
        os.makedirs(os.path.join(folder, ".git/info"), exist_ok=True)
        with open(os.path.join(folder, ".git/info/exclude"), "w", encoding="utf-8", newline="") as out:
            out.write(rules(dice))
    below = [path for path, _, _ in os.walk(folder) if "/.git" not in path]
    for start in {folder, dice.choice(below)}:
        wanted, _ = listed(["git", "ls-files", "-z", "--others", "--exclude-standard"], start)
        came, errors = listed([program, "cs", "--files", "-0"], start)
        # a folder that a search starts in is searched, though a rule leaves it out
        if start != folder and not wanted:
            continue
        if came != wanted or errors:
            print(f"{start}: missing {set(wanted) - set(came)}, more {set(came) - set(wanted)} {errors.decode()}")
            return False
    return True


sys.exit(not running.try_projects("git", compare))
