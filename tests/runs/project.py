#!/usr/bin/env python3
"""compares what `codesearch cs` prints with what rg prints: random texts, patterns and options, in small projects
usage: tests/runs/project.py PROGRAM [SEARCHES [SEED]]"""
import os
import running
import subprocess
import sys

PATTERNS = ["ab", "a", "b+", "[ab]c", "^a", "b$", "^$", "a.c", "c[ab]*c", "(ab)+", "x", "[^a]b", "aa?b", r"\bab", r"ab\b", "", "A", "aB"]
EMPTY = ["", "^$"]
WORDS = ["ab", "a", "abc", "b"]
RG = ["rg", "--no-config", "--no-messages", "--sort", "path", "-E", "none", "--color", "never"]


def lines(dice):
    """the bytes of a text"""
    made = []
    for _ in range(dice.choice([0, 1, 2, 5, 9, 30])):
        made.append("".join(dice.choice("aabbc A B_-→") for _ in range(dice.choice([0, 1, 3, 8]))))
    text = "\n".join(made).encode() + dice.choice([b"\n", b"\n", b""])
    return text.replace(b"c", b"\xff") if dice.random() < 0.05 else text


def fill(dice, folder):
    """makes the files of a project; returns whether no file has a byte that is not UTF-8"""
    all_text = True
    for part in ["objects", "refs"]:
        os.makedirs(f"{folder}/.git/{part}")
    with open(f"{folder}/.git/HEAD", "w", encoding="utf-8") as out:
        out.write("ref: refs/heads/main\n")
    for name in dice.sample(["f", "g.c", "sub/h", "sub/deep/i.py", "t/j", ".k", "a b", "x", "é"], dice.randint(1, 7)):
        path = f"{folder}/{name}"
        os.makedirs(os.path.dirname(path), exist_ok=True)
        text = lines(dice)
        all_text = all_text and b"\xff" not in text
        with open(path, "wb") as out:
            out.write(text)
    return all_text


def options(dice, all_text):
    """options of a search, and its pattern; rg finds other words beside a byte that is not UTF-8"""
    words = []
    mode = dice.choice(["", "", "", "", "-c", "-l", "--files-without-match"])
    if mode:
        words.append(mode)
    whole = all_text and dice.random() < 0.1
    pattern = dice.choice(WORDS if whole else PATTERNS)
    if whole:
        words.append("-w")
    for option, chance in [("-n", 0.4), ("-i", 0.15), ("-S", 0.1), ("-x", 0.05), ("-v", 0.1), ("-H", 0.1), ("--null", 0.1), ("-a", 0.1), ("-F", 0.05)]:
        if dice.random() < chance and not (whole and option in ("-x", "-F", "-v")):
            words.append(option)
    if not mode and "-v" not in words and pattern not in EMPTY:
        # The longest match is the first one for all patterns here. Of an empty one rg prints a line, grep and cs none.
        words += [it for it in ["-o", "--column", "--vimgrep"] if dice.random() < 0.12]
    if not mode and "-o" not in words and dice.random() < 0.3:
        for option in dice.choice([["-A"], ["-B"], ["-C"], ["-A", "-B"]]):
            words += [option, str(dice.randint(0, 3))]
    if not mode:
        words.append(dice.choice(["--no-heading", "--no-heading", "--heading"]))
    if dice.random() < 0.15 and not {"-A", "-C"} & {*words}:
        words += ["-m", str(dice.randint(1, 3))]
    words += ["-e", pattern]
    if dice.random() < 0.1 and not whole and not {"-o", "--column", "--vimgrep"} & {*words}:
        words += ["-e", dice.choice(WORDS)]
    return words


def ran(words, folder):
    """the status of a command and what it prints"""
    came = subprocess.run(words, cwd=folder, stdin=subprocess.DEVNULL, stdout=subprocess.PIPE, stderr=subprocess.PIPE, check=False)
    return came.returncode, came.stdout, came.stderr


def agree(program, dice, folder):
    """whether both print the same for some searches of a project"""
    all_text = fill(dice, folder)
    for _ in range(20):
        words = options(dice, all_text)
        places = dice.choice([[], [], ["."], ["sub"], ["f"], ["f", "sub"]])
        places = [it for it in places if os.path.exists(f"{folder}/{it}")]
        wanted = ran([*RG, "--hidden", "-g", "!.git", *words, *places], folder)
        own = [it for it in words if it != "--no-heading"]
        came = ran([program, "cs", *own, *places], folder)
        # the status of rg says whether a name is printed, that of cs whether a line matches
        if came[1] != wanted[1] or came[0] != wanted[0] and "--files-without-match" not in words:
            print(f"cs {own} {places} in {folder}:\n  rg {wanted[:2]}\n  cs {came}")
            return False
    return True


sys.exit(not running.try_projects("rg", agree, 20))
