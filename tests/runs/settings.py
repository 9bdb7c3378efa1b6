#!/usr/bin/env python3
"""compares the files that `cs --files -0` lists with those that git lists, with random settings of a user
usage: tests/runs/settings.py PROGRAM [PROJECTS [SEED]]"""
import os
import running
import subprocess
import sys

RULES = ["r1", "r 2", "r\t3", 'r"4', "r#5", "r\\6", "sub/r7", "r8 "]
FILES = ["in1", "in2", "sub/in3", "sub/in4"]
HEADS = ["[core]", "[Core]", "[ core ]", '[core "x"]', "[user]", "[core]\t", "[core] ; x", "[core.x]", '[x "a\\"b]"]', "[x-1.y]"]
WORDS = ["name = x", "other", "a-1 =", "a = \\t\\n\\b\\\\\\\"", 'b = "x # y" # z', "# x", "; [core]", "", " \t", "c = x \\\n y"]
BAD = ["1 = x", "[core", "a = \\x", 'b = "x', "c d = 1", "[]", "[x\n]", "e = \"x\ny\"", '[x "y" ]', "é = 1", "[x]\x0b"]


def environment(home, more):
    """the variables of both programs"""
    kept = {name: value for name, value in os.environ.items() if not name.startswith(("GIT_", "XDG_"))}
    return {**kept, "GIT_CONFIG_NOSYSTEM": "1", "HOME": home, "LC_ALL": "C", **more}


def value(dice, path):
    """a path as a value"""
    text = ""
    quoted = False
    for byte in path:
        if dice.random() < 0.05:
            text += dice.choice(["\\\n", "\\\r\n", '""'])
        if dice.random() < 0.08 and not quoted or byte in " #;" and not quoted:
            text, quoted = text + '"', True
        elif dice.random() < 0.1 and quoted and byte not in " #;":
            text, quoted = text + '"', False
        text += {"\t": "\\t", '"': '\\"', "\\": "\\\\", "\n": "\\n"}.get(byte, byte)
    text += '"' if quoted else ""
    return dice.choice(["", "", " ", "\t", " \\\n "]) + text + dice.choice(["", "", "", " ", "\t ", " # x", ";x", '""'])


def named(dice, home, folder, path):
    """the name of a file of the home folder, in a file of settings in a folder"""
    kind = dice.random()
    if kind < 0.4:
        return "~/" + path
    if kind < 0.7:
        return os.path.join(home, path)
    return os.path.relpath(os.path.join(home, path), folder)


def condition(dice, home, project):
    """a condition of an include"""
    below = os.path.relpath(project, home)
    pattern = dice.choice([
        project, project + "/", project + "/.git", project + "/.git/", "~/" + below + "/", "~/" + below.split("/")[0] + "/",
        os.path.basename(project) + "/.git", os.path.basename(project) + "/", below.split("/")[0] + "/", "./" + below + "/",
        "./", "~/", "/", "*", "**", "**/.git", "/**/.git", "x/", "~/x/", project.upper() + "/", project[:-1] + "?/", ".git", ".GIT",
        project + "/*", "~/*/", "~/**/.git", "[a-z]/.git", "~", "", "../", "./*/.git",
    ])
    kind = dice.choice(["gitdir:", "gitdir:", "gitdir:", "gitdir/i:", "GitDir:", "onbranch:", ""])
    if kind == "onbranch:":
        return "onbranch:none"
    return kind + pattern.replace("\\", "\\\\").replace('"', '\\"')


def settings(dice, home, project, path):
    """the bytes of a file of settings at a path below the home folder"""
    folder = os.path.dirname(os.path.join(home, path))
    lines = []
    for _ in range(dice.randint(0, 6)):
        kind = dice.random()
        if kind < 0.4:
            key = dice.choice(["excludesFile", "excludesfile", "EXCLUDESFILE", "excludes-file", "excludesFile\t"])
            head = dice.choice(["[core]", "[core]\n", "[Core]\n\t", "[core]\n", dice.choice(HEADS) + "\n"])
            rules = named(dice, home, home, dice.choice(RULES)) if dice.random() < 0.7 else dice.choice(["", os.path.join(home, "none"), "~x/r1"])
            if not rules.startswith(("/", "~/")):
                rules = "~/" + dice.choice(RULES)
            lines.append(head + key + dice.choice([" = ", "=", " ="]) + value(dice, rules))
        elif kind < 0.7:
            head = dice.choice(["[include]", "[Include]", '[include "x"]', '[includeIf "%s"]' % condition(dice, home, project)])
            if head.startswith("[includeIf") or dice.random() < 0.4:
                head = '[includeIf "%s"]' % condition(dice, home, project)
            file = dice.choice(FILES + ["none"])
            lines.append(head + dice.choice(["", "\n", "\n\t"]) + dice.choice(["path", "PATH"]) + " = " + value(dice, named(dice, home, folder, file)))
        elif kind < 0.97:
            lines.append(dice.choice(HEADS + WORDS + WORDS) if kind < 0.9 else "[x]\n" + dice.choice(WORDS))
        else:
            lines.append(dice.choice(BAD))
    end = dice.choice(["\n", "\n", "\n", "\r\n"])
    text = "\n".join(lines).replace("\n", end) + dice.choice(["", end, "\\"] if dice.random() < 0.1 else ["", end])
    return dice.choice(["", "", "", "\ufeff"]) + text


def put(path, text):
    os.makedirs(os.path.dirname(path), exist_ok=True)
    with open(path, "w", encoding="utf-8", newline="") as out:
        out.write(text)


def listed(words, folder, variables):
    """the names that a command prints, with a NUL after each; its status, and its errors"""
    ran = subprocess.run(words, cwd=folder, capture_output=True, env=variables, check=False)
    return sorted(it for it in ran.stdout.split(b"\0") if it), ran.returncode, ran.stderr


def compare(program, dice, folder):
    """whether both list the same; where git refuses the settings, an error is printed"""
    home = os.path.realpath(folder)
    project = os.path.join(home, dice.choice(["p", "work/p", "work/a/p", "w[x]/p"]))
    os.makedirs(project)
    subprocess.run(["git", "init", "-q", project], check=True, env=environment("/nonexistent", {}))
    for number in range(12):
        put(os.path.join(project, f"f{number}"), "x\n")
    for number, name in enumerate(RULES):
        put(os.path.join(home, name), f"f{number}\n")
    more = {}
    config = os.path.join(home, ".config")
    if dice.random() < 0.2:
        config = more["XDG_CONFIG_HOME"] = os.path.join(home, "settings")
    if dice.random() < 0.4:
        put(os.path.join(config, "git/ignore"), "f11\n")
    if dice.random() < 0.15:
        more["GIT_CONFIG_GLOBAL"] = dice.choice(["", os.path.join(home, "in1"), os.path.join(home, "none")])
    files = FILES + [".gitconfig"] + ([os.path.relpath(config, home) + "/git/config"] if dice.random() < 0.3 else [])
    for file in files:
        put(os.path.join(home, file), settings(dice, home, project, file))
    variables = environment(home, more)
    wanted, refused, why = listed(["git", "ls-files", "-z", "--others", "--exclude-standard"], project, variables)
    came, status, errors = listed([program, "cs", "--files", "-0"], project, variables)
    if refused:
        right = bool(errors)
    else:
        right = came == wanted and not errors
    if not right:
        print(f"{home} {more}: missing {set(wanted) - set(came)}, more {set(came) - set(wanted)} {status} {errors.decode()} {why.decode()}")
        for file in files:
            print(file, repr(open(os.path.join(home, file), encoding="utf-8", newline="").read()))
    return right


sys.exit(not running.try_projects("git", compare))
