#!/usr/bin/env -S python3 -B
"""Sets each byte of an index to each other value, and compares what the library says of these bytes with a reference reader of
docs/FORMAT.md, "The index as it is read".
usage: tests/runs/altered.py LIBRARY    LIBRARY is libcodesearch.so

Of each index the library has to give the first error, or its paths, its names, and the candidates of the trigrams that a pattern can
name. Merged with an index of another path, as the older and as the newer one, it gives an error if a list is damaged or a name is
below no path, else an index of both paths, and of its names with their trigrams."""
import ctypes
import sys

import running
from indexes import ONE_FILE, Fault, is_below, made, opened, trigrams
from library import BAD_LIST, CODES, UNCOVERED, candidates, entries, given, loaded, merged
from running import complain

# An index of a path that covers no name of an altered one.
OTHER = made([b"/zz"], [], b"\xff\xff\xff\0", [])


def is_joined(came, paths, names, sets):
    """Whether an index has these paths and the other one, and these names with their trigrams."""
    try:
        found = opened(came)
    except (Fault, TypeError):
        return False
    used = {trigram for each in sets.values() for trigram in each}
    return found[:2] == (sorted([*paths, b"/zz"]), names) and trigrams(*found[1:]) == (sets, set()) and {*found[2]} == used


def escaped(trigram):
    """A pattern that matches these ASCII bytes alone."""
    return b"".join(b"\\x%02x" % byte for byte in trigram)


def judge(library, what, data):
    """Compares all answers on these bytes, and returns the outcome."""
    code = library.cs_index_check(*given(data))
    try:
        paths, names, lists, bytes_of = opened(data)
    except Fault as fault:
        if code != CODES[str(fault)]:
            complain(f"{what}: wanted {fault}", code)
        return str(fault)
    if code:
        complain(f"{what}: it opens", code)
        return "open"
    sets, damaged = trigrams(names, lists, bytes_of)
    count = ctypes.c_uint32()
    library.cs_index_names(*given(data), ctypes.byref(count))
    came = entries(library.cs_index_path, data), entries(library.cs_index_name, data), count.value
    if came != (paths, names, len(names)):
        complain(f"{what}: wanted {paths}, {names}", came)
    for trigram in lists:
        want = BAD_LIST if trigram in damaged else [at for at, name in enumerate(names) if trigram in sets[name]]
        # (a pattern names ASCII bytes, and no newline of a line)
        if max(trigram) < 128 and b"\n" not in trigram and (came := candidates(library, escaped(trigram), data)) != want:
            complain(f"{what}: candidates of {trigram}: wanted {want}", came)
    is_covered = all(is_below(name, paths) for name in names)
    for order, (older, newer) in {"older": (data, OTHER), "newer": (OTHER, data)}.items():
        error = UNCOVERED if order == "newer" and not is_covered else BAD_LIST if damaged else None
        came = merged(library, older, newer)
        if came != error if error else not is_joined(came, paths, names, sets):
            complain(f"{what}: merged as the {order} one: wanted {error}", came)
    return "damaged" if damaged else "open" if is_covered else "uncovered"


def main():
    library = loaded("altered indexes")
    counts = {}
    for at in range(len(ONE_FILE)):
        for byte in range(256):
            outcome = judge(library, f"{byte} at {at}", ONE_FILE[:at] + bytes([byte]) + ONE_FILE[at + 1 :])
            counts[outcome] = counts.get(outcome, 0) + 1
    if "-v" in sys.argv:
        for outcome, count in sorted(counts.items()):
            print(f"{count:6} {outcome}")
    print(f"altered indexes: {sum(counts.values())} indexes, {running.wrong} wrong")
    return running.wrong != 0


sys.exit(main())
