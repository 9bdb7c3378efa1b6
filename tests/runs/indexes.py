"""A reference reader and writer of an index (docs/FORMAT.md), and what else the tests of indexes share."""

MAGIC = b"csearch index 1\n"
TRAILER = b"\ncsearch trailr\n"


class Fault(Exception):
    pass


def number(data, at):
    return int.from_bytes(data[at : at + 4], "big")


def texts(section):
    """The texts of a section, each ended by a NUL, and the bytes after the last one."""
    parts = section.split(b"\0")
    whole = parts[: parts.index(b"") if b"" in parts else len(parts) - 1]
    rest = section[sum(len(text) + 1 for text in whole) :]
    return whole, rest if all(map(is_text, whole)) else None


def is_text(data):
    try:
        data.decode()
        return True
    except UnicodeDecodeError:
        return False


def opened(data):
    """The paths, the names, the list index by trigrams, and the posting lists of an index."""
    if data[:16] != MAGIC:
        raise Fault("magic")
    if len(data) < 52 or data[-16:] != TRAILER:
        raise Fault("trailer")
    end = len(data) - 36
    offsets = [number(data, end + 4 * i) for i in range(5)] + [end]
    if offsets[0] != 16 or offsets != sorted(offsets):
        raise Fault("offsets")
    paths, names, lists, name_index, list_index = (data[a:b] for a, b in zip(offsets, offsets[1:]))
    paths, rest = texts(paths)
    if rest != b"\0":
        raise Fault("paths")
    names, rest = texts(names)
    if rest not in (b"", b"\0"):
        raise Fault("names")
    offset = 0
    if len(name_index) != 4 * (len(names) + 1):
        raise Fault("name index")
    for at, name in enumerate(names):
        if number(name_index, 4 * at) != offset:
            raise Fault("name index")
        offset += len(name) + 1
    entries = {}
    last = b""
    if len(list_index) % 11:
        raise Fault("list index")
    for at in range(0, len(list_index), 11):
        trigram, count, offset = list_index[at : at + 3], number(list_index, at + 3), number(list_index, at + 7)
        if trigram <= last and at or trigram == b"\xff\xff\xff" and count or offset + 4 > len(lists):
            raise Fault("list index")
        entries[trigram] = count, offset
        last = trigram
    return paths, names, entries, lists


def varint(data, at):
    """A varint, and the offset after it; None if there is none."""
    value = 0
    for i in range(5):
        if at + i >= len(data):
            return None, at
        value |= (data[at + i] & 127) << 7 * i
        if data[at + i] < 128:
            return (value if value < 1 << 32 else None), at + i + 1
    return None, at


def ids_of(trigram, count, offset, lists, names):
    """The ids of a posting list; None if it is damaged."""
    if lists[offset : offset + 3] != trigram:
        return None
    at, ids = offset + 3, [-1]
    for _ in range(count):
        delta, at = varint(lists, at)
        if not delta or ids[-1] + delta >= names:
            return None
        ids.append(ids[-1] + delta)
    return ids[1:] if varint(lists, at)[0] == 0 else None


def trigrams(names, entries, lists):
    """The trigrams of each name, and the trigrams whose list is damaged."""
    sets = {name: set() for name in names}
    damaged = set()
    for trigram, entry in entries.items():
        ids = ids_of(trigram, *entry, lists, len(names))
        if ids is None:
            damaged.add(trigram)
        for at in ids or ():
            sets[names[at]].add(trigram)
    return sets, damaged


def is_below(name, paths):
    return any(path in (name, b"/") or name.startswith(path + b"/") for path in paths)


def made(paths, names, lists, entries):
    """An index of these paths and names, and of these bytes of posting lists, each found by a trigram, a count and an offset."""
    offsets = [0]
    for name in names:
        offsets.append(offsets[-1] + len(name) + 1)
    sections = [
        b"".join(path + b"\0" for path in paths) + b"\0",
        b"".join(name + b"\0" for name in names) + b"\0",
        lists,
        b"".join(at.to_bytes(4, "big") for at in offsets),
        b"".join(trigram + count.to_bytes(4, "big") + at.to_bytes(4, "big") for trigram, count, at in entries),
    ]
    starts = [16]
    for section in sections[:4]:
        starts.append(starts[-1] + len(section))
    return MAGIC + b"".join(sections) + b"".join(at.to_bytes(4, "big") for at in starts) + TRAILER


def varint_of(value):
    """The shortest varint of a number."""
    return bytes([value]) if value < 128 else bytes([value % 128 + 128]) + varint_of(value // 128)


def index_of(paths, names, ids):
    """The index of these paths and names; each trigram of `ids` has a list of the ids there."""
    lists, entries, offset = [], [], 0
    for trigram, found in sorted(ids.items()):
        entries.append((trigram, len(found), offset))
        lists.append(trigram + b"".join(varint_of(id - last) for last, id in zip([-1, *found], found)) + b"\0")
        offset += len(lists[-1])
    return made(paths, names, b"".join([*lists, b"\xff\xff\xff\0"]), entries)


def ids_by_trigram(sets):
    """The ids of each trigram, if the names have these sets of trigrams."""
    ids = {}
    for id, trigrams in enumerate(sets):
        for trigram in trigrams:
            ids.setdefault(trigram, []).append(id)
    return ids


def trigrams_of(text):
    """The trigrams of a text."""
    return {text[at : at + 3] for at in range(len(text) - 2)}


def index_of_texts(paths, texts):
    """The index of these paths, and of names with the trigrams of their texts."""
    return index_of(paths, [*texts], ids_by_trigram(map(trigrams_of, texts.values())))


def mixed_text(count):
    """So many bytes from ! to ~ by a linear congruential generator; every eightieth is a newline."""
    text, state = bytearray(), 1
    for at in range(count):
        state = (state * 1_103_515_245 + 12_345) % 2**32
        text.append(10 if at % 80 == 79 else 33 + (state >> 16) % 94)
    return bytes(text)


def changed(data, changes):
    """A copy of the bytes, with other ones at some offsets."""
    copy = bytearray(data)
    for at, byte in changes.items():
        copy[at] = byte
    return bytes(copy)


# The two indexes of docs/FORMAT.md, "Byte vectors", and one without a name. The names of the second
# are not sorted, and it has an entry for the closing list.
ONE_FILE = index_of_texts([b"/a"], {b"/a/x": b"abcd\n"})
UNSORTED = made([b"/a"], [b"/a/b/z", b"/a/b-x"], b"abc\1\1\0\xff\xff\xff\0", [(b"abc", 2, 0), (b"\xff\xff\xff", 0, 6)])
EMPTY = index_of([b"/a"], [], {})
