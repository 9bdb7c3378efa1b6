"""A reference reader and writer of a state (docs/FORMAT.md, "The state of a project")."""
import struct
from functools import reduce

MAGIC = b"codesearch state3"
PIECE = 65536
ALL = 2**64 - 1


def numbers(*each):
    return struct.pack(f"<{len(each)}Q", *each)


def big(*each):
    return struct.pack(f">{len(each)}Q", *each)


def rotated(word, by):
    return (word << by | word >> 64 - by) & ALL


def siphash(data):
    """SipHash-1-3 with keys 0."""

    def stirred(v0, v1, v2, v3):
        v0, v2 = v0 + v1 & ALL, v2 + v3 & ALL
        v1, v3, v0 = rotated(v1, 13) ^ v0, rotated(v3, 16) ^ v2, rotated(v0, 32)
        v2, v0 = v2 + v1 & ALL, v0 + v3 & ALL
        return v0, rotated(v1, 17) ^ v2, rotated(v2, 32), rotated(v3, 21) ^ v0

    def with_word(state, word):
        v0, v1, v2, v3 = stirred(*state[:3], state[3] ^ word)
        return v0 ^ word, v1, v2, v3

    whole = len(data) // 8 * 8
    words = [word for (word,) in struct.iter_unpack("<Q", data[:whole])]
    last = (len(data) & 255) << 56 | int.from_bytes(data[whole:], "little")
    start = 0x736F6D6570736575, 0x646F72616E646F6D, 0x6C7967656E657261, 0x7465646279746573
    v0, v1, v2, v3 = reduce(with_word, [*words, last], start)
    v0, v1, v2, v3 = reduce(lambda state, _: stirred(*state), range(3), (v0, v1, v2 ^ 255, v3))
    return v0 ^ v1 ^ v2 ^ v3


def piece_sum(secret, moment, number, is_last, piece):
    first, second = (word | 1 for word in struct.unpack("<2Q", secret[:16]))
    value = first
    for at in range(0, len(piece), 8):
        value = rotated((value + int.from_bytes(piece[at : at + 8], "little")) * first & ALL, 32) * second & ALL
    return big(siphash(secret[16:] + numbers(moment, number, is_last, len(piece), value)))


def pieces(body):
    return [body[at : at + PIECE] for at in range(0, len(body), PIECE)]


def sums(secret, moment, body):
    return b"".join(piece_sum(secret, moment, number, False, piece) for number, piece in enumerate(pieces(body)))


def ended(secret, moment, length):
    """The end of a state whose index has this length."""
    number = (length + PIECE - 1) // PIECE
    return big(length) + piece_sum(secret, moment, number, True, big(length)) + big(moment) + MAGIC


class State:
    """The index of a state, its sums and its moment."""

    def __init__(self, data):
        if data[-17:] != MAGIC:
            raise ValueError("no state")
        length, self.moment = struct.unpack(">Q", data[-41:-33])[0], struct.unpack(">Q", data[-25:-17])[0]
        self.index, self.sums = data[:length], data[length:-41]

    def sealed(self, secret, moment=None):
        """The bytes of the state, sealed with a secret."""
        moment = self.moment if moment is None else moment
        return self.index + sums(secret, moment, self.index) + ended(secret, moment, len(self.index))

    def names(self):
        """The stamped names."""
        _, names, lists = struct.unpack(">3I", self.index[-36:-24])
        return self.index[names:lists].split(b"\0")[:-2]

    def rename(self, names):
        """Gives the files other stamped names, in their order."""
        begins = struct.unpack(">5I", self.index[-36:-16])
        grown = b"".join(name + b"\0" for name in names) + b"\0"
        offsets = [0]
        for name in names:
            offsets.append(offsets[-1] + len(name) + 1)
        more = len(grown) - (begins[2] - begins[1])
        ends = [*begins[:2], *(begin + more for begin in begins[2:])]
        lists, rest = self.index[begins[2] : begins[3]], self.index[begins[4] : -36]
        table = struct.pack(f">{len(offsets)}I", *offsets)
        self.index = self.index[: begins[1]] + grown + lists + table + rest + struct.pack(">5I", *ends) + self.index[-16:]
