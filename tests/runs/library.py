"""Calls of libcodesearch.so (include/codesearch.h), the first argument, for the tests of the library."""
import ctypes
import os

import running

CODES = {"magic": -40, "trailer": -41, "offsets": -42, "paths": -43, "names": -44, "name index": -45, "list index": -46}
NO_ENTRY, STOPPED, BAD_LIST, BAD_NAME, BAD_ORDER, BAD_PATHS, UNSORTED_NAMES, UNCOVERED = -4, -6, -47, -60, -61, -62, -80, -81
ROOM = 200


class Slot(ctypes.Structure):
    _fields_ = [("at", ctypes.c_void_p), ("filled", ctypes.c_bool)]


def loaded(test):
    """The library. Without it the test ends here."""
    if not os.path.exists(running.program):
        running.skip(test, "there is no library (make lib builds it)")
    return ctypes.CDLL(running.program)


def given(data):
    """Bytes, as a call takes them."""
    return data, ctypes.c_size_t(len(data))


def entries(call, data):
    """The paths or the names of an index, by their numbers."""
    found, room, length = [], ctypes.create_string_buffer(ROOM), ctypes.c_size_t()
    while (code := call(*given(data), ctypes.c_uint32(len(found)), room, ctypes.c_size_t(ROOM), ctypes.byref(length))) == 0:
        found.append(room.raw[: length.value])
    return found if code == NO_ENTRY else code


def with_pattern(library, pattern, fold, call):
    """The answer of `call(slot)` with a pattern, or the error of the pattern."""
    slot, at = Slot(None, False), ctypes.c_size_t()
    code = library.cs_pattern_compile(*given(pattern), ctypes.c_bool(fold), ctypes.byref(slot), ctypes.byref(at))
    code = code or call(ctypes.byref(slot))
    library.cs_pattern_free(ctypes.byref(slot))
    return code


def candidates(library, pattern, data, fold=False):
    """The ids of the texts of an index that may match a pattern, or an error."""
    names, count = ctypes.c_uint32(), ctypes.c_size_t()
    library.cs_index_names(*given(data), ctypes.byref(names))
    ids = (ctypes.c_uint32 * (names.value + 1))()
    call = lambda slot: library.cs_pattern_candidates(slot, *given(data), ids, ctypes.c_size_t(len(ids)), ctypes.byref(count))
    return with_pattern(library, pattern, fold, call) or ids[: count.value]


def bytes_of(library, slot):
    """The bytes of an index that a slot holds, which is then empty."""
    length = ctypes.c_size_t()
    library.cs_bytes_len(ctypes.byref(slot), ctypes.byref(length))
    room = ctypes.create_string_buffer(length.value)
    code = library.cs_bytes_copy(ctypes.byref(slot), ctypes.c_size_t(0), room, length)
    library.cs_bytes_free(ctypes.byref(slot))
    return code or room.raw


def merged(library, older, newer):
    """The bytes that two indexes merge to, or an error."""
    slot = Slot(None, False)
    return library.cs_index_merge(*given(older), *given(newer), ctypes.byref(slot)) or bytes_of(library, slot)


def built(library, paths, files):
    """The answers of adding these files to an index of these paths, and its bytes; or the error of
    the paths."""
    builder, index = Slot(None, False), Slot(None, False)
    code = library.cs_builder_new(*given(b"".join(path + b"\0" for path in paths)), ctypes.byref(builder))
    if code:
        return code
    codes = [library.cs_builder_add(ctypes.byref(builder), *given(name), *given(text)) for name, text in files]
    return codes, library.cs_builder_finish(ctypes.byref(builder), ctypes.byref(index)) or bytes_of(library, index)
