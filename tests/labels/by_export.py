"""The library's exports station_read_label and station_write_label with lent memory (include/station.h).

The input and the buffer stand at every place modulo 8 in turn. Memory is filled with a pattern before each call; what a call
leaves of it is compared whole, with what stands before and after the lent buffer.
"""
import ctypes

AROUND, PLACES = 16, 8
PATTERN = bytes(range(1, 252)) * 10_000
NULL = 2**32


class Lent:
    """Memory that the calls of a library are lent."""

    def __init__(self, library):
        self.library, self.turn = library, 0
        self.given, self.memory = ((ctypes.c_uint8 * (len(PATTERN) + PLACES))() for _ in range(2))
        for name in ("station_read_label", "station_write_label"):
            function = getattr(library, name)
            function.restype = ctypes.c_int64
            function.argtypes = [ctypes.c_void_p, ctypes.c_size_t] * 2

    def call(self, name, given, room):
        """What a call answers with a buffer of so many bytes: a number, and the buffer with what stands around it."""
        self.turn += 1
        given_at = ctypes.addressof(self.given) + self.turn % PLACES
        memory_at = ctypes.addressof(self.memory) + self.turn // PLACES % PLACES
        size = AROUND + room + AROUND
        ctypes.memmove(given_at, given, len(given))
        ctypes.memmove(memory_at, PATTERN, size)
        answer = getattr(self.library, f"station_{name}")(given_at, len(given), memory_at + AROUND, room)
        if ctypes.string_at(given_at, len(given)) != given:
            return answer, "the input was written"
        return answer, ctypes.string_at(memory_at, size)


def expected(found, room):
    """What a call must answer and leave where the second reader or writer answers bytes, None or a refusal."""
    if found is None or isinstance(found, int):
        return NULL if found is None else -found, PATTERN[:AROUND + room + AROUND]
    end = AROUND + len(found)
    return len(found), PATTERN[:AROUND] + found + PATTERN[end:AROUND + room + AROUND]


def length(found):
    """The bytes of an answer."""
    return len(found) if isinstance(found, bytes) else 0


def rooms(given, found):
    """Buffers to lend: none, one byte too short, exact and longer; where nothing is written, none and a long one."""
    if not isinstance(found, bytes):
        return 0, 2 * len(given) + 3
    return sorted({0, max(0, len(found) - 1), len(found), len(found) + 5})
