"""The calls of the static library `station` from Python, as include/station.h declares them.

`Station()` links target/staticlib/libstation.a with gcc as a shared object and loads it. It raises `Missing`, with
what to do, where the library, one of its calls or gcc is not there.
"""
import ctypes
import pathlib
import subprocess
import tempfile

TOP = pathlib.Path(__file__).resolve().parent.parent
ARCHIVE = TOP / "target/staticlib/libstation.a"
MAKE = "`tools/build station` makes it"
MOST_PACKETS = 66_575
NO_PART = 2**64 - 1
HEADER = 8
REPLY, END_OF_MESSAGE = 0x04, 0x01


class Missing(Exception):
    """What the calls need and is not there."""


class Refused(Exception):
    """A call that the library refuses, with its number."""

    def __init__(self, call, number):
        super().__init__(f"{call} gives {number}")
        self.number = number


def shared_object(path):
    """Links the static library as a shared object."""
    shown = ARCHIVE.relative_to(TOP)
    if not ARCHIVE.exists():
        raise Missing(f"{shown} is missing: {MAKE}")
    whole = ["-Wl,--whole-archive", ARCHIVE, "-Wl,--no-whole-archive"]
    try:
        done = subprocess.run(["gcc", "-shared", "-o", path, *whole], capture_output=True, timeout=60)
    except FileNotFoundError:
        raise Missing("gcc is missing: Debian's package gcc has it") from None
    if done.returncode:
        raise Missing(f"gcc does not link {shown}: {done.stderr.decode(errors='replace').strip()}")


class Station:
    """The library's calls, by their names without `station_`."""

    def __init__(self):
        with tempfile.TemporaryDirectory() as folder:
            path = pathlib.Path(folder) / "libstation.so"
            shared_object(path)
            self.library = ctypes.CDLL(str(path))

    def require(self, *names):
        """Calls that an older library may not have."""
        for name in names:
            if not hasattr(self.library, "station_" + name):
                raise Missing(f"{ARCHIVE.relative_to(TOP)} has no station_{name}: {MAKE} anew")

    def call(self, name, *arguments):
        """A call's answer. Bytes and lent arrays go as a pointer and a length, numbers as they are."""
        passed = []
        for each in arguments:
            passed += [ctypes.c_uint64(each)] if isinstance(each, int) else [each, ctypes.c_size_t(len(each))]
        function = getattr(self.library, "station_" + name)
        function.restype = ctypes.c_int64
        answer = function(*passed)
        if answer < 0:
            raise Refused(name, -answer)
        return answer

    def numbers(self, name, count, *arguments):
        """A call's answer, and the numbers that it writes."""
        out = (ctypes.c_uint64 * count)()
        return self.call(name, *arguments, out), list(out)

    def written(self, name, *arguments):
        """The bytes that a call writes."""
        lent = (ctypes.c_uint8 * MOST_PACKETS)()
        return ctypes.string_at(lent, self.call(name, *arguments, lent))

    def packet(self, tokens):
        """Bare tokens in the packet of a reply."""
        spid, number, window = 0, 1, 0
        length = HEADER + len(tokens)
        return self.written("write_header", REPLY, END_OF_MESSAGE, length, spid, number, window) + tokens

    def in_packets(self, packet, size):
        """A reply that is one packet, cut into packets of a size."""
        return self.written("cut_payload", packet[HEADER:], size)

    def login(self, body):
        """What a login says: its feature ids, its server and its database, None where there is none."""
        ids = (ctypes.c_uint8 * (len(body) + 1))()
        count, said = self.numbers("parse_login7", 13, body, ids)
        return bytes(ids[:count]), text(body, *said[7:9]), text(body, *said[11:13])


def text(body, start, length):
    """A part of a body, as a text."""
    return None if start == NO_PART else body[start:start + length].decode("utf-16-le")
