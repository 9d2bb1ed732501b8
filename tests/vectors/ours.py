"""Our own answer to a call of the list, to be told beside the stored one where they differ.

The calls are made on the static library, by the prototypes of include/station.h; of `tokens` by the program `answer`.
"""
import ctypes
import pathlib
import re
import subprocess
import tempfile

import listing

ROOT = pathlib.Path(__file__).resolve().parent.parent.parent
ARCHIVE = ROOT / "target/staticlib/libstation.a"
PROTOTYPE = re.compile(r"^int64_t station_(\w+)\((.*?)\);", re.M | re.S)
NUMBERS = {"uint8_t": ctypes.c_uint8, "uint16_t": ctypes.c_uint16, "uint32_t": ctypes.c_uint32,
           "uint64_t": ctypes.c_uint64, "bool": ctypes.c_bool}
SLOTS, UNTOUCHED = 64, 0xA5A5A5A5A5A5A5A5
NO_PART = 2**64 - 1
# The bytes of a packet header, and the bits of its status that the list has after its slots.
HEADER = 8
END_OF_MESSAGE, IGNORE = 1, 2
# The calls of labels, each with the word before its bytes, and the answer to a value that is null.
LABELS = {"read_label": "text", "write_label": "value"}
NULL = 2**32


def library():
    """The archive's exports, or nothing where there is no archive or gcc."""
    with tempfile.TemporaryDirectory() as folder:
        shared = pathlib.Path(folder) / "station.so"
        whole = [f"-Wl,--whole-archive,{ARCHIVE},--no-whole-archive"]
        try:
            subprocess.run(["gcc", "-shared", "-o", shared, *whole], check=True, capture_output=True)
        except (OSError, subprocess.CalledProcessError):
            return None
        return ctypes.CDLL(str(shared))


def bytes_of(word):
    """The bytes of a word of the list: `6500*3,41` is `65006500650041`."""
    runs = [run.partition("*") for run in ([] if word == "-" else word.split(","))]
    return b"".join(bytes.fromhex(digits) * int(count or 1) for digits, _, count in runs)


def prototypes():
    """By name, the parameters: each a type and a name."""
    text = (ROOT / "include/station.h").read_text()
    return {name: [tuple(each.rsplit(None, 1)) for each in re.split(r",\s*", given) if not each.endswith("_len")]
            for name, given in PROTOTYPE.findall(text)}


class Ours:
    """The library's answers."""

    def __init__(self):
        self.calls, self.exports = prototypes(), library()

    def answer(self, call):
        """Our answer to a call as the list writes it; what is needed to see it where it cannot be had."""
        name, *words = call.split()
        if name == "tokens":
            return self.tokens(bytes_of(words[0]))
        export = getattr(self.exports, f"station_{name}", None) if self.exports else None
        if export is None or name not in self.calls:
            return "not seen: needs gcc and `tools/build station`"
        return self.told(name, *self.called(name, export, words))

    def tokens(self, packet):
        done = subprocess.run([ROOT / "target/bin/answer", "places"], input=packet, capture_output=True)
        return listing.words("tokens", done.stdout.decode().splitlines())

    def called(self, name, export, words):
        """The number that a call answers, its inputs, and the memory that it was lent."""
        lent = HEADER if name == "write_header" else 0
        if name.startswith("build_") or name in ("parse_login7", "capture_marks", *LABELS):
            lent = int(words.pop(0))
        if name in ("database", "parse_rpc_request"):
            words.reverse()
        if name == "is_whitespace":
            words = [str(int.from_bytes(bytes_of(words[0]), "little"))]
        room, slots = ctypes.create_string_buffer(max(lent, 1)), (ctypes.c_uint64 * SLOTS)(*[UNTOUCHED] * SLOTS)
        arguments, inputs = [], []
        for kind, parameter in self.calls[name]:
            if kind == "const uint8_t":
                inputs.append(bytes_of(words.pop(0)))
                arguments += [ctypes.c_char_p(inputs[-1]), ctypes.c_size_t(len(inputs[-1]))]
            elif parameter.startswith("*"):
                count = lent if name == "capture_marks" else SLOTS
                memory = (slots, count) if kind == "uint64_t" else (room, lent)
                arguments += [memory[0], ctypes.c_size_t(memory[1])]
            else:
                arguments.append(NUMBERS[kind](int(words.pop(0))))
        export.restype = ctypes.c_int64
        return export(*arguments), inputs, room, [slot for slot in slots if slot != UNTOUCHED]

    def told(self, name, number, inputs, room, slots):
        """A call's answer in the words of the list."""
        if number < 0:
            return f"refused {-number}"
        if name in LABELS:
            return "null" if number == NULL else f"{LABELS[name]} {listing.packed(room.raw[:number])}"
        if name.startswith("build_") or name == "write_header":
            return listing.packed(room.raw[:number])
        if name == "database":
            return listing.packed(inputs[number][slots[0]:slots[0] + slots[1]])
        if name == "parse_header":
            slots += [int(bool(slots[1] & bit)) for bit in (END_OF_MESSAGE, IGNORE)]
        if name == "parse_login7":
            slots += [number, *room.raw[:number]]
        if name == "capture_marks":
            slots.insert(0, number)
        if name == "fit":
            return MISFITS[slots[0]](slots) if number else "fits"
        if name == "parse_rpc_request":
            return procedure(*slots)
        return " ".join(map(str, slots)) or ("none" if name.endswith("descriptor_header") else str(number))


def procedure(named, start, length, number, flags, statement, statement_length, found, *parameter):
    """A stored procedure call."""
    words = ["name", start, length] if named else ["number", number]
    words.append(flags)
    if statement != NO_PART:
        words += ["statement", statement, statement_length]
    if not found:
        return " ".join(map(str, [*words, "none"]))
    *info, case, bits, place, size = parameter
    value = VALUES[case](ctypes.c_int64(bits).value, [place, size])
    return " ".join(map(str, [*words, "param", *info, *value]))


# A value by its case: of its number and its part.
VALUES = {
    0: lambda number, part: ["null"],
    1: lambda number, part: ["num", number],
    2: lambda number, part: ["part", *part],
    3: lambda number, part: ["max", *part],
}
# A misfit by its kind: class SET, column SET COLUMN, cell SET ROW COLUMN; the slots are kind, set, row, column.
MISFITS = {
    1: lambda slots: f"class {slots[1]}",
    2: lambda slots: f"column {slots[1]} {slots[3]}",
    3: lambda slots: f"cell {slots[1]} {slots[2]} {slots[3]}",
}
