"""Event labels by `station_read_label` and `station_write_label`, which the program `bench` of this folder calls: values of
known total that are read, in one chunk and in many, and texts that are written. Only instructions are counted. There is no
Rust beside it: the two modules know no Windows-1252."""

import struct
import sys

import calls
import reader
import table

HEADS = ["case", "characters", "chunks", "value", "text", "ours", "ours/character"]
GROUP = "labels"
COUNTS = [32, 256, 65_535]
# Bytes that stand for no character in Python's cp1252; in the WHATWG index they stand for their own number.
LEFT_OUT = b"\x81\x8D\x8F\x90\x9D"
# Labels by their bytes, which are repeated. U+0178 is byte 9F, the last that a search for a unit comes to.
ASCII, UPPER = bytes(range(0x20, 0x7F)), bytes(range(0xA0, 0x100))
MOVED, LAST = bytes(range(0x80, 0xA0)), b"\x9F"
# What is done: the bytes of a kind's labels, and of a chunk where there are several.
READ = {
    "labels read, ASCII": (ASCII, None),
    "labels read, A0 to FF": (UPPER, None),
    "labels read, 80 to 9F": (MOVED, None),
    "labels read, chunks of 16": (ASCII, 16),
    "labels read, chunks of 1": (ASCII, 1),
}
WRITTEN = {
    "labels written, ASCII": (ASCII, None),
    "labels written, A0 to FF": (UPPER, None),
    "labels written, 80 to 9F": (MOVED, None),
    "labels written, U+0178": (LAST, None),
}


def cases():
    """Name, kind, way, bytes of the label and of a chunk, of each case."""
    for way, done, kinds in (("read", "read", READ), ("write", "written", WRITTEN)):
        yield f"labels {done}, smallest", f"labels {done}, smallest", way, b"A", None
        for kind, (held, size) in kinds.items():
            for count in COUNTS:
                yield f"{kind}, {count:,} characters", kind, way, (held * count)[:count], size


def cut(held, size):
    """A label's bytes in chunks."""
    size = size or len(held)
    return [held[at:at + size] for at in range(0, len(held), size)]


def value(chunks):
    """The total, the chunks, and the length that ends them."""
    lent = b"".join(struct.pack("<I", len(chunk)) + chunk for chunk in chunks)
    return struct.pack("<Q", sum(map(len, chunks))) + lent + bytes(4)


def text(held):
    characters = (chr(byte) if byte in LEFT_OUT else bytes([byte]).decode("cp1252") for byte in held)
    return "".join(characters).encode("utf-16-le")


def checksum(answer):
    """The FNV-1a sum, which the program prints."""
    found = 0xCBF29CE484222325
    for byte in answer:
        found = (found ^ byte) * 0x100000001B3 % 2**64
    return found


def row(program, case, kind, way, held, size, growth):
    chunks, count = cut(held, size), len(held)
    sides = [value(chunks), text(held)]
    given, answer = sides if way == "read" else sides[::-1]
    table.progress(f"{case}, ours")
    how = lambda words, **more: table.callgrind(words, table.counts(case, "ours"), "--toggle-collect=measured", **more)
    said, instructions = reader.given(how, [program, GROUP, way], given)
    if said.split() != [str(len(answer)), f"{checksum(answer):016X}"]:
        sys.exit(f"{case}: the answer is not the label: {said.strip()}")
    growth.setdefault((kind, "ours", "character"), []).append((count, instructions))
    return [case, f"{count:,}", f"{len(chunks):,}", *(f"{len(side):,}" for side in sides), f"{instructions:,}",
            f"{instructions / count:.2f}"]


def measured(chosen):
    """Heads, rows and growth of the chosen cases."""
    found, growth = [case for case in cases() if chosen(case[0])], {}
    if not found:
        return HEADS, [], growth
    groups = calls.exported()
    if GROUP not in groups:
        return HEADS, [[case, f"{len(held):,}", "", "", "", "not exported", ""] for case, _, _, held, _ in found], growth
    program = calls.build(groups)
    return HEADS, [row(program, *case, growth) for case in found], growth
