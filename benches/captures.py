"""Captures of requests by `station_capture_marks`, which the program `bench` of this folder makes. Only instructions are
counted. There is no Rust beside it: the two modules know no captures."""

import struct
import sys

import calls
import reader
import table

HEADS = ["case", "bytes", "records", "marks", "ours", "ours/byte", "ours/record"]
GROUP = "capture"
KIND, HEAD = 0x21, 6
SIZES = {"1 KB": 1_024, "16 KB": 16_384, "64 KB": 65_536}
MARKED = bytes(4)
# A kind of captures: the body of its records, and of the last one.
BODIES = {
    "capture of marked records": (MARKED, MARKED),
    "capture of records that can be": (struct.pack("<I", 4),) * 2,
    "capture of empty bodies": (b"", b""),
    "capture of empty bodies and a mark": (b"", MARKED),
    "capture of batches of 100 bytes": (struct.pack("<I", 4) + bytes(96),) * 2,
}


def cases():
    """Name, kind and bodies of each case."""
    yield "smallest capture", "smallest capture", [MARKED]
    for kind, (body, last) in BODIES.items():
        for size, most in SIZES.items():
            yield f"{kind}, {size}", kind, [body] * ((most - HEAD - len(last)) // (HEAD + len(body))) + [last]


def is_marked(body):
    return len(body) >= 4 and int.from_bytes(body[:4], "little") < 4


def row(program, case, kind, bodies, growth):
    given = b"".join(struct.pack("<IH", len(body), KIND) + body for body in bodies)
    records, marks = len(bodies), sum(map(is_marked, bodies))
    table.progress(f"{case}, ours")
    how = lambda words, **more: table.callgrind(words, table.counts(case, "ours"), "--toggle-collect=measured", **more)
    said, instructions = reader.given(how, [program, GROUP], given)
    if int(said) != marks:
        sys.exit(f"{case}: {said.strip()} marks, and not {marks}")
    growth.setdefault((kind, "ours"), []).append((len(given), instructions))
    return [case, f"{len(given):,}", f"{records:,}", f"{marks:,}", f"{instructions:,}", f"{instructions / len(given):.2f}",
            f"{instructions / records:,.1f}"]


def measured(chosen):
    """Heads, rows and growth of the chosen cases."""
    found, growth = [case for case in cases() if chosen(case[0])], {}
    if not found:
        return HEADS, [], growth
    groups = calls.exported()
    if GROUP not in groups:
        return HEADS, [[case, "", f"{len(bodies):,}", "", "not exported", "", ""] for case, _, bodies in found], growth
    program = calls.build(groups)
    return HEADS, [row(program, *case, growth) for case in found], growth
