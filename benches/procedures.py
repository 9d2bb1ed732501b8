"""Stored procedure calls by `station_parse_rpc_request`, which the program `bench` of this folder makes: a parameter is
asked for that is the first, the last, and none. Only instructions are counted. There is no Rust beside it: the two modules
read no procedure calls."""

import struct
import sys

import calls
import reader
import table

ASKED = ["first asked", "last asked", "none asked"]
HEADS = ["case", "bytes", "parameters", *ASKED, "ours/byte", "ours/parameter"]
GROUP, PROCEDURE = "rpc", "sp_trips"
COLLATION = bytes([0x09, 0x04, 0xD0, 0x00, 0x34])
# Places among the slots (include/station.h).
FOUND, CASE, NUMBER, START, LENGTH = 7, 15, 16, 17, 18
IS_NULL, IS_NUMBER = 0, 1
PARAMETERS = [1, 100, 1_000]
MOST_NULLS = 13_000
CHUNKS = [16, 256, 1_000]
# Characters of a text and bytes of a chunk: with them 1,000 have about 64,000 bytes.
TEXT, CHUNK = 21, 60


def name(number):
    letters = f"@p{number:03}".encode("utf-16-le")
    return bytes([len(letters) // 2]) + letters


def null(_):
    """A NULL TinyInt without a name: no parameter has fewer bytes."""
    return b"\x00\x00\x26\x01\x00"


def integer(number):
    return name(number) + b"\x00\x26\x04\x04" + struct.pack("<i", number)


def text(number):
    letters = f"{number:0{TEXT}}".encode("utf-16-le")
    return name(number) + b"\x00\xe7" + struct.pack("<H", 8_000) + COLLATION + struct.pack("<H", len(letters)) + letters


def chunked(chunks):
    """A Max value in so many chunks."""
    chunk = struct.pack("<I", CHUNK) + bytes(CHUNK)
    return name(0) + b"\x00\xa5\xff\xff" + struct.pack("<Q", CHUNK * chunks) + chunks * chunk + bytes(4)


def body(procedure, parameters):
    """A call by a name; its headers are their own length alone."""
    letters = procedure.encode("utf-16-le")
    return struct.pack("<IH", 4, len(letters) // 2) + letters + bytes(2) + b"".join(parameters)


def cases():
    """Name, kind, procedure and parameters of each case."""
    yield "smallest rpc", "smallest rpc", "", [null(0)]
    for kind, parameter, counts in (("rpc of Ints", integer, PARAMETERS), ("rpc of texts", text, PARAMETERS),
                                    ("rpc of NULLs", null, [*PARAMETERS, MOST_NULLS])):
        for count in counts:
            case = f"{kind}, {count:,} parameter{'s'[:count > 1]}"
            yield case, kind, PROCEDURE, [parameter(number) for number in range(count)]
    for count in CHUNKS:
        yield f"rpc of a Max value, {count:,} chunks", "rpc of a Max value", PROCEDURE, [chunked(count)]


def ending(slots, given):
    """The bytes that a parameter ends in, by its value: a null's length, a number, or a part."""
    if slots[CASE] == IS_NULL:
        return b"\x00"
    if slots[CASE] == IS_NUMBER:
        return struct.pack("<I", slots[NUMBER])
    return given[slots[START]:slots[START] + slots[LENGTH]]


def is_right(slots, given, parameters, number):
    """Whether the answer has the parameter of a number with its value, or none where there is none."""
    if number >= len(parameters):
        return slots[FOUND] == 0
    return slots[FOUND] == 1 and parameters[number].endswith(ending(slots, given))


def count(program, case, given, parameters, number):
    """The instructions of a call that asks for the parameter of a number."""
    table.progress(case)
    how = lambda words, **more: table.callgrind(words, table.counts(case, "ours"), "--toggle-collect=measured", **more)
    said, instructions = reader.given(how, [program, GROUP, str(number)], given)
    if not is_right([int(slot) for slot in said.split()], given, parameters, number):
        sys.exit(f"{case}: the answer is not what was sent")
    return instructions


def row(program, case, kind, procedure, parameters, growth):
    given, last = body(procedure, parameters), len(parameters) - 1
    found = [count(program, f"{case}, {asked}", given, parameters, number)
             for asked, number in zip(ASKED, (0, last, last + 1))]
    for asked, each in zip(ASKED, found):
        growth.setdefault((kind, asked), []).append((len(given), each))
    most = max(found)
    return [case, f"{len(given):,}", f"{len(parameters):,}", *(f"{each:,}" for each in found),
            f"{most / len(given):.2f}", f"{most / len(parameters):,.1f}"]


def measured(chosen):
    """Heads, rows and growth of the chosen cases."""
    found, growth = [case for case in cases() if chosen(case[0])], {}
    if not found:
        return HEADS, [], growth
    groups = calls.exported()
    if GROUP not in groups:
        return HEADS, [[case, f"{len(body(*given)):,}", f"{len(given[1]):,}", "not exported", *[""] * 4]
                       for case, _, *given in found], growth
    program = calls.build(groups)
    return HEADS, [row(program, *case, growth) for case in found], growth
