"""Steps and payloads as the library's exports `station_step` and `station_payload` answer them, by include/station.h.

A step is told as worked.told tells that of the second reader. The layout of a position's slots is the library's own,
and moves with it.
"""
import ctypes

import reading
from station import Refused

POSITION, STEP = 134, 11
PLACE, COUNT, COLUMNS_LEFT, CELLS_LEFT, OVER, PACKET, TYPES = 0, 1, 2, 3, 4, 5, 6
COLUMN, CELL = 0x01, 0x02
NULL, NUMBER, PART, MAX = 0, 1, 2, 3
UNTOUCHED, FILLED = 2**63 + 5, 0xA5
GUARD = 4


def slots(position):
    """The slots of a position."""
    out = [0] * POSITION
    count = len(position.columns) + position.columns_left
    left = [position.columns_left, position.cells_left]
    out[:TYPES] = [position.place, count, *left, int(position.over), position.packet]
    out[TYPES:TYPES + len(position.columns)] = [code << 16 | limit for code, limit in position.columns]
    return out


def lent_slots(values):
    return (ctypes.c_uint64 * len(values))(*values)


def fresh(station):
    """What `station_fresh` writes, where it answers 0."""
    out = lent_slots([UNTOUCHED] * POSITION)
    return list(out) if station.call("fresh", out) == 0 else None


def told(station, lent, position, payload):
    """What a step answers, and the packet and place where it then stands; a fault of its own where it leaves lent slots
    otherwise than it must."""
    before = slots(position)
    guarded = lent_slots([UNTOUCHED] * GUARD + before + [UNTOUCHED] * GUARD)
    held = ctypes.cast(ctypes.byref(guarded, GUARD * 8), ctypes.POINTER(ctypes.c_uint64 * POSITION)).contents
    out = lent_slots([UNTOUCHED] * (STEP + GUARD))
    try:
        answer = station.call("step", lent, held, out)
    except Refused as refusal:
        return f"refused {refusal.number}" + kept(guarded, before, out)
    if answer == 0:
        return "end" + kept(guarded, before, out)
    around = set(guarded[:GUARD]) | set(guarded[-GUARD:]) | set(out[STEP:])
    if answer != 1 or around != {UNTOUCHED}:
        return f"answer {answer}, or slots past the lent ones written"
    return f"{line(list(out), payload)} at {held[PACKET]} {held[PLACE]}"


def kept(guarded, before, out):
    """What is wrong about slots that a call without a token leaves."""
    same = list(guarded) == [UNTOUCHED] * GUARD + before + [UNTOUCHED] * GUARD and set(out) == {UNTOUCHED}
    return "" if same else ", and slots were written"


def line(out, payload):
    """The line of `answer places` for a token's slots."""
    kind = out[0]
    if kind == 0x81:
        return f"81 {out[1]}"
    if kind == COLUMN:
        return f"col {out[1]} {out[2]:04X} {out[3]:02X} {out[4]} {part(payload, *out[5:7])} {part(payload, *out[7:9])}"
    if kind == 0xD1:
        return "D1"
    if kind == CELL:
        return cell(out, payload)
    if kind == 0xFD:
        return f"FD {out[1]:04X} {out[2]:04X} {out[3]}"
    texts = " ".join(part(payload, *out[at:at + 2]) for at in (5, 7, 9))
    return f"{kind:02X} {out[1]} {out[2]} {out[3]} {out[4]} {texts}"


def part(payload, start, length):
    return reading.shown(payload[start:start + length], start, length)


def cell(out, payload):
    case, start, length = out[1:4]
    if case == NULL:
        return "null"
    if case == NUMBER:
        return f"num {ctypes.c_int64(start).value}"
    if case == PART:
        return f"part {part(payload, start, length)}"
    return f"part {reading.shown(joined(payload[start:start + length]), start, length)}"


def joined(chunks):
    """The bytes of chunks, each after its length of four bytes."""
    found, at = b"", 0
    while size := int.from_bytes(chunks[at:at + 4], "little"):
        found += chunks[at + 4:at + 4 + size]
        at += 4 + size
    return found


def payload(station, lent, room):
    """What `station_payload` answers where it is lent a buffer of so many bytes: the bytes, or the refusal."""
    buffer = (ctypes.c_uint8 * (room + GUARD))(*[FILLED] * (room + GUARD))
    held = (ctypes.c_uint8 * room).from_buffer(buffer)
    try:
        count = station.call("payload", lent, held)
    except Refused as refusal:
        return f"refused {refusal.number}" + ("" if set(buffer) == {FILLED} else ", and bytes were written")
    if set(bytes(buffer)[count:]) != {FILLED}:
        return f"{count} bytes, and others written after them"
    return bytes(buffer)[:count]
