"""A second reader and writer of event labels, from request 2026-07 of document 02 and MS-TDS 2.2.5.2.3 (PLP_BODY), apart from
the proved ones. The characters are those of Python's cp1252; the five bytes that it leaves out stand for the control
characters of their numbers, as in the WHATWG Encoding Standard's index.

`read` and `write` answer bytes, None for null, or the number of a refusal; `line` is what `answer` writes of it.
"""
import codecs
import math
import struct

CUT, WRONG, TOO_LONG, TOO_SHORT, ODD, NO_BYTE = 24, 26, 17, 20, 21, 36
TOTAL, LENGTH = 8, 4  # the bytes of a total and of a chunk's length
NULL, UNKNOWN = 2**64 - 1, 2**64 - 2
MOST = 65_535
LEFT_OUT = b"\x81\x8D\x8F\x90\x9D"
CHARACTERS = "".join(chr(byte) if byte in LEFT_OUT else bytes([byte]).decode("cp1252") for byte in range(256))
BYTES = {ord(character): byte for byte, character in enumerate(CHARACTERS)}


def joined(value):
    """The bytes of a value's chunks, None where it is null, or the number of its first fault."""
    if len(value) < TOTAL:
        return CUT
    total, at, chunks = int.from_bytes(value[:TOTAL], "little"), TOTAL, []
    if total == NULL:
        return None if len(value) == TOTAL else WRONG
    left = math.inf if total == UNKNOWN else total
    while len(value) - at >= LENGTH:
        size = int.from_bytes(value[at:at + LENGTH], "little")
        at += LENGTH
        if size == 0:
            return b"".join(chunks) if left in (0, math.inf) and at == len(value) else WRONG
        if size > left:
            return WRONG
        chunks.append(value[at:at + size])
        at, left = at + size, left - size
    return CUT


def read(value, room=math.inf):
    """The text of a value, where so many bytes are lent for it."""
    held = joined(value)
    if not isinstance(held, bytes):
        return held
    if len(held) > MOST:
        return TOO_LONG
    return TOO_SHORT if room < 2 * len(held) else text(held)


def text(held):
    """The characters of some bytes, as UTF-16LE."""
    return codecs.charmap_decode(held, "strict", CHARACTERS)[0].encode("utf-16-le")


def write(given, room=math.inf):
    """The value of a text, where so many bytes are lent for it."""
    if len(given) % 2:
        return ODD
    held = [BYTES.get(unit) for unit in units(given)]
    if None in held:
        return NO_BYTE
    if len(held) > MOST:
        return TOO_LONG
    made = value(len(held), [bytes(held)] if held else [])
    return TOO_SHORT if room < len(made) else made


def units(given):
    return struct.unpack(f"<{len(given) // 2}H", given)


def value(total, chunks):
    """The bytes of a value: a total, right or not, the chunks, and the zero length."""
    fields = [(total % 2**64).to_bytes(TOTAL, "little")]
    for chunk in (*chunks, b""):
        fields += [len(chunk).to_bytes(LENGTH, "little"), chunk]
    return b"".join(fields)


def line(name, found):
    """The line of an answer."""
    if found is None:
        return "null"
    return f"refused {found}" if isinstance(found, int) else f"{name} {found.hex().upper() or '-'}"
