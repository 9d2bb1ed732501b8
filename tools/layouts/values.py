"""Types and values, as columns and cells have them, and parameters of procedure calls.

What is wrong has the number that the reader of the body gives it (`Fields.rules`).
"""
from .fields import Unread, ascii_letters, letters, many

MOST_BOUNDED, MAX = 8000, 0xFFFF
INTN, NVARCHAR, VARCHAR, VARBINARY = 0x26, 0xE7, 0xA7, 0xA5
TYPES = {INTN: ("INTN", "IntN"), NVARCHAR: ("NVARCHAR", "NVarChar"), VARCHAR: ("BIGVARCHAR", "VarChar"),
         VARBINARY: ("BIGVARBINARY", "VarBinary")}
NULL_TOTAL, UNKNOWN_TOTAL = 2**64 - 1, 2**64 - 2


def read_type(f):
    """A type, its length and its collation; the answer is type, length, and the words about them."""
    code = f.number("TYPE_INFO type", 1, lambda code: f"type {code:02X}, {TYPES.get(code, ['not read'])[0]}")
    if code not in TYPES:
        read = ", ".join(f"{each:02X}" for each in TYPES)
        f.fault(f.rules.type, f"a {f.rules.typed} of type {code:02X}; read are {read}")
        raise Unread
    limit = f.number("TYPE_INFO length", 1 if code == INTN else 2, lambda limit: limit_words(code, limit))
    if not limit_is_read(code, limit):
        f.fault(f.rules.type, f"a {f.rules.typed} of type {code:02X} with length {limit}")
    words = [f"{TYPES[code][1]} {'' if limit == MAX else 'of '}{limit_words(code, limit)}"]
    if code in (NVARCHAR, VARCHAR):
        f.take("COLLATION", 5, lambda held: held.hex().upper(), 5)
        words.append("collation")
    return code, limit, words


def limit_words(code, limit):
    if code == INTN:
        return many(limit, "byte")
    return "Max" if limit == MAX else f"up to {many(limit, 'byte')}"


def limit_is_read(code, limit):
    """Whether values of a type and length are read."""
    if code == INTN:
        return limit in (1, 2, 4, 8)
    return limit == MAX or code == NVARCHAR and 1 <= limit <= MOST_BOUNDED


def read_value(f, indent, code, limit):
    """The lines of a value."""
    line = f.line(f.rules.token, indent, f.rules.valued)
    if code == INTN:
        line.comment = f"{f.rules.valued}: {read_integer(f, limit)}"
    elif limit != MAX:
        line.comment = f"{f.rules.valued}: {read_bounded(f, code, limit)}"
    else:
        read_long(f, line, code)


def read_integer(f, width):
    size = f.number("Length", 1, lambda size: many(size, "byte") if size else "null")
    if size == 0:
        return "no byte, null"
    if size != width:
        f.fault(f.rules.length, f"a {f.rules.valued} of {many(size, 'byte')} in a {f.rules.typed} of {width}")
    held = f.take("Value", size, lambda held: str(int.from_bytes(held, "little", signed=size > 1)), min(size, 8))
    return f"{many(size, 'byte')}, {int.from_bytes(held, 'little', signed=size > 1)}"


def value_words(code):
    return letters if code == NVARCHAR else ascii_letters


def read_bounded(f, code, limit):
    size = f.number("Length", 2, lambda size: "null" if size == MAX else many(size, "byte"))
    if size == MAX:
        return "null"
    if size > limit:
        f.fault(f.rules.length, f"a {f.rules.valued} of {many(size, 'byte')} in a {f.rules.typed} of up to {limit}")
    elif code == NVARCHAR and size % 2:
        f.fault(f.rules.length, f"a text of {many(size, 'byte')}, which is odd")
    return read_octets(f, code, size)


def read_octets(f, code, size):
    """The bytes of a text or of another value; the answer is what a comment says of them."""
    say = value_words(code)
    held = f.take("Value", size, lambda held: say(held) or many(size, "byte"), 2 if code == NVARCHAR else 4)
    return ", ".join(filter(None, [many(size, "byte"), say(held)]))


def total_words(total):
    if total == NULL_TOTAL:
        return "null"
    return "of unknown length" if total == UNKNOWN_TOTAL else f"{many(total, 'byte')} in all"


def read_long(f, line, code):
    """A Max value: a total, then chunks until one of no bytes."""
    total = f.number("Total", 8, total_words)
    line.comment = f"{f.rules.valued}: {total_words(total)}"
    if total == NULL_TOTAL:
        return
    known, joined = total != UNKNOWN_TOTAL, 0
    if known and code == NVARCHAR and total % 2:
        f.fault(f.rules.length, f"a text of {many(total, 'byte')}, which is odd")
    while True:
        line = f.line(f.rules.token, 4, "chunk")
        size = f.number("Chunk length", 4, lambda size: many(size, "byte") if size else "no further chunk")
        if code == NVARCHAR and size % 2:
            f.fault(f.rules.length, f"a chunk of a text of {many(size, 'byte')}, which is odd")
        joined += size
        if known and (joined > total or size == 0 and joined < total):
            f.fault(f.rules.length, f"chunks of {many(joined, 'byte')}, and {total} in all")
        if size == 0:
            line.comment = "no further chunk"
            return
        line.comment = f"chunk: {read_octets(f, code, size)}"
