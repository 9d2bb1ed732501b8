"""Why a script is refused or does not fit, in words. The numbers are those of the program `answer`; the words are this
file's, and None where it finds no cause for the program's answer.

A record is a start, a kind and a payload, as `script.records` has them; a cut one has the kind None.
"""
import struct

import script
from script import CELL, CHUNK, COLUMN, INFO, LEADING_ERROR, ROW, SET, TERMINAL_ERROR, TRAILING_INFO

# The causes of the refusals of a script, a reply and a procedure call, in the words of docs/FORMATS.md, 'Refusals'; of
# 24 the first.
CAUSES = {
    8: "under 8 bytes where a packet header is read",
    9: "a packet type other than 01, 03, 04, 06, 08, 0E, 10, 12",
    11: "the bytes end within a record",
    12: "a kind is unknown or out of order; a script has no set",
    13: "a payload is not as its kind's table says",
    14: "a text in a record is not UTF-16",
    15: "a chunk that would be sent is empty",
    16: "a column's, server's or procedure's name that would be sent has over 255 units",
    17: "what would be sent has over 65,535 bytes",
    18: "the input of a program has over 65,536 bytes",
    23: "a packet is not of type 04, or its length is under 9 or past the bytes lent",
    24: "a reply ends within a token or before its last DONE",
    25: "a byte begins no token that is read",
    26: "a length, count or type within a token is wrong, or bytes follow the last DONE",
    27: "a set has over 128 columns",
    28: "a row where no columns came before in its set",
    29: "a procedure call ends within its headers, its procedure or its flags",
    30: "a parameter is cut, a length in its value is wrong, or `sp_executesql` has no parameter",
    31: "a parameter's type or type length is not read, its status has bit 08, or FE or FF stands where its name would "
        "begin",
    33: "a packet's number is not the next",
    34: "a reply must go on past a packet's payload, and bytes follow the end bit, or none follow and there is no end "
        "bit",
    35: "a request's headers length is 0 to 3, and so cannot hold its own four bytes",
}
MOST_NAME_UNITS, MOST_COLUMNS, MOST_TEXT_BYTES, MOST_INPUT = 255, 128, 8000, 65_536
# A longer payload is cut here where it is shown.
MOST_SHOWN = 20
BODY = {SET, INFO, ROW, TRAILING_INFO}
CHUNKED = "chunked"
# The kinds that may stand after a record; CHUNKED is a cell that has chunks, or one of them.
FOLLOWING = {
    None: {SET},
    SET: BODY | {COLUMN, LEADING_ERROR, TERMINAL_ERROR},
    COLUMN: BODY | {COLUMN, LEADING_ERROR, TERMINAL_ERROR},
    LEADING_ERROR: BODY | {TERMINAL_ERROR},
    TERMINAL_ERROR: BODY,
    INFO: BODY,
    ROW: {SET, ROW, CELL, TRAILING_INFO},
    CELL: {SET, ROW, CELL, TRAILING_INFO},
    CHUNKED: {SET, ROW, CELL, CHUNK, TRAILING_INFO},
    TRAILING_INFO: {TRAILING_INFO},
}
INFO_SHAPE = "16 bytes of numbers, then three texts as long as their counts say"
ERROR_SHAPE = "a number of 4 bytes, a severity of 1, then a text of an even length"
SHAPES = {
    COLUMN: "a type byte 1 to 8, 5 bytes of collation, then a name of an even length",
    INFO: INFO_SHAPE,
    ROW: "empty",
    CELL: "a value byte 1 to 10, then 1, 2, 4, 8 bytes for values 1 to 4, a text of an even length for 5, else nothing",
    CHUNK: "of an even length after a cell NVarCharMax",
    LEADING_ERROR: ERROR_SHAPE,
    TERMINAL_ERROR: ERROR_SHAPE,
    TRAILING_INFO: INFO_SHAPE,
}
INTEGERS = ("TinyInt", "SmallInt", "Int", "BigInt")
CHUNKED_VALUES = ("NVarCharMax", "VarCharMax", "VarBinaryMax")


def cause(number):
    """The cause of a refusal."""
    return CAUSES.get(number, "docs/FORMATS.md has its cause")


def counted(count, what):
    """A count with its noun: 1 byte, 2 bytes."""
    return f"{count} {what}" if count == 1 else f"{count} {what}s"


def value_of(payload):
    """The name of a cell's value."""
    return script.VALUES[payload[0] - 1]


def type_of(payload):
    """The name of a column's type."""
    return script.TYPES[payload[0] - 1]


def place_of(record):
    """What decides the kinds that may follow a record."""
    _, kind, payload = record
    chunked = kind == CHUNK or kind == CELL and value_of(payload) in CHUNKED_VALUES
    return CHUNKED if chunked else kind


def named(record):
    """A record by its kind, a cell by its value too."""
    _, kind, payload = record
    return f"cell {value_of(payload)}" if kind == CELL else script.NAMES[kind]


def cut_reason(records, at):
    _, kind, held = records[at]
    if kind is not None:
        return None
    if len(held) < script.HEAD.size:
        return f"under {script.HEAD.size} bytes are left, which a record's length and kind have"
    length = script.HEAD.unpack_from(held)[0]
    return f"its length says {counted(length, 'byte')} of payload, and {len(held) - script.HEAD.size} follow"


def order_reason(records, at):
    kind = records[at][1]
    if kind not in script.NAMES:
        return f"kind {kind} is not known; kinds are 1 to {max(script.NAMES)}"
    allowed = FOLLOWING[place_of(records[at - 1]) if at else None]
    if kind in allowed:
        return None
    if at == 0:
        return f"a script starts with a set, not with this {script.NAMES[kind]}"
    names = ", ".join(name for name, each in script.KINDS.items() if each in allowed)
    return f"this {script.NAMES[kind]} follows a {named(records[at - 1])}; after that may stand: {names}"


def shape_reason(records, at):
    _, kind, payload = records[at]
    if kind not in SHAPES:
        return None
    shown = script.shown_bytes(payload[:MOST_SHOWN]) + (".." if len(payload) > MOST_SHOWN else "")
    return f"its payload is {shown}, {counted(len(payload), 'byte')}; it has to be {SHAPES[kind]}"


def texts_of(record):
    """The texts of a well-shaped record, by their names."""
    _, kind, payload = record
    if kind == COLUMN:
        return {"name": payload[6:]}
    if kind in (LEADING_ERROR, TERMINAL_ERROR):
        return {"text": payload[script.ERROR_NUMBERS.size:]}
    if kind == CELL:
        return {"text": payload[1:]} if value_of(payload) == "NVarChar" else {}
    if kind not in (INFO, TRAILING_INFO):
        return {}
    *_, message, server, procedure = script.INFO_NUMBERS.unpack_from(payload)
    texts, at = {}, script.INFO_NUMBERS.size
    for name, count in (("message", message), ("server name", server), ("procedure name", procedure)):
        texts[name] = payload[at:at + 2 * count]
        at += 2 * count
    return texts


def lone_surrogate(text):
    """The first surrogate without its other half, and how many units stand before it; None where there is none."""
    characters = text.decode("utf-16-le", "surrogatepass")
    at = next((at for at, each in enumerate(characters) if 0xD800 <= ord(each) < 0xE000), None)
    if at is None:
        return None
    return ord(characters[at]), len(characters[:at].encode("utf-16-le")) // 2


def text_reason(records, at):
    for name, text in texts_of(records[at]).items():
        found = lone_surrogate(text)
        if found:
            after = f" after {counted(found[1], 'unit')}" if found[1] else ""
            return f"its {name} holds {found[0]:04X}{after}, a surrogate without its other half"
    return None


def chunk_reason(records, at):
    if records[at][1:] != (CHUNK, b""):
        return None
    return "the chunk is empty; on the wire an empty chunk would end its value"


def name_reason(records, at):
    for name, text in texts_of(records[at]).items():
        if name.endswith("name") and len(text) // 2 > MOST_NAME_UNITS:
            return f"its {name} has {len(text) // 2} units; at most {MOST_NAME_UNITS} can be sent"
    return None


def length_reason(records, at):
    return "with this record the reply passes 65,535 bytes"


def input_reason(records, at):
    return f"with this record the script passes {MOST_INPUT:,} bytes"


REFUSED = {11: cut_reason, 12: order_reason, 13: shape_reason, 14: text_reason, 15: chunk_reason, 16: name_reason,
           17: length_reason, 18: input_reason}


def found(rule, *arguments):
    """What a rule finds; None where a script is not as the program's answer has it."""
    try:
        return rule(*arguments)
    except (LookupError, ValueError, struct.error):
        return None


def refused(number, records, at):
    """Why a script is refused with a number at its record `at`, counted from 0."""
    return found(REFUSED[number], records, at) if number in REFUSED else None


def in_set(records, number):
    """The places of the records of a set, counted from 0."""
    starts = [at for at, record in enumerate(records) if record[1] == SET]
    end = [*starts, len(records)][number + 1]
    return range(starts[number], end)


def of_kind(records, places, kind):
    return [at for at in places if records[at][1] == kind]


def class_misfit(records, number):
    at = in_set(records, number)[0]
    held = records[at][2]
    return at, f"the set has {counted(len(held), 'byte')} of classification; a set that fits has none" if held else None


def column_misfit(records, number, column):
    at = of_kind(records, in_set(records, number), COLUMN)[column]
    return at, f"column {column}, counted from 0; a set that fits has at most {MOST_COLUMNS} columns"


def values_for(type_name):
    """The values that go in a column of a type."""
    if type_name in INTEGERS:
        return [type_name, "Null"]
    return [type_name] if type_name == "NVarChar" else [type_name, "NVarCharMaxNull"]


def value_misfit(column, cell):
    """Why a cell does not go in a column; None where it does."""
    type_name, value = type_of(column), value_of(cell)
    if value not in values_for(type_name):
        name, allowed = script.shown_text(column[6:]), " or ".join(values_for(type_name))
        return f"this {value} stands in the column {type_name} {name}, which takes {allowed}"
    if value == "NVarChar" and len(cell) - 1 > MOST_TEXT_BYTES:
        return f"its text has {len(cell) - 1} bytes; an NVarChar that fits has at most {MOST_TEXT_BYTES:,}"
    return None


def cell_misfit(records, number, row, column):
    places = in_set(records, number)
    columns, rows = of_kind(records, places, COLUMN), of_kind(records, places, ROW)
    end = [*rows, places.stop][row + 1]
    cells = of_kind(records, range(rows[row], end), CELL)
    if not columns:
        return rows[row], "the row is in a set without columns"
    if column < len(columns) and column < len(cells):
        return cells[column], value_misfit(records[columns[column]][2], records[cells[column]][2])
    counts = f"the row has {counted(len(cells), 'cell')}, its set has {counted(len(columns), 'column')}"
    return (cells[column] if column < len(cells) else rows[row]), counts


MISFITS = {"class": class_misfit, "column": column_misfit, "cell": cell_misfit}


def misfit(words, records):
    """The record of a misfit, counted from 0, and why it is one; words are those of the program's line."""
    kind, *numbers = words
    return found(lambda: MISFITS[kind](records, *map(int, numbers))) or (None, None)
