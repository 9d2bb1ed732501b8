"""What a text that `show` wrote means: its script's refusal, 11 to 14, whether it fits, the tokens that it emits, and the
line at fault (document 01; the first misfit, document 02).

Reads the lines by itself, and rests on nothing of tools/script.py.
"""
import json
import re

TEXT = re.compile(r'"(?:[^"\\]|\\.)*"')
ITEM = re.compile(TEXT.pattern + "|[^ ]+")
NONE, CUT, KIND_WRONG, SHAPE_WRONG, TEXT_WRONG = 0, 11, 12, 13, 14
KINDS = ("set", "column", "info", "row", "cell", "chunk", "leading error", "terminal error", "trailing info")
AFTER_INFO = {"set", "info", "row", "trailing info"}
AFTER_CELL = {"set", "row", "cell", "trailing info"}
# What may follow a record; a cell that has chunks, and its chunks, are `chunked`.
NEXT = {
    "": {"set"},
    "set": {"column", "leading error", "terminal error"} | AFTER_INFO,
    "column": {"column", "leading error", "terminal error"} | AFTER_INFO,
    "leading error": {"terminal error"} | AFTER_INFO,
    "terminal error": AFTER_INFO,
    "info": AFTER_INFO,
    "row": AFTER_CELL,
    "cell": AFTER_CELL,
    "chunked": {"chunk"} | AFTER_CELL,
    "trailing info": {"trailing info"},
}
CHUNKED = ("NVarCharMax", "VarCharMax", "VarBinaryMax")
# Of each type the code and length that are sent, and whether a collation is.
TYPES = {"TinyInt": ("26", 1, False), "SmallInt": ("26", 2, False), "Int": ("26", 4, False), "BigInt": ("26", 8, False),
         "NVarChar": ("E7", 8000, True), "NVarCharMax": ("E7", 65535, True), "VarCharMax": ("A7", 65535, True),
         "VarBinaryMax": ("A5", 65535, False)}
MOST_COLUMNS, MOST_TEXT = 128, 8_000
# Of each type the value beside its own name that goes with it.
NULLS = {**dict.fromkeys(("TinyInt", "SmallInt", "Int", "BigInt"), "Null"), **dict.fromkeys(CHUNKED, "NVarCharMaxNull")}


def items(line):
    """The record that a line names, and what follows it."""
    words = ITEM.findall(line.strip())
    size = 2 if words[0] in ("leading", "terminal", "trailing") else 1
    return " ".join(words[:size]), words[size:]


def well_formed(words):
    texts = (json.loads(word) for word in words if word.startswith('"'))
    return not any(0xD800 <= ord(character) < 0xE000 for text in texts for character in text)


def line_fault(last, name, words):
    if name == "bytes":
        return CUT
    wrong_shape = name == "record"
    if wrong_shape:
        kind = int(words[0])
        name = KINDS[kind - 1] if 1 <= kind <= len(KINDS) else ""
    if name not in NEXT[last]:
        return KIND_WRONG
    if wrong_shape:
        return SHAPE_WRONG
    return NONE if name == "chunk" or well_formed(words) else TEXT_WRONG


def first_fault(lines):
    """The line, counted from 0, that is at fault for its order, shape or text, and its refusal; None where none is."""
    last = ""
    for at, line in enumerate(lines):
        name, words = items(line)
        fault = line_fault(last, name, words)
        if fault:
            return at, fault
        chunked = name == "chunk" or name == "cell" and words[0] in CHUNKED
        last = "chunked" if chunked else name
    return None, NONE if last else KIND_WRONG


def refusal(lines):
    """The refusal for order, shapes and texts, or none."""
    return first_fault(lines)[1]


def unsent(line):
    """Whether a line is an empty chunk, or has a column's, server's or procedure's name of over 255 units."""
    name, words = items(line)
    if name == "chunk":
        return words[0] in ("-", '""')
    names = words[1:2] if name == "column" else words[4:] if name in ("info", "trailing info") else []
    return any(word.startswith('"') and len(text(word)) // 2 > 255 for word in names)


def first_unsent(lines):
    """The first line, counted from 0, that cannot be sent (15 and 16)."""
    return next(at for at, line in enumerate(lines) if unsent(line))


def places(lines, start, end, name):
    """The lines within start and end, counted from 0, that are records of a name."""
    return [at for at in range(start, end) if items(lines[at])[0] == name]


def misfit_place(lines, misfit):
    """The line, counted from 0, of a misfit: a set, a column, a cell, or a row where the cell is not there."""
    _, kind, number, *rest = misfit.split()
    ends = [*places(lines, 0, len(lines), "set"), len(lines)]
    start, end = ends[int(number)], ends[int(number) + 1]
    if kind == "class":
        return start
    if kind == "column":
        return places(lines, start, end, "column")[int(rest[0])]
    rows = [*places(lines, start, end, "row"), end]
    row = rows[int(rest[0])]
    cells = places(lines, row, rows[int(rest[0]) + 1], "cell")
    has_columns = bool(places(lines, start, end, "column"))
    return cells[int(rest[1])] if has_columns and int(rest[1]) < len(cells) else row


def wrong_cell(types, place, words):
    """Whether a cell, counted from 0 in its row, has no column or is not of its type."""
    if place >= len(types) or words[0] not in (types[place], NULLS.get(types[place])):
        return True
    return words[0] == "NVarChar" and len(text(words[1])) > MOST_TEXT


def fit(lines):
    """What the fit check says of a script that is not refused: read from the top, it ends at the first misfit."""
    records = [items(line) for line in lines]
    names = [name for name, _ in records]
    if "terminal error" in names[:[*names[1:], "set"].index("set") + 1]:
        return "fits"
    number, types, row, cells = -1, [], -1, None
    for name, words in [*records, ("end", [])]:
        if name not in ("cell", "chunk"):
            if cells is not None and cells < len(types):
                return f"misfit cell {number} {row} {cells}"
            cells = None
        if name == "set":
            number, types, row = number + 1, [], -1
            if words:
                return f"misfit class {number}"
        elif name == "column":
            if len(types) == MOST_COLUMNS:
                return f"misfit column {number} {MOST_COLUMNS}"
            types.append(words[0])
        elif name == "row":
            row, cells = row + 1, 0
            if not types:
                return f"misfit cell {number} {row} 0"
        elif name == "cell":
            if wrong_cell(types, cells, words):
                return f"misfit cell {number} {row} {cells}"
            cells += 1
    return "fits"


def digits(held):
    return held.hex().upper() or "-"


def text(word):
    return json.loads(word).encode("utf-16-le", "surrogatepass")


def column_token(words):
    code, length, sent = TYPES[words[0]]
    collation = words[3] if len(words) > 2 else "0904D00034"
    return f"col 0 0000 {code} {length} {collation if sent else '-'} {digits(text(words[1]))}"


def info_token(words):
    fields = {"state": "1", "line": "0", "server": '""', "procedure": '""', **dict(zip(words[4::2], words[5::2]))}
    texts = [digits(text(word)) for word in (words[3], fields["server"], fields["procedure"])]
    return " ".join(["AB", words[0], fields["state"], words[2], fields["line"], *texts])


def error_tokens(words, status):
    return [f"AA {words[0]} 1 {words[2]} 1 {digits(text(words[3]))} - -", f"FD {status} 00C1 0"]


def value_token(words, chunks):
    if words[0] in CHUNKED:
        held = b"".join(text(word) if word.startswith('"') else bytes.fromhex(word) for word in chunks)
        return f"part {digits(held)}"
    if words[0] == "NVarChar":
        return f"part {digits(text(words[1]))}"
    return "null" if len(words) == 1 else f"num {words[1]}"


def row_tokens(records):
    """The tokens of a set's rows: a cell with the chunks after it."""
    for at, (name, words) in enumerate(records):
        if name == "row":
            yield "D1"
        elif name == "cell":
            after = at + 1
            while after < len(records) and records[after][0] == "chunk":
                after += 1
            yield value_token(words, [record[1][0] for record in records[at + 1:after]])


def set_tokens(records, trailing, last):
    columns = [column_token(words) for name, words in records if name == "column"]
    infos = [info_token(words) for name, words in records if name == "info"]
    rows = sum(name == "row" for name, _ in records)
    done = f"FD {'0010' if last else '0011'} 00C1 {rows}"
    return [f"81 {len(columns)}", *columns, *infos, *row_tokens(records), *(trailing if last else []), done]


def tokens(lines):
    """The lines of `answer tokens` for the packet of a script that fits."""
    records = [items(line) for line in lines]
    starts = [at for at, (name, _) in enumerate(records) if name == "set"]
    sets = [records[start:end] for start, end in zip(starts, [*starts[1:], len(records)])]
    first = dict(sets[0])
    if "terminal error" in first:
        return [*error_tokens(first["terminal error"], "0002"), "end"]
    sent = error_tokens(first["leading error"], "0003") if "leading error" in first else []
    trailing = [info_token(words) for name, words in records if name == "trailing info"]
    for at, one in enumerate(sets):
        sent += set_tokens(one, trailing, at == len(sets) - 1)
    return [*sent, "end"]
