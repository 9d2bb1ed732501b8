#!/usr/bin/env python3
r"""Scripts as text: `compose` writes the bytes that a text stands for, `show` the text that bytes stand for, `try` says
what becomes of a text's script.

    tools/script.py compose [FILE]     text in, script on standard output
    tools/script.py show [FILE]        script in, text on standard output
    tools/script.py try [FILE]         text in; refused or not, whether it fits, its reply's tokens in words

Without a FILE, or with - for it, standard input is read. A script is what the programs `reply` and `answer` take
(docs/FORMATS.md says what its bytes are).

The text is UTF-8, a record a line. Empty lines, blanks at a line's start and what comes after a `#` count for nothing.

    set [BYTES]                             a set, with its classification bytes
    column TYPE TEXT [collation HEX]        a column of the set
    leading error NUMBER severity N TEXT
    terminal error NUMBER severity N TEXT
    info NUMBER severity N TEXT [state N] [line N] [server TEXT] [procedure TEXT]
    row
    cell VALUE                              a cell of the row
    chunk TEXT, chunk BYTES                 a chunk of the cell
    trailing info ..                        as info
    record KIND BYTES                       a record of any kind, 0 to 65535, with any payload
    bytes BYTES                             bytes of no record

  TYPE   TinyInt, SmallInt, Int, BigInt, NVarChar, NVarCharMax, VarCharMax, VarBinaryMax
  VALUE  TinyInt N, SmallInt N, Int N, BigInt N, NVarChar TEXT; with chunks NVarCharMax, VarCharMax, VarBinaryMax;
         NVarCharMaxNull, Null
  TEXT   UTF-16 units in quotes: "A1", with JSON's escapes \" \\ \/ \b \f \n \r \t and \uD83D, which is one unit, a lone
         surrogate too; "A"*300 is a text 300 times
  BYTES  groups of hexadecimal digits, 00FF 07*3 (a group three times), or - for none; HEX is one group
  N      a decimal number within its field

Fields in brackets may be left out and stand in any order. A collation that is left out is 0904D00034, a state 1, a line
0, a server or procedure empty, as the Rust's constructors have them.

`compose` asks for no order of records, so that a script that is refused can be written too. What it cannot read it
names as `FILE:LINE: what is wrong`, each line at fault; then it writes nothing and its exit status is 1.

`show` writes one form of each script: a line a record, fields in the order above, left out where they hold what a field
left out is. A kind that is not known, or a payload that has not its kind's shape, is a line `record`; a record that is
cut is a line `bytes`. A chunk of a cell NVarCharMax is a text, another one bytes. Characters that do not print are
escaped. What `show` writes, `compose` turns into the same bytes again, whatever they are.

`try` asks target/bin/answer, which `tools/build reply answer` makes, and prints its answers in words: the refusal or the
misfit with the line of the text at fault, the reply's length, and its tokens. Its exit status is 0 where the script is
accepted, fits, and its reply is read to the end, else 1. To try a script's bytes, show them first:
tools/script.py show FILE | tools/script.py try
"""
import json
import re
import signal
import struct
import sys

# The names and the order of `SqlDataType` and of `ColumnValue`: a type byte or value byte is the place, from 1 on.
TYPES = ("TinyInt", "SmallInt", "Int", "BigInt", "NVarChar", "NVarCharMax", "VarCharMax", "VarBinaryMax")
VALUES = ("TinyInt", "SmallInt", "Int", "BigInt", "NVarChar", "NVarCharMax", "NVarCharMaxNull", "VarCharMax",
          "VarBinaryMax", "Null")
WIDTHS = {"TinyInt": 1, "SmallInt": 2, "Int": 4, "BigInt": 8}
SET, COLUMN, INFO, ROW, CELL, CHUNK, LEADING_ERROR, TERMINAL_ERROR, TRAILING_INFO = range(1, 10)
KINDS = {"set": SET, "column": COLUMN, "leading error": LEADING_ERROR, "terminal error": TERMINAL_ERROR, "info": INFO,
         "row": ROW, "cell": CELL, "chunk": CHUNK, "trailing info": TRAILING_INFO}
HEAD = struct.Struct("<IH")
INFO_NUMBERS = struct.Struct("<IBBI3H")
ERROR_NUMBERS = struct.Struct("<IB")
DEFAULT_COLLATION = bytes.fromhex("0904D00034")
DEFAULT_STATE, DEFAULT_LINE = 1, 0
MOST_UNITS = 0xFFFF
MOST_TIMES = 65_536
MOST_NAMED = 40
CALLS = ("compose", "show", "try")
FIRST_CHARACTERS = b"\t\n\r" + bytes(range(0x20, 0x7F))

# A line's items: a text in quotes, its times after it; a word. A gap or a comment is none.
ITEM = re.compile(r'''(?P<gap> [ \t\r]+ | \#.*)
    | (?P<text> "(?:[^"\\]|\\.)*" (?:\*[^ \t\r"\#]*)?)
    | (?P<word> [^ \t\r"\#]+)
    | (?P<open> ".*)''', re.S | re.X)
ESCAPE = re.compile(r'\\(?:["\\/bfnrt]|u[0-9A-Fa-f]{4})')
HEX = re.compile(r"[0-9A-Fa-f]+")
NUMBER = re.compile(r"-?[0-9]+")
SHORT_ESCAPES = {'"': '\\"', "\\": "\\\\", "\n": "\\n", "\r": "\\r", "\t": "\\t"}
INDENTS = {COLUMN: 2, INFO: 2, ROW: 2, LEADING_ERROR: 2, TERMINAL_ERROR: 2, CELL: 4, CHUNK: 6}


class Fault(Exception):
    """What is wrong about a line."""


def named(item):
    """An item as a message names it: not longer than a line, and with what does not print escaped."""
    item = item if len(item) <= MOST_NAMED else item[:MOST_NAMED] + ".."
    item = "".join(each if each.isprintable() else escaped(each) for each in item)
    return item if item.startswith('"') else f"'{item}'"


def escaped(character):
    units = character.encode("utf-16-le", "surrogatepass")
    return "".join(f"\\u{unit:04X}" for unit, in struct.iter_unpack("<H", units))


def number_of(word, what, low, high):
    if not NUMBER.fullmatch(word):
        raise Fault(f"{what}: {named(word)} is not a decimal number")
    digits = word.lstrip("-").lstrip("0") or "0"
    value = int(digits[:20]) * (-1 if word.startswith("-") else 1)
    if len(digits) > 20 or not low <= value <= high:
        raise Fault(f"{what}: {named(word)} is not within {low} to {high}")
    return value


def times_of(word):
    return number_of(word, "times", 0, MOST_TIMES)


def text_of(item):
    """The bytes of a text in quotes."""
    end = item.rindex('"') + 1
    quoted, times = item[:end], item[end + 1:]
    rest = ESCAPE.sub("", quoted)
    if "\\" in rest:
        at = rest.index("\\")
        raise Fault(f"{named(rest[at:at + 2])} starts no escape; escapes are \\\" \\\\ \\/ \\b \\f \\n \\r \\t \\uXXXX")
    units = json.loads(quoted, strict=False).encode("utf-16-le", "surrogatepass")
    return units * times_of(times) if end < len(item) else units


def group_of(word):
    """The bytes of a group of hexadecimal digits."""
    digits, star, times = word.partition("*")
    if not HEX.fullmatch(digits):
        raise Fault(f"{named(word)} is not hexadecimal")
    if len(digits) % 2:
        raise Fault(f"{named(word)} has an odd number of digits")
    return bytes.fromhex(digits) * (times_of(times) if star else 1)


class Line:
    """A line's items, taken one by one."""

    def __init__(self, line):
        self.items = []
        for found in ITEM.finditer(line):
            if found.lastgroup == "open":
                raise Fault("a text without its closing quote")
            if found.lastgroup != "gap":
                self.items.append((found.lastgroup, found.group()))
                if line[found.end():found.end() + 1] not in ("", " ", "\t", "\r", "#"):
                    raise Fault(f"a blank is missing after {named(found.group())}")
        self.items.reverse()

    def more(self):
        return bool(self.items)

    def take(self, form, what):
        """The next item, of a form, which is `word` or `text`."""
        if not self.items:
            raise Fault(f"{what} is missing")
        found, item = self.items.pop()
        if found != form:
            raise Fault(f"{what} is missing before {named(item)}")
        return item

    def word(self, what):
        return self.take("word", what)

    def text(self, what):
        return text_of(self.take("text", f"the {what} in quotes"))

    def counted_text(self, what):
        """A text whose units are counted in two bytes."""
        text = self.text(what)
        if len(text) // 2 > MOST_UNITS:
            raise Fault(f"{what}: {len(text) // 2} units are not within 0 to {MOST_UNITS}")
        return text

    def number(self, what, width, signed=False):
        return number_of(self.word(f"the {what}"), what, *bounds(width, signed))

    def named_number(self, name, width):
        """A number after its name."""
        word = self.word(f"the word {name}")
        if word != name:
            raise Fault(f"the word {name} is missing before {named(word)}")
        return self.number(name, width)

    def choice(self, what, names):
        """The place, from 1 on, of one of some names."""
        word = self.word(f"a {what}")
        if word not in names:
            raise Fault(f"{named(word)} is no {what}; there are " + ", ".join(names))
        return names.index(word) + 1

    def bytes(self):
        """All groups that are left, or - for none."""
        words = [self.word("a hexadecimal group")]
        while self.more():
            words.append(self.word("a hexadecimal group"))
        return b"" if words == ["-"] else b"".join(group_of(word) for word in words)

    def fields(self, readers):
        """Fields that may be left out, by their names."""
        found = {}
        while self.more():
            name = self.word("a field")
            if name not in readers:
                raise Fault(f"{named(name)} is no field here; there are " + ", ".join(readers))
            if name in found:
                raise Fault(f"{name} stands twice")
            found[name] = readers[name]()
        return found

    def end(self):
        if self.more():
            raise Fault(f"more than the record holds: {named(self.items[-1][1])}")


def bounds(width, signed):
    half = 1 << (8 * width - 1)
    return (-half, half - 1) if signed else (0, 2 * half - 1)


def set_payload(line):
    return line.bytes() if line.more() else b""


def collation(line):
    found = group_of(line.word("the collation"))
    if len(found) != len(DEFAULT_COLLATION):
        raise Fault(f"collation: {named(shown_bytes(found))} is not {len(DEFAULT_COLLATION)} bytes")
    return found


def column_payload(line):
    type_byte, name = line.choice("type", TYPES), line.text("name")
    fields = line.fields({"collation": lambda: collation(line)})
    return bytes([type_byte]) + fields.get("collation", DEFAULT_COLLATION) + name


def info_payload(line):
    number, severity, message = line.number("number", 4), line.named_number("severity", 1), line.counted_text("message")
    fields = line.fields({
        "state": lambda: line.number("state", 1),
        "line": lambda: line.number("line", 4),
        "server": lambda: line.counted_text("server"),
        "procedure": lambda: line.counted_text("procedure"),
    })
    state, line_number = fields.get("state", DEFAULT_STATE), fields.get("line", DEFAULT_LINE)
    texts = [message, fields.get("server", b""), fields.get("procedure", b"")]
    counts = [len(text) // 2 for text in texts]
    return INFO_NUMBERS.pack(number, state, severity, line_number, *counts) + b"".join(texts)


def error_payload(line):
    number, severity = line.number("number", 4), line.named_number("severity", 1)
    return ERROR_NUMBERS.pack(number, severity) + line.text("text")


def row_payload(line):
    return b""


def cell_payload(line):
    value = line.choice("value", VALUES)
    name = VALUES[value - 1]
    if name in WIDTHS:
        signed = name != "TinyInt"
        return bytes([value]) + line.number(name, WIDTHS[name], signed).to_bytes(WIDTHS[name], "little", signed=signed)
    return bytes([value]) + (line.text("text") if name == "NVarChar" else b"")


def chunk_payload(line):
    if line.more() and line.items[-1][0] == "text":
        return line.text("text")
    return line.bytes()


PAYLOADS = {SET: set_payload, COLUMN: column_payload, INFO: info_payload, ROW: row_payload, CELL: cell_payload,
            CHUNK: chunk_payload, LEADING_ERROR: error_payload, TERMINAL_ERROR: error_payload,
            TRAILING_INFO: info_payload}


def kind_of(line):
    """The kind that a line's first words name."""
    words = line.word("a record")
    if words in ("leading", "terminal", "trailing"):
        words += " " + line.word("the word info" if words == "trailing" else "the word error")
    if words not in KINDS:
        raise Fault(f"{named(words)} is no record; there are " + ", ".join([*KINDS, "record", "bytes"]))
    return KINDS[words]


def record(kind, payload):
    return HEAD.pack(len(payload), kind) + payload


def composed_line(text):
    """The bytes that a line stands for."""
    line = Line(text)
    if not line.more():
        return b""
    form, first = line.items[-1]
    if form == "word" and first in ("record", "bytes"):
        line.word(first)
        return record(line.number("kind", 2), line.bytes()) if first == "record" else line.bytes()
    kind = kind_of(line)
    payload = PAYLOADS[kind](line)
    line.end()
    return record(kind, payload)


def lines_of(text):
    """The lines of a text in UTF-8, as bytes."""
    return text.removeprefix(b"\xEF\xBB\xBF").split(b"\n")


def composed_lines(text):
    """The bytes of each line of a text, and what is wrong, each as a line's number and a sentence."""
    composed, faults = [], []
    for number, line in enumerate(lines_of(text), 1):
        try:
            composed.append(composed_line(line.decode()))
        except UnicodeDecodeError:
            faults.append((number, "not UTF-8"))
        except Fault as fault:
            faults.append((number, str(fault)))
    return composed, faults


def compose(text):
    """The script of a text, both bytes, and what is wrong, each as a line's number and a sentence."""
    composed, faults = composed_lines(text)
    return b"".join(composed), faults


def utf16_form(given):
    """The form of UTF-16 that bytes begin in, by its mark or by a first character of ASCII; None of others."""
    if given[:2] in (b"\xFF\xFE", b"\xFE\xFF"):
        return "UTF-16"
    if given[2:4] == b"\0\0" or len(given) < 2:
        return None
    if given[1] == 0:
        return "UTF-16LE" if given[0] in FIRST_CHARACTERS else None
    return "UTF-16BE" if given[0] == 0 and given[1] in FIRST_CHARACTERS else None


def not_a_text(given):
    """What is said of bytes that are UTF-16 or a script's and no text in UTF-8; None of others."""
    form = utf16_form(given)
    if form:
        return f"the text is {form} and has to be UTF-8; this converts it: iconv -f {form} -t UTF-8"
    if 0 in given[:2]:
        return "bytes and not a text; `tools/script.py show` writes the text of a script's bytes"
    return None


def shown_bytes(held):
    return held.hex().upper() or "-"


def shown_character(character):
    if character in SHORT_ESCAPES:
        return SHORT_ESCAPES[character]
    return character if character.isprintable() else escaped(character)


def shown_text(units):
    return '"' + "".join(map(shown_character, units.decode("utf-16-le", "surrogatepass"))) + '"'


def shown_set(payload):
    return [shown_bytes(payload)] if payload else []


def shown_column(payload):
    if len(payload) < 6 or len(payload) % 2 or not 1 <= payload[0] <= len(TYPES):
        return None
    words = [TYPES[payload[0] - 1], shown_text(payload[6:])]
    return words if payload[1:6] == DEFAULT_COLLATION else [*words, "collation", shown_bytes(payload[1:6])]


def shown_info(payload):
    if len(payload) < INFO_NUMBERS.size:
        return None
    number, state, severity, line, *counts = INFO_NUMBERS.unpack_from(payload)
    if len(payload) != INFO_NUMBERS.size + 2 * sum(counts):
        return None
    server = INFO_NUMBERS.size + 2 * counts[0]
    procedure = server + 2 * counts[1]
    fields = [("state", str(state), str(DEFAULT_STATE)), ("line", str(line), str(DEFAULT_LINE)),
              ("server", shown_text(payload[server:procedure]), '""'),
              ("procedure", shown_text(payload[procedure:]), '""')]
    words = [str(number), "severity", str(severity), shown_text(payload[INFO_NUMBERS.size:server])]
    for name, held, left_out in fields:
        words += [name, held] if held != left_out else []
    return words


def shown_error(payload):
    if len(payload) < ERROR_NUMBERS.size or len(payload) % 2 == 0:
        return None
    number, severity = ERROR_NUMBERS.unpack_from(payload)
    return [str(number), "severity", str(severity), shown_text(payload[ERROR_NUMBERS.size:])]


def shown_row(payload):
    return [] if not payload else None


def shown_cell(payload):
    if not payload or not 1 <= payload[0] <= len(VALUES):
        return None
    name, rest = VALUES[payload[0] - 1], payload[1:]
    if name in WIDTHS:
        number = int.from_bytes(rest, "little", signed=name != "TinyInt")
        return [name, str(number)] if len(rest) == WIDTHS[name] else None
    if name == "NVarChar":
        return [name, shown_text(rest)] if len(rest) % 2 == 0 else None
    return [name] if not rest else None


def shown_text_chunk(payload):
    return [shown_text(payload)] if len(payload) % 2 == 0 else None


def shown_chunk(payload):
    return [shown_bytes(payload)]


SHOWN = {SET: shown_set, COLUMN: shown_column, INFO: shown_info, ROW: shown_row, CELL: shown_cell, CHUNK: shown_chunk,
         LEADING_ERROR: shown_error, TERMINAL_ERROR: shown_error, TRAILING_INFO: shown_info}
NAMES = {kind: name for name, kind in KINDS.items()}
TEXT_CELL = bytes([VALUES.index("NVarCharMax") + 1])


def shown_record(kind, payload, of_text):
    """A record's line; of_text says whether it follows a cell whose chunks are texts."""
    shower = shown_text_chunk if kind == CHUNK and of_text else SHOWN.get(kind)
    words = shower(payload) if shower else None
    if words is None:
        return f"record {kind} {shown_bytes(payload)}"
    return " " * INDENTS.get(kind, 0) + " ".join([NAMES[kind], *words])


def records(script):
    """The records of any bytes: of each its start, kind and payload; of one that is cut the kind None and its bytes."""
    at = 0
    while at < len(script):
        length, kind = HEAD.unpack_from(script, at) if len(script) - at >= HEAD.size else (len(script), 0)
        start = at + HEAD.size
        if len(script) - start < length:
            yield at, None, script[at:]
            return
        yield at, kind, script[start:start + length]
        at = start + length


def show(script):
    """The text of any bytes, as lines."""
    of_text = False
    for _, kind, payload in records(script):
        of_text = of_text if kind == CHUNK else (kind, payload) == (CELL, TEXT_CELL)
        yield f"bytes {shown_bytes(payload)}" if kind is None else shown_record(kind, payload, of_text)


def read(name):
    if name == "-":
        return sys.stdin.buffer.read()
    with open(name, "rb") as file:
        return file.read()


def composed(given, name):
    """The lines of a text with their bytes, or None where it cannot be read; what is wrong is said."""
    wrong = not_a_text(given)
    if wrong:
        print(f"{name}: {wrong}", file=sys.stderr)
        return None
    lines, faults = composed_lines(given)
    for number, fault in faults:
        print(f"{name}:{number}: {fault}", file=sys.stderr)
    return None if faults else lines


def answered(call, given, name):
    """The exit status of a call on what it is given."""
    if call == "show":
        sys.stdout.buffer.write("".join(line + "\n" for line in show(given)).encode())
        return 0
    lines = composed(given, name)
    if lines is None:
        return 1
    if call == "compose":
        sys.stdout.buffer.write(b"".join(lines))
        return 0
    import trying
    return trying.main(name, lines_of(given), lines)


def main(arguments):
    if "-h" in arguments or "--help" in arguments:
        print(__doc__.strip())
        return 0
    if not arguments or arguments[0] not in CALLS or len(arguments) > 2:
        print(f"usage: tools/script.py {'|'.join(CALLS)} [FILE], or --help", file=sys.stderr)
        return 2
    call, name = arguments[0], arguments[1] if len(arguments) == 2 else "-"
    try:
        given = read(name)
    except OSError as error:
        print(f"{name}: {error.strerror}", file=sys.stderr)
        return 1
    return answered(call, given, "standard input" if name == "-" else name)


if __name__ == "__main__":
    signal.signal(signal.SIGPIPE, signal.SIG_DFL)
    sys.dont_write_bytecode = True
    sys.exit(main(sys.argv[1:]))
