"""The lines of `answer tokens` in words: texts as letters, types and statuses by their names.

    81 1                               COLMETADATA: 1 column
    col 0 0000 26 4 - 6E00               column Int "n"
    D1                                 ROW
    num 7                                cell Int 7
    FD 0010 00C1 1                     DONE: status 0010, final, row count valid; 1 row
"""
import script
from reasons import cause, counted

TYPES = {("26", 1): "TinyInt", ("26", 2): "SmallInt", ("26", 4): "Int", ("26", 8): "BigInt", ("E7", 8000): "NVarChar",
         ("E7", 65535): "NVarCharMax", ("A7", 65535): "VarCharMax", ("A5", 65535): "VarBinaryMax"}
MORE, ERROR, COUNT = 0x0001, 0x0002, 0x0010
KNOWN = MORE | ERROR | COUNT
COMMAND = "00C1"
# A longer value is cut here.
MOST_SHOWN = 200


def held(digits):
    return b"" if digits == "-" else bytes.fromhex(digits)


def text(units):
    """A text in letters, cut where it is long."""
    shown = script.shown_text(units[:2 * MOST_SHOWN])
    return shown if len(units) <= 2 * MOST_SHOWN else f"{shown}.. ({len(units) // 2} units)"


def data(part):
    """Bytes in hexadecimal, cut where they are many."""
    shown = script.shown_bytes(part[:MOST_SHOWN])
    return shown if len(part) <= MOST_SHOWN else f"{shown}.. ({len(part)} bytes)"


def in_letters(part):
    """The letters of a VarCharMax, where all its bytes are printing ASCII."""
    ascii_only = part and all(0x20 <= byte < 0x7F for byte in part)
    return f" {text(part.decode().encode('utf-16-le'))}" if ascii_only else ""


def type_name(code, length):
    return TYPES.get((code, length), f"{'NVarChar' if code == 'E7' else 'type ' + code} of {length} bytes")


def message_words(name, words):
    number, state, severity, line = words[:4]
    texts = zip(("message", "server", "procedure"), map(held, words[4:]))
    shown = [f"{what} {text(units)}" for what, units in texts if units or what == "message"]
    return f"{name} {number}: " + ", ".join([f"state {state}, severity {severity}, line {line}", *shown])


def done_words(status, command, count):
    bits = int(status, 16)
    words = ["error"] if bits & ERROR else []
    words.append("more follows" if bits & MORE else "final")
    words += ["row count valid"] if bits & COUNT else []
    words += [f"other bits {bits & ~KNOWN:04X}"] if bits & ~KNOWN else []
    words += [f"command {command}"] if command != COMMAND else []
    return f"DONE: status {status}, {', '.join(words)}; {counted(int(count), 'row')}"


class Reader:
    """Puts token lines into words; the types of the set's columns tell what its cells hold."""

    def __init__(self):
        self.columns, self.cell = [], 0

    def column(self, words):
        user, flags, code, length, collation, name = words
        self.columns.append(type_name(code, int(length)))
        others = [] if user == "0" else [f"user type {user}"]
        others += [] if flags == "0000" else [f"flags {flags}"]
        others += [] if collation == "-" else [f"collation {collation}"]
        return " ".join(["  column", self.columns[-1], text(held(name)), *others])

    def value(self, form, words):
        kind = self.columns[self.cell]
        self.cell += 1
        if form == "null":
            return f"  cell {kind} null"
        if form == "num":
            return f"  cell {kind} {words[0]}"
        part = held(words[0])
        if kind.startswith("NVarChar"):
            return f"  cell {kind} {text(part)}"
        return f"  cell {kind} {data(part)}" + (in_letters(part) if kind == "VarCharMax" else "")

    def words(self, line):
        form, *words = line.split(" ")
        if form == "81":
            self.columns = []
            return f"COLMETADATA: {counted(int(words[0]), 'column')}"
        if form == "col":
            return self.column(words)
        if form == "D1":
            self.cell = 0
            return "ROW"
        if form in ("num", "part", "null"):
            return self.value(form, words)
        if form in ("AA", "AB"):
            return message_words("ERROR" if form == "AA" else "INFO", words)
        return done_words(*words)


def of(lines):
    """Token lines, without the last one, in words."""
    reader = Reader()
    return [reader.words(line) for line in lines]


def last(line):
    """The last line, which is `end` or `refused N`, in words."""
    form, *words = line.split(" ")
    if form == "end":
        return "end: the packet ends after its last DONE"
    return f"the rest cannot be read: {line}: {cause(int(words[0]))}"
