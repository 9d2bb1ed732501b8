"""Scripts that fit, and the tokens that they emit, from document 01 ('The script', 'What a script emits') and the status
of a set's DONE from document 02, 2026-03.

A token is a tuple: ('columns', count); ('column', user type, flags, code, length, collation, name); ('error' or
'info', number, state, severity, message, server, procedure, line); ('row', values); ('done', status, command,
count). Texts, collations and the values that are no integers are bytes; a null is None.
"""
import struct

SET, COLUMN, INFO, ROW, CELL, CHUNK, LEADING, TERMINAL, TRAILING = range(1, 10)
# Type byte: the code and length that are sent.
TYPES = {1: (0x26, 1), 2: (0x26, 2), 3: (0x26, 4), 4: (0x26, 8),
         5: (0xE7, 8000), 6: (0xE7, 0xFFFF), 7: (0xA7, 0xFFFF), 8: (0xA5, 0xFFFF)}
MAX_VALUES = {6: 6, 7: 8, 8: 9}
MAX_NULL, NULL = 7, 10
WITH_COLLATION = (5, 6, 7)
# Latin1_General: texts of one byte a character are read by it.
LATIN = bytes([0x09, 0x04, 0xD0, 0x00, 0x34])
SELECT = 0x00C1
# The status of a set's DONE: bit 0010, its row count is valid, and bit 0001 where a set follows.
LAST, MORE = 0x0010, 0x0011
# The database that a client asks for; pymssql takes ASCII alone.
DATABASE = "station 7"
# The last two are surrogate pairs.
LETTERS = "abcXYZ 019_-é€Ωж中あ😀𝄞"


def record(kind, payload=b""):
    return struct.pack("<IH", len(payload), kind) + payload


def text(source, most):
    return "".join(source.choice(LETTERS) for _ in range(source.randint(0, most))).encode("utf-16-le")


class Script:
    """Records, and the tokens that they emit."""

    def __init__(self, source):
        self.source, self.records, self.tokens, self.alone = source, [], [], None

    def bytes(self):
        return b"".join(self.records)

    def put(self, kind, payload=b""):
        self.records.append(record(kind, payload))

    def severity(self, _):
        """The severity of an 'info' or an 'error': any."""
        return self.source.getrandbits(8)

    def chunk(self, held, unit):
        """The length of the next chunk of a value of which this is left."""
        return unit * self.source.choice((1, 2, 7, len(held)))

    def info(self, kind):
        source = self.source
        number, line = source.getrandbits(32), source.getrandbits(32)
        state, severity = source.getrandbits(8), self.severity("info")
        texts = [text(source, most) for most in (30, 8, 8)]
        counts = [len(each) // 2 for each in texts]
        self.put(kind, struct.pack("<IBBI3H", number, state, severity, line, *counts) + b"".join(texts))
        self.tokens.append(("info", number, state, severity, *texts, line))

    def error(self, kind, status):
        """Puts an error; answers the tokens that it is where it is sent."""
        number, severity = self.source.getrandbits(32), self.severity("error")
        said = text(self.source, 40)
        self.put(kind, struct.pack("<IB", number, severity) + said)
        return [("error", number, 1, severity, said, b"", b"", 1), ("done", status, SELECT, 0)]

    def column(self, type_byte):
        drawn = struct.pack("<IB", self.source.getrandbits(32) & ~0x0C000000, self.source.getrandbits(8))
        collation = LATIN if type_byte == 7 else drawn
        name = text(self.source, 10)
        self.put(COLUMN, bytes([type_byte]) + collation + name)
        sent = collation if type_byte in WITH_COLLATION else b""
        self.tokens.append(("column", 0, 0, *TYPES[type_byte], sent, name))

    def cell(self, type_byte):
        if type_byte <= 4:
            return self.integer(type_byte)
        if type_byte == 5:
            held = text(self.source, self.source.choice((0, 8, 300)))
            self.put(CELL, b"\5" + held)
            return held
        return self.long_value(type_byte)

    def integer(self, type_byte):
        if self.source.random() < 0.2:
            self.put(CELL, bytes([NULL]))
            return None
        width = TYPES[type_byte][1]
        half = 1 << (8 * width - 1)
        low, high = (0, 255) if width == 1 else (-half, half - 1)
        drawn = [self.source.randint(low, high) for _ in range(2)]
        value = self.source.choice((low, high, -1 if low else 128, *drawn))
        self.put(CELL, bytes([type_byte]) + value.to_bytes(width, "little", signed=width > 1))
        return value

    def long_value(self, type_byte):
        source = self.source
        if source.random() < 0.2:
            self.put(CELL, bytes([MAX_NULL]))
            return None
        self.put(CELL, bytes([MAX_VALUES[type_byte]]))
        if type_byte == 6:
            held = text(source, source.choice((0, 20, 400)))
        elif type_byte == 7:
            held = "".join(source.choice("abc XYZ019é€ü") for _ in range(source.choice((0, 20, 400)))).encode("cp1252")
        else:
            held = source.randbytes(source.choice((0, 1, 20, 400)))
        self.chunks(held, 2 if type_byte == 6 else 1)
        return held

    def chunks(self, held, unit):
        at = 0
        while at < len(held):
            size = self.chunk(held[at:], unit)
            self.put(CHUNK, held[at:at + size])
            at += size

    def set(self, first, last, terminal):
        source = self.source
        self.put(SET)
        most = source.choice((0, 1, 3, 8, 8, 128))
        types = [source.randint(1, 8) for _ in range(most if most == 128 else source.randint(0, most))]
        start = len(self.tokens)
        self.tokens.append(("columns", len(types)))
        for type_byte in types:
            self.column(type_byte)
        self.errors(first, terminal, start)
        for _ in range(source.choice((0, 0, 1, 2))):
            self.info(INFO)
        rows = source.choice((0, 1, 2, 5)) if types else 0
        self.rows(types, min(rows, 1) if most == 128 else rows)
        if last:
            for _ in range(source.choice((0, 0, 1, 3))):
                self.info(TRAILING)
        count = sum(token[0] == "row" for token in self.tokens[start:])
        self.tokens.append(("done", LAST if last else MORE, SELECT, count))

    def rows(self, types, count):
        for _ in range(count):
            self.put(ROW)
            self.tokens.append(("row", *(self.cell(type_byte) for type_byte in types)))

    def errors(self, first, terminal, start):
        """Errors stand after the columns. The first set's are sent: a leading one before it, a terminal one alone."""
        if self.source.random() < 0.3:
            sent = self.error(LEADING, 0x0003)
            if first:
                self.tokens[start:start] = sent
        if terminal or (not first and self.source.random() < 0.2):
            sent = self.error(TERMINAL, 0x0002)
            if first:
                self.alone = sent


def random_script(source, kind=Script):
    """A script that fits, and its tokens."""
    script = kind(source)
    terminal, sets = source.random() < 0.1, source.choice((1, 1, 2, 4))
    for i in range(sets):
        script.set(i == 0, i == sets - 1, terminal and i == 0)
    return script.bytes(), script.alone or script.tokens


def value(code, held):
    """A cell's value as a client hands it out: texts decoded."""
    if held is None or code in (0x26, 0xA5):
        return held
    return held.decode("cp1252" if code == 0xA7 else "utf-16-le")


def sets(tokens):
    """The sets among tokens: names and codes of the columns, and rows of values."""
    columns = None
    for token in tokens:
        if token[0] == "columns":
            columns, rows = [], []
        elif token[0] == "column":
            columns.append((token[6].decode("utf-16-le"), token[3]))
        elif token[0] == "row":
            rows.append(tuple(value(code, held) for (_, code), held in zip(columns, token[1:])))
        elif token[0] == "done" and columns is not None:
            yield columns, rows


def long_scripts():
    """Scripts of long values: a text of 8,000 bytes, Max values of up to 20,000, and 255 units of each name."""
    name = "n" * 255
    wide = name.encode("utf-16-le")
    text_column = record(COLUMN, b"\5" + LATIN + wide)
    said = "m".encode("utf-16-le") * 2000
    note = record(INFO, struct.pack("<IBBI3H", 1, 2, 3, 4, 2000, 255, 255) + said + wide + wide)
    held = "é中".encode("utf-16-le") * 2000
    script = record(SET) + text_column + note + record(ROW) + record(CELL, b"\5" + held)
    start = ("columns", 1), ("column", 0, 0, 0xE7, 8000, LATIN, wide), ("info", 1, 2, 3, said, wide, wide, 4)
    yield script, [*start, ("row", held), ("done", LAST, SELECT, 1)]
    for type_byte, unit in ((6, b"x\0"), (7, b"x"), (8, b"\xFF")):
        held = unit * 10000
        collation = LATIN if type_byte in WITH_COLLATION else b""
        script = record(SET) + record(COLUMN, bytes([type_byte]) + LATIN) + record(ROW)
        script += record(CELL, bytes([MAX_VALUES[type_byte]])) + record(CHUNK, held) + record(CHUNK, unit)
        column = ("column", 0, 0, *TYPES[type_byte], collation, b"")
        yield script, [("columns", 1), column, ("row", held + unit), ("done", LAST, SELECT, 1)]


def named_scripts():
    """Scripts whose columns have names with surrogate pairs: one pair, 255 units of which the last two are a pair, 127
    pairs and a unit; and one of all three."""
    names = [each.encode("utf-16-le") for each in ("😀", "n" * 253 + "𝄞", "😀" * 127 + "n")]
    for held in names[:1], names[1:2], names[2:], names:
        yield named_script(held)


def named_script(names):
    """A set of two rows and a set of one, each with a column Int for each name."""
    columns = [("columns", len(names)), *(("column", 0, 0, *TYPES[3], b"", name) for name in names)]
    script, tokens = b"", []
    for rows, status in (2, MORE), (1, LAST):
        values = [range(row, row + len(names)) for row in range(rows)]
        cells = [b"".join(record(CELL, struct.pack("<Bi", 3, value)) for value in row) for row in values]
        script += record(SET) + b"".join(record(COLUMN, b"\3" + LATIN + name) for name in names)
        script += b"".join(record(ROW) + each for each in cells)
        tokens += [*columns, *(("row", *row) for row in values), ("done", status, SELECT, rows)]
    return script, tokens


def longest_scripts():
    """Scripts whose replies have 65,535 bytes: one of a lone value, and one of as many rows as there can be."""
    held, rows = b"x" * 65_484, 21_834
    column = ("column", 0, 0, *TYPES[8], b"", b"")
    script = record(SET) + record(COLUMN, b"\x08" + LATIN) + record(ROW) + record(CELL, b"\x09") + record(CHUNK, held)
    yield script, [("columns", 1), column, ("row", held), ("done", LAST, SELECT, 1)]
    column = ("column", 0, 0, *TYPES[1], b"", b"")
    script = record(SET) + record(COLUMN, b"\x01" + LATIN) + (record(ROW) + record(CELL, b"\x01\x07")) * rows
    yield script, [("columns", 1), column, *[("row", 7)] * rows, ("done", LAST, SELECT, rows)]
