"""A second reader of RPC requests, written from MS-TDS (2.2.6.6 RPC Request, 2.2.5.6 TYPE_INFO, TYPE_VARBYTE and PLP_BODY)
and requests 2026-01 and 2026-05 of document 02, apart from the proved one. `Call(body).lines(number)` is what `answer rpc` must write.

A body is read once, whatever parameter is asked for. Each fault is noted as (byte at fault, number), and the reading goes on
where it can: the least of what was noted is the answer, which is 'the earliest byte at fault, then this order'. A field that
the body ends in is at fault at the body's end.
"""
HEAD, PARAMETER, UNREAD, TOO_SMALL = 29, 30, 31, 35
OWN_LENGTH = 4  # the bytes of the headers' length, which it counts
ENCRYPTED = 0x08
BY_NUMBER, EXECUTE_SQL = 0xFFFF, 10
NEXT_CALLS = (0xFE, 0xFF)  # NoExecFlag and BatchFlag, where a parameter's name would begin
INTN, BIGVARBIN, BIGVARCHAR, NVARCHAR = 0x26, 0xA5, 0xA7, 0xE7
MAX = 0xFFFF
# A type code: the bytes of its length, the lengths that are read, the bytes of its collation, and of its units.
TYPES = {
    INTN: (1, {1, 2, 4, 8}, 0, 1),
    NVARCHAR: (2, {*range(1, 8001), MAX}, 5, 2),
    BIGVARCHAR: (2, {MAX}, 5, 1),
    BIGVARBIN: (2, {MAX}, 0, 1),
}
NULL_TEXT, NULL_TOTAL, UNKNOWN_TOTAL = 0xFFFF, 2**64 - 1, 2**64 - 2


class Lost(Exception):
    """A fault after which no further field can be told."""


def hexadecimal(held):
    return held.hex().upper() or "-"


class Call:
    """A call: its procedure's line, its flags, a line for each parameter with that of its value, and its faults."""

    def __init__(self, body):
        self.body, self.at = body, 0
        self.faults, self.parameters, self.values = [], [], []
        self.procedure = self.flags = self.number = None
        try:
            self.read_head()
            while self.at < len(body):
                self.read_parameter()
        except Lost:
            pass
        if self.number == EXECUTE_SQL and not self.values:
            self.note(len(body), PARAMETER)

    def lines(self, number):
        """The answer where the parameter of this number is asked for."""
        if self.faults:
            return [f"refused {min(self.faults)[1]}"]
        out = [self.procedure, f"flags {self.flags:04X}"]
        if self.number == EXECUTE_SQL:
            start, end = self.values[0]
            out.append(f"statement {self.shown(start, end)}")
        return out + (self.parameters[number] if number < len(self.parameters) else ["param none"])

    def note(self, place, number):
        self.faults.append((place, number))

    def lost(self, place, number):
        self.note(place, number)
        raise Lost

    def shown(self, start, end):
        return f"{start} {end - start} {hexadecimal(self.body[start:end])}"

    def part(self, size, cut):
        """Start and end of the next bytes; `cut` is the number where the body ends in them."""
        start, end = self.at, self.at + size
        if end > len(self.body):
            self.lost(len(self.body), cut)
        self.at = end
        return start, end

    def integer(self, size, cut=PARAMETER):
        start, end = self.part(size, cut)
        return int.from_bytes(self.body[start:end], "little")

    def read_head(self):
        """ALL_HEADERS, which its total length leaps over; NameLenProcID; OptionFlags."""
        total = self.integer(OWN_LENGTH, HEAD)
        if total < OWN_LENGTH:
            self.lost(0, TOO_SMALL)
        if total > len(self.body):
            self.lost(len(self.body), HEAD)
        self.at = total
        units = self.integer(2, HEAD)
        if units == BY_NUMBER:
            self.number = self.integer(2, HEAD)
            self.procedure = f"proc number {self.number}"
        else:
            self.procedure = f"proc name {self.shown(*self.part(2 * units, HEAD))}"
        self.flags = self.integer(2, HEAD)

    def read_parameter(self):
        """ParamMetaData (B_VARCHAR, StatusFlags, TYPE_INFO) and ParamLenData."""
        begin, units = self.at, self.integer(1)
        if units in NEXT_CALLS:
            self.lost(begin, UNREAD)
        name = self.shown(*self.part(2 * units, PARAMETER))
        place, status = self.at, self.integer(1)
        if status & ENCRYPTED:
            self.note(place, UNREAD)
        kind, limit, collation = self.read_type()
        read = self.read_integer if kind == INTN else self.read_chunks if limit == MAX else self.read_text
        start, end, line = read(limit, TYPES[kind][3])
        self.values.append((start, end))
        shown = hexadecimal(self.body[slice(*collation)])
        self.parameters.append([f"param {name} status {status:02X} type {kind:02X} {limit} {shown}", line])

    def read_type(self):
        """TYPE_INFO: a code, a length and a collation."""
        place, kind = self.at, self.integer(1)
        if kind not in TYPES:
            self.lost(place, UNREAD)
        size, limits, collation, _ = TYPES[kind]
        place, limit = self.at, self.integer(size)
        if limit not in limits:
            self.lost(place, UNREAD)
        return kind, limit, self.part(collation, PARAMETER)

    def read_integer(self, width, _):
        """A BYTELEN of 0, which is null, or of the type's length."""
        place, size = self.at, self.integer(1)
        if size not in (0, width):
            self.lost(place, PARAMETER)
        start, end = self.part(size, PARAMETER)
        if size == 0:
            return start, end, "null"
        return start, end, f"num {int.from_bytes(self.body[start:end], 'little', signed=width > 1)}"

    def read_text(self, limit, unit):
        """A USHORTLEN that is CHARBIN_NULL, or whole units within the limit."""
        place, size = self.at, self.integer(2)
        if size == NULL_TEXT:
            return self.at, self.at, "null"
        if size > limit or size % unit:
            self.lost(place, PARAMETER)
        start, end = self.part(size, PARAMETER)
        return start, end, f"part {hexadecimal(self.body[start:end])} @{start}+{size}"

    def read_chunks(self, _, unit):
        """PLP_BODY: a total that may be null or unknown, chunks, and PLP_TERMINATOR."""
        place, total = self.at, self.integer(8)
        if total == NULL_TOTAL:
            return self.at, self.at, "null"
        if total != UNKNOWN_TOTAL and total % unit:
            self.lost(place, PARAMETER)
        start, joined = self.at, []
        while size := self.integer(4):
            if size % unit:
                self.lost(self.at - 4, PARAMETER)
            chunk = self.part(size, PARAMETER)
            joined.append(self.body[slice(*chunk)])
        held = b"".join(joined)
        if total not in (UNKNOWN_TOTAL, len(held)):
            self.lost(self.at - 4, PARAMETER)
        return start, self.at, f"part {hexadecimal(held)} @{start}+{self.at - start}"


def lines(given):
    """The answer for an input of `answer rpc`: the asked number, whose missing bytes count as 0, and the body."""
    return Call(given[4:]).lines(int.from_bytes(given[:4], "little"))
