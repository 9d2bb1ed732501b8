"""A second reader of MS-TDS replies, written from document 01 ('The reply reader', 'Who causes which refusal'),
document 02's request 2026-02 and MS-TDS 2.2.3.1 (the packet header) and 2.2.7 (COLMETADATA, ROW, DONE, ERROR, INFO),
apart from the proved one. `lines` gives what `answer places` must write of packets that are lent one after another,
`Reader` each step from any position, and `joined` what the packets hold without their headers.

Fields are taken one after the other, and each is tested as soon as it is whole; a packet's header is tested where its
first byte is needed. So the earliest byte at fault decides, and a reply that ends too early is at fault at its end.
"""
import struct
from typing import NamedTuple

TYPES = {0x01, 0x03, 0x04, 0x06, 0x08, 0x0E, 0x10, 0x12}  # PacketType of the Rust
TOO_SHORT, UNKNOWN_TYPE, NOT_A_REPLY, CUT, UNKNOWN_TOKEN, WRONG, COLUMNS, NO_COLUMNS = 8, 9, 23, 24, 25, 26, 27, 28
NOT_NEXT, END_WRONG = 33, 34
HEADER = 8
MOST_COLUMNS = 128
NULL_TOTAL, UNKNOWN_TOTAL = 2**64 - 1, 2**64 - 2


class Refused(Exception):
    """A refusal by its number."""


def must(holds, refusal=WRONG):
    if not holds:
        raise Refused(refusal)


class Cursor:
    """A place in lent packets, from which fields are taken; a part's start counts payload bytes.

    `packet` counts from 1, `first` and `end` are the packet's first byte and the one after its last, `at` is the next
    byte."""

    def __init__(self, lent):
        self.lent, self.packet, self.end, self.payload_before = lent, 0, 0, 0
        self.enter()

    def enter(self):
        """Goes to the next packet's payload, where its header passes."""
        head = self.lent[self.end:self.end + HEADER]
        must(len(head) == HEADER, TOO_SHORT)
        kind, status, length, _, number, _ = struct.unpack(">BBHHBB", head)
        must(kind in TYPES, UNKNOWN_TYPE)
        must(kind == 0x04 and HEADER < length <= len(self.lent) - self.end, NOT_A_REPLY)
        must(number == (self.packet + 1) % 256, NOT_NEXT)
        if self.packet:
            self.payload_before += self.end - self.first - HEADER
        self.packet += 1
        self.first, self.at, self.end, self.ended = self.end, self.end + HEADER, self.end + length, bool(status & 0x01)

    def more(self):
        """Whether bytes stand after the packet."""
        return self.end < len(self.lent)

    def is_over(self):
        """Whether the packet is the last one, as its end bit says and the lent bytes do."""
        return self.ended and not self.more()

    def read_on(self):
        """Past the packet, which has no byte left."""
        must(not self.is_over(), CUT)
        must(not self.ended and self.more(), END_WRONG)
        self.enter()

    def go_to(self, packet, place):
        """To a position's packet and place, from the first packet: the headers up to it are tested."""
        must(packet, CUT)
        while self.packet < packet:
            must(not self.ended and self.more(), CUT)
            self.enter()
        must(HEADER <= place <= self.end - self.first, CUT)
        self.at = self.first + place

    @property
    def place(self):
        """The place in the packet, counted from its first byte."""
        return self.at - self.first

    @property
    def start(self):
        """The place in the payload."""
        return self.payload_before + self.place - HEADER

    def number(self, size):
        return int.from_bytes(self.taken(size), "little")

    def taken(self, size):
        taken = []
        while size:
            if self.at == self.end:
                self.read_on()
            piece = self.lent[self.at:min(self.end, self.at + size)]
            taken.append(piece)
            self.at += len(piece)
            size -= len(piece)
        return b"".join(taken)

    def part(self, size):
        """A part as it is shown: bytes, start and length."""
        start = self.start
        return shown(self.taken(size), start, size)


def shown(held, start, size):
    return f"{held.hex().upper() or '-'} @{start}+{size}"


def joined(lent):
    """The payloads of the packets as far as their headers pass, and the number of what stops them; None where that is
    the end of a last packet."""
    held = b""
    try:
        cursor = Cursor(lent)
        while True:
            held += lent[cursor.at:cursor.end]
            if cursor.is_over():
                return held, None
            cursor.read_on()
    except Refused as refusal:
        return held, refusal.args[0]


class Position(NamedTuple):
    """Where a reader stands: packet and place, the types of the columns it holds, how many columns and cells are to
    come, and whether the last DONE was read."""
    packet: int
    place: int
    columns: tuple = ()
    columns_left: int = 0
    cells_left: int = 0
    over: bool = False


FRESH = Position(1, HEADER)


class Reader:
    """A reader of lent packets that stands at a position; the packets are tested up to it."""

    def __init__(self, lent, position=FRESH):
        self.cursor = Cursor(lent)
        self.cursor.go_to(position.packet, position.place)
        self.columns, self.columns_left = list(position.columns), position.columns_left
        self.cells_left, self.over = position.cells_left, position.over

    def position(self):
        cursor = self.cursor
        return Position(cursor.packet, cursor.place, tuple(self.columns), self.columns_left, self.cells_left, self.over)

    def step(self):
        """The line of the next token; None at the end."""
        cursor = self.cursor
        if self.over:
            return self.close()
        if self.columns_left:
            line, kind = column(cursor)
            self.columns.append(kind)
            self.columns_left -= 1
            return line
        if self.cells_left:
            line = cell(cursor, *self.columns[len(self.columns) - self.cells_left])
            self.cells_left -= 1
            return line
        return self.token(cursor.number(1))

    def token(self, code):
        cursor = self.cursor
        if code == 0x81:
            count = cursor.number(2)
            must(count <= MOST_COLUMNS, COLUMNS)
            self.columns, self.columns_left = [], count
            return f"81 {count}"
        if code == 0xD1:
            must(self.columns, NO_COLUMNS)
            self.cells_left = len(self.columns)
            return "D1"
        if code == 0xFD:
            status, command, count = cursor.number(2), cursor.number(2), cursor.number(8)
            self.columns, self.over = [], not status & 0x0001
            return f"FD {status:04X} {command:04X} {count}"
        must(code in (0xAA, 0xAB), UNKNOWN_TOKEN)
        return message(cursor, code)

    def close(self):
        """After the last DONE: no byte of the packet is left, and it is the last one."""
        cursor = self.cursor
        must(cursor.at == cursor.end)
        if not cursor.is_over():
            cursor.read_on()
            raise Refused(WRONG)
        return None


def lines(lent):
    """A line a token, then `end` or `refused N`."""
    out = []
    try:
        reader = Reader(lent)
        while line := reader.step():
            out.append(line)
        out.append("end")
    except Refused as refusal:
        out.append(f"refused {refusal}")
    return out


def column(cursor):
    """A column's line, and its type code and length."""
    user, flags, code = cursor.number(4), cursor.number(2), cursor.number(1)
    must(code in (0x26, 0xE7, 0xA7, 0xA5))
    limit = cursor.number(1 if code == 0x26 else 2)
    if code == 0x26:
        must(limit in (1, 2, 4, 8))
    elif code == 0xE7:
        must(1 <= limit <= 8000 or limit == 0xFFFF)
    else:
        must(limit == 0xFFFF)
    collation = cursor.part(5 if code in (0xE7, 0xA7) else 0)
    name = cursor.part(2 * cursor.number(1))
    return f"col {user} {flags:04X} {code:02X} {limit} {collation} {name}", (code, limit)


def cell(cursor, code, limit):
    if code == 0x26:
        return integer(cursor, limit)
    if limit != 0xFFFF:
        return bounded(cursor, limit)
    return long_value(cursor, even=code == 0xE7)


def integer(cursor, width):
    size = cursor.number(1)
    must(size in (0, width))
    if size == 0:
        return "null"
    return f"num {int.from_bytes(cursor.taken(width), 'little', signed=width > 1)}"


def bounded(cursor, limit):
    size = cursor.number(2)
    if size == 0xFFFF:
        return "null"
    must(size % 2 == 0 and size <= limit)
    return f"part {cursor.part(size)}"


def long_value(cursor, even):
    """A value of PARTLENTYPE: a total, then chunks until one of no bytes."""
    total = cursor.number(8)
    if total == NULL_TOTAL:
        return "null"
    known = total != UNKNOWN_TOTAL
    must(not (known and even and total % 2))
    start, joined = cursor.start, b""
    while True:
        size = cursor.number(4)
        must(not (even and size % 2))
        must(not known or len(joined) + size <= total)
        if size == 0:
            break
        joined += cursor.taken(size)
    must(not known or len(joined) == total)
    return f"part {shown(joined, start, cursor.start - start)}"


def message(cursor, code):
    """ERROR and INFO: the length counts what follows it, of which 14 bytes are no text."""
    length = cursor.number(2)
    must(length >= 14 and length % 2 == 0)
    units = (length - 14) // 2
    number, state, severity = cursor.number(4), cursor.number(1), cursor.number(1)
    texts = []
    for size, names_after in ((2, 2), (1, 1), (1, 0)):
        count = cursor.number(size)
        units -= count
        must(0 <= units <= 255 * names_after)
        texts.append(cursor.part(2 * count))
    line = cursor.number(4)
    return f"{code:02X} {number} {state} {severity} {line} {' '.join(texts)}"
