"""Fields of a packet: taking them one after the other, and how they are said in words.

A `Piece` is a field: start and length in the packet, the token it belongs to, its name in MS-TDS, its meaning. A `Line`
has the pieces that are shown together. A `Fault` says what is wrong at a place, with the number of the reader's refusal
for it, where it has one.
"""
from typing import NamedTuple

import script

from .refusals import IN_REPLY


class Piece(NamedTuple):
    start: int
    length: int
    token: str
    field: str
    meaning: str
    group: int  # how many bytes make a group of digits in the text
    lead: int = 0  # how many stand in the first group, where the packet before has its other bytes


class Fault(NamedTuple):
    place: int
    number: int | None
    words: str
    label: str = "wrong"  # or "note", where nothing is wrong but for the reader


class Line:
    """Pieces that are shown together, and what they say."""

    def __init__(self, token, indent, comment):
        self.token, self.indent, self.comment, self.pieces = token, indent, comment, []


class Unread(Exception):
    """What follows cannot be told apart."""


class Fields:
    """Takes a packet's fields one after the other; each goes to the line that was opened last."""

    def __init__(self, held):
        self.held, self.at, self.lines, self.faults, self.rules = held, 0, [], [], IN_REPLY

    def line(self, token, indent, comment=None):
        self.lines.append(Line(token, indent, comment or token))
        return self.lines[-1]

    def left(self):
        return len(self.held) - self.at

    def take(self, field, size, meaning, group=4):
        """A field of so many bytes; meaning is what it says, or a function that says it from the bytes."""
        if self.left() < size:
            self.add(field, self.left(), f"cut: {self.left()} of {many(size, 'byte')}", group)
            self.fault(self.rules.cut, f"{field} is cut: {many(size, 'byte')} needed", len(self.held))
            raise Unread
        held = self.held[self.at:self.at + size]
        self.add(field, size, meaning(held) if callable(meaning) else meaning, group)
        return held

    def add(self, field, size, meaning, group):
        if size:
            line = self.lines[-1]
            line.pieces.append(Piece(self.at, size, line.token, field, meaning, group))
            self.at += size

    def number(self, field, size, meaning=str, order="little"):
        held = self.take(field, size, lambda held: meaning(int.from_bytes(held, order)), size)
        return int.from_bytes(held, order)

    def text(self, field, units):
        """A text of UTF-16; the answer is the text as letters."""
        return letters(self.take(field, 2 * units, letters, 2))

    def bytes(self, field, size, meaning="bytes"):
        return self.take(field, size, meaning)

    def fault(self, number, words, place=None, label="wrong"):
        """What is wrong at a place, or else about the piece that was taken last."""
        if place is None:
            place = self.lines[-1].pieces[-1].start
        self.faults.append(Fault(place, number, words, label))

    def unread(self, token, end, comment):
        """The bytes up to a place as they are."""
        size = min(end, len(self.held)) - self.at
        if size > 0:
            self.line(token, 4, comment)
            self.bytes("bytes", size, comment)


def many(count, noun):
    return f"{count} {noun}" if count == 1 else f"{count} {noun}s"


def letters(units):
    return script.shown_text(units[:len(units) // 2 * 2])


def ascii_letters(held):
    """Bytes as letters, where all are letters of ASCII that print."""
    return f'"{held.decode("ascii")}"' if held and all(0x20 <= byte < 0x7F for byte in held) else ""


def hexed(width):
    return lambda number: f"{number:0{width}X}"


def named(names, width=2):
    """A number in hexadecimal with its name."""
    return lambda number: f"{number:0{width}X}, {names.get(number, 'not known')}"


def bits(number, names, width):
    """The words of the bits that are set, the known ones and the others."""
    words = [word for bit, word in names.items() if number & bit]
    other = number & ~sum(names)
    return words + ([f"bits {other:0{width}X}"] if other else [])


def counted_text(f, token, field, word, size, indent=4):
    """A line of a count and a text of so many units."""
    line = f.line(token, indent, word)
    count = f.number(f"{field} count", size, lambda count: many(count, "unit"))
    line.comment = f"{word}: {many(count, 'unit')}, {f.text(field, count)}"


def tds_version(number):
    """A version of TDS: its digits, and its name where it has one."""
    names = {0x70: "7.0", 0x71: "7.1", 0x72: "7.2", 0x73: "7.3", 0x74: "7.4", 0x08: "8.0"}
    return ", ".join(filter(None, [f"{number:08X}", names.get(number >> 24)]))


def version_words(held):
    """Major, minor and build; of six bytes the last two are the sub-build."""
    words = f"{held[0]}.{held[1]}.{int.from_bytes(held[2:4], 'big')}"
    return words + (f".{int.from_bytes(held[4:], 'little')}" if len(held) > 4 else "")


def read_version(f, field, size):
    return version_words(f.take(field, size, version_words, 4))


def show_text(f, word, size):
    """A text that fills its place."""
    held = f.take(word, size, letters, 2)
    f.lines[-1].comment = f"{word}: {many(size // 2, 'unit')}, {letters(held)}"


def show_bytes(f, word, size):
    held = f.take(word, size, lambda held: ascii_letters(held) or many(size, "byte"))
    f.lines[-1].comment = ", ".join(filter(None, [f"{word}: {many(size, 'byte')}", ascii_letters(held)]))


def read_zone(f, token, items):
    """Fields that stand where a list before them says, each as start, length, name and how to show it; every byte is
    taken once, in order."""
    for start, size, word, show in sorted(items, key=lambda item: item[:2]):
        if size == 0:
            continue
        if start < f.at:
            f.fault(None, f"{word} would start at byte {start} of the packet, where another field stands", start)
            continue
        f.unread(token, start, "no field names these bytes")
        if not f.left():
            f.fault(None, f"{word} would start at byte {start} of the packet, past its end", f.at)
            continue
        f.line(token, 2, word)
        show(f, word, size)
    f.unread(token, len(f.held), "no field names these bytes")
