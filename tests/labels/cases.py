"""Values and texts for the comparison. What is known of one by the way it was made stands beside it: the line of its answer,
apart from the second reader."""
import itertools
import struct

import reading
from reading import CUT, LENGTH, MOST, NULL, TOO_LONG, TOTAL, UNKNOWN, WRONG, value

# Bytes of a label in which each place has its own: some look like a length, and the table moves some.
HELD = bytes.fromhex("80 00 41 01 FF 9F 04 81 A0 02 FE 8D 7F 99 05 90 E9 03 8E 20 9D 08 C0 93")
# Units that no byte stands for.
NO_BYTES = (0x0080, 0x009F, 0x0100, 0x20AD, 0xD83D, 0xDE00, 0xFFFF)
LIKELY = b"\x00\x01\x02\x03\x04\x08\x41\x80\x9F\xFE\xFF"
GREATEST_INPUT = 131_072


def text(held):
    return reading.line("text", reading.text(held))


def refused(number):
    return reading.line("", number)


def cut(held, sizes):
    """Bytes in chunks of some sizes."""
    ends = list(itertools.accumulate(sizes))
    return [held[end - size:end] for size, end in zip(sizes, ends)]


def ways(most):
    """The chunks' sizes of every value of at most so many bytes."""
    def of(left):
        yield ()
        for size in range(1, left - LENGTH + 1):
            yield from ((size, *rest) for rest in of(left - LENGTH - size))
    return of(most - TOTAL - LENGTH)


def made(most):
    """Every value of at most so many bytes, of a known and of an unknown total."""
    for sizes in ways(most):
        for total in (sum(sizes), UNKNOWN):
            yield sizes, value(total, cut(HELD, sizes))


def single_bytes():
    """Every byte alone, and all of them in one value."""
    for total, held in itertools.product((None, UNKNOWN), (bytes(range(256)), *(bytes([byte]) for byte in range(256)))):
        yield value(len(held) if total is None else total, [held]), text(held)


def cuts_of_values(most):
    """Every value of at most so many bytes, each of its prefixes, and each with a byte more."""
    for sizes, whole in made(most):
        yield whole, text(HELD[:sum(sizes)])
        yield from ((whole[:end], refused(CUT)) for end in range(len(whole)))
        yield from ((whole + bytes([byte]), refused(WRONG)) for byte in (0, 1, 0xFF))


def wrong_totals(most):
    """Every value of at most so many bytes with a total one over and one under: at fault is the zero length, or the length of
    the last chunk. A field before that is cut, and so is the field itself where its last byte is missing."""
    for sizes in ways(most):
        over = value(sum(sizes) + 1, cut(HELD, sizes))
        yield from ((over, refused(WRONG)), (over + b"\0", refused(WRONG)), (over[:-1], refused(CUT)))
        under = value(sum(sizes) - 1, cut(HELD, sizes))  # no chunks: the total of null, and bytes after it
        fault = len(under) - LENGTH - sizes[-1] if sizes else TOTAL + 1
        yield from ((under[:end], refused(WRONG)) for end in range(fault, len(under) + 1))
        if sizes:
            yield under[:fault - 1], refused(CUT)


def changes(most):
    """Every value of at most so many bytes, and null, with each byte changed to each other one."""
    for whole in (struct.pack("<Q", NULL), *(whole for _, whole in made(most))):
        for at, byte in itertools.product(range(len(whole)), range(256)):
            if byte != whole[at]:
                yield whole[:at] + bytes([byte]) + whole[at + 1:]


def long_values():
    """65,535 and 65,536 characters in one chunk and in many, of a known and of an unknown total: right, cut, with bytes or a
    chunk more, and with a wrong total."""
    for count, size in itertools.product((MOST, MOST + 1), (MOST + 1, 40_000, 4_096, 7, 1)):
        held = (bytes(range(255, -1, -1)) * 256)[:count]
        chunks = [held[at:at + size] for at in range(0, count, size)]
        right = text(held) if count == MOST else refused(TOO_LONG)
        for known in (True, False):
            total = count if known else UNKNOWN
            whole = value(total, chunks)
            yield from ((whole, right), (whole + b"\0", refused(WRONG)), (whole + value(total, chunks), refused(WRONG)))
            yield from ((whole[:-each], refused(CUT)) for each in (1, LENGTH, LENGTH + 1))
            yield value(total, [*chunks, b"\x80"]), refused(WRONG if known else TOO_LONG)
            yield whole[:-LENGTH] + b"\1\0\0\0", refused(WRONG if known else CUT)
        yield from ((value(count + more, chunks), refused(WRONG)) for more in (-1, 1, 2**32))
        yield value(NULL, chunks), refused(WRONG)


def longest_inputs():
    """Values of 131,072 bytes and of one more, and over a million characters."""
    for count in (GREATEST_INPUT - 16, GREATEST_INPUT - 15, 1_000_000):
        yield value(count, [bytes(count)]), refused(TOO_LONG)
        yield value(UNKNOWN, [b"\x9F" * count])[:-1], refused(CUT)


def as_text(units):
    return struct.pack(f"<{len(units)}H", *units)


def single_units():
    """Every unit alone, with the value where a byte stands for it; all units that have a byte, in one text."""
    of = {ord(character): byte for byte, character in enumerate(reading.CHARACTERS)}
    for unit in range(65_536):
        held = bytes([of[unit]]) if unit in of else None
        yield as_text([unit]), refused(36) if held is None else reading.line("value", value(1, [held]))
    yield as_text(list(of)), reading.line("value", value(256, [bytes(range(256))]))
    yield as_text(list(of)[::-1]), reading.line("value", value(256, [bytes(range(255, -1, -1))]))


def texts_of_all_lengths(most):
    """A text of each length up to so many units, whole, odd, and with a unit that no byte stands for at each place."""
    for count in range(most + 1):
        held = HELD[:count]
        whole = reading.text(held)
        yield whole, reading.line("value", value(count, [held] if held else []))
        yield from ((whole + b"\0", refused(21)), (whole + b"\xD8", refused(21)))
        for at, unit in itertools.product(range(count), NO_BYTES):
            units = list(reading.units(whole))
            units[at] = unit
            yield from ((as_text(units), refused(36)), (as_text(units)[:-1], refused(21)))


def long_texts():
    """Texts around 65,535 units, without and with a unit that has no byte, first, in the middle and last; odd ones."""
    for count, held in itertools.product((MOST, MOST + 1, MOST + 2), (b"\x9F", bytes(range(256)))):
        held = (held * 65_537)[:count]
        whole = reading.text(held)
        yield whole, reading.line("value", value(count, [held])) if count == MOST else refused(17)
        yield from ((odd, refused(21)) for odd in (whole + b"\0", whole[:-1]))
        for at, unit in itertools.product((0, count // 2, count - 1), NO_BYTES):
            lacking = whole[:2 * at] + as_text([unit]) + whole[2 * at + 2:]
            yield from ((lacking, refused(36)), (lacking + b"\x41", refused(21)))


def value_by_chance(source):
    """Chunks of any bytes, now and then long ones; the total is right, unknown, or now and then wrong; null now and then."""
    longest = 12_000 if source.random() < 0.01 else source.choice((1, 3, 8, 30, 300))
    chunks = [source.randbytes(source.randint(1, longest)) for _ in range(source.choice((0, 1, 1, 2, 3, 5, 12)))]
    total = sum(map(len, chunks))
    turn = source.random()
    if turn < 0.02:
        return struct.pack("<Q", NULL)
    if turn < 0.12:
        total = source.choice((total + 1, total - 1, source.getrandbits(8), source.getrandbits(64), NULL))
    return value(UNKNOWN if source.random() < 0.4 else total, chunks)


def text_by_chance(source):
    """Units of the table, now and then many, and in some texts a few that no byte stands for."""
    longest = 70_000 if source.random() < 0.002 else source.choice((2, 8, 30, 300))
    held = source.randbytes(source.randint(0, longest))
    units = list(reading.units(reading.text(held)))
    if units and source.random() < 0.3:
        for _ in range(source.randint(1, 3)):
            units[source.randrange(len(units))] = source.choice((*NO_BYTES, source.getrandbits(16), source.getrandbits(9)))
    return as_text(units)


def damaged(source, given):
    """A copy with a few bytes changed, put in or taken out, or cut."""
    held = bytearray(given)
    for _ in range(source.choice((1, 1, 1, 2, 3))):
        at = source.randrange(len(held)) if held else 0
        if held and source.random() < 0.4:
            at = min(at, source.randrange(16))  # mostly a total and a length
        byte = source.choice(LIKELY) if source.random() < 0.6 else source.randrange(256)
        turn = source.random()
        if turn < 0.6 and held:
            held[at] = byte
        elif turn < 0.75:
            held.insert(at, byte)
        elif turn < 0.9:
            del held[at:at + source.randint(1, 4)]
        else:
            del held[at:]
    return bytes(held)


def by_chance(source, one, count):
    """So many by chance, and a damaged copy of each."""
    for _ in range(count):
        given = one(source)
        yield from (given, damaged(source, given))
