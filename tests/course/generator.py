"""Scripts by chance, as bytes: accepted ones, those that fit or not, and damaged ones (document 01, 'The script').

Rests on nothing of tools/script.py, which the scripts are for.
"""
import struct

# Letters, signs of the text form, what does not print, ends lines elsewhere, or takes two units.
LETTERS = "abcXYZ 019_-\"\\#é中*/'\n\r\t\0\x7F\x85\xA0€Ωж\u200B\u2028\uFEFF\uFFFF\uE000😀𝄞\U000E0001\U0010FFFF"
INTEGERS = {1: 1, 2: 2, 3: 4, 4: 8}
LATIN = bytes.fromhex("0904D00034")


def record(kind, payload=b""):
    return struct.pack("<IH", len(payload), kind) + payload


def text(source, most):
    return "".join(source.choice(LETTERS) for _ in range(source.randint(0, most))).encode("utf-16-le")


def column(source, type_byte):
    collation = source.choice((LATIN, source.randbytes(5)))
    return record(2, bytes([type_byte]) + collation + text(source, 8))


def info(source, kind):
    number, line = source.choice((0, 1, source.getrandbits(32))), source.choice((0, 0, source.getrandbits(32)))
    state, severity = source.choice((0, 1, 1, source.getrandbits(8))), source.getrandbits(8)
    texts = [text(source, source.choice((0, most))) for most in (20, 6, 6)]
    counts = [len(each) // 2 for each in texts]
    return record(kind, struct.pack("<IBBI3H", number, state, severity, line, *counts) + b"".join(texts))


def error(source, kind):
    return record(kind, struct.pack("<IB", source.getrandbits(32), source.getrandbits(8)) + text(source, 20))


def cell(source, value):
    """A cell with its chunks."""
    if value in INTEGERS:
        width = INTEGERS[value]
        held = source.choice((bytes(width), b"\xFF" * width, source.randbytes(width), source.randbytes(width)))
        return [record(5, bytes([value]) + held[:-1] + source.choice((b"\x7F", b"\x80", held[-1:], held[-1:])))]
    if value == 5:
        return [record(5, b"\5" + text(source, 12))]
    records = [record(5, bytes([value]))]
    if value in (6, 8, 9):
        records += [chunk(source, value) for _ in range(source.choice((0, 1, 2, 3)))]
    return records


def chunk(source, value):
    if value == 6 and source.random() < 0.7:
        return record(6, text(source, 8) or b"a\0")
    held = source.randbytes(source.choice((1, 2, 9)))
    return record(6, held * 2 if value == 6 else held)


def fitting_value(source, type_byte):
    if type_byte == 5:
        return 5
    if source.random() < 0.25:
        return 10 if type_byte < 5 else 7
    return type_byte if type_byte < 7 else type_byte + 1


def set_records(source, fits):
    records = [record(1, b"" if fits or source.random() < 0.6 else source.randbytes(source.choice((1, 6))))]
    counts = (0, 1, 3, 6) if fits or source.random() < 0.98 else (128, 129, 130)
    types = [source.randint(1, 8) for _ in range(source.choice(counts))]
    records += [column(source, type_byte) for type_byte in types]
    records += [error(source, kind) for kind, chance in ((7, 0.2), (8, 0.08)) if source.random() < chance]
    records += [info(source, 3) for _ in range(source.choice((0, 0, 1, 2)))]
    for _ in range(source.choice((0, 1, 3)) if types or not fits else 0):
        records.append(record(4))
        values = [fitting_value(source, type_byte) for type_byte in types]
        if not fits and source.random() < 0.4:
            values = [source.randint(1, 10) for _ in range(source.randint(0, 4))]
        for value in values:
            records += cell(source, value)
    return records


def accepted_records(source):
    """The records of a script that is not refused for its order, shapes or texts."""
    fits = source.random() < 0.6
    records = [each for _ in range(source.choice((1, 1, 2, 3))) for each in set_records(source, fits)]
    return records + [info(source, 9) for _ in range(source.choice((0, 0, 1, 2)))]


def stranger(source):
    """A record of any kind, well-shaped or not."""
    payload = source.choice((b"", source.randbytes(source.randint(0, 20))))
    unknown = source.choice((0, 10, 0x0101, source.getrandbits(16)))
    records = [record(kind, payload) for kind in (unknown, source.randint(1, 9), 6)]
    records += [record(kind) for kind in (1, 4, 6)]
    records += [info(source, source.choice((3, 9))), error(source, source.choice((7, 8)))]
    return source.choice([*records, column(source, source.randint(0, 9)), *cell(source, source.randint(1, 10))])


def spoiled(source, one):
    """A record with something wrong in its payload or its kind."""
    payload, kind = bytearray(one[6:]), one[4]
    change = source.randrange(5)
    if change == 0:
        payload.append(source.getrandbits(8))
    elif change == 1 and payload:
        payload.pop()
    elif change == 2 and len(payload) > 1:
        payload[-2:] = struct.pack("<H", source.randint(0xD800, 0xDFFF))
    elif change == 3 and payload:
        payload[source.randrange(len(payload))] = source.getrandbits(8)
    else:
        kind = source.randint(0, 11)
    return record(kind, bytes(payload))


def damage(source, records):
    """Changes one thing about a list of records."""
    at = source.randrange(len(records))
    change = source.randrange(5)
    if change == 0:
        records.insert(at, stranger(source))
    elif change == 1:
        records.insert(at, records[source.randrange(len(records))])
    elif change == 2 and len(records) > 1:
        del records[at]
    else:
        records[at] = spoiled(source, records[at])


def damaged_script(source):
    records = accepted_records(source)
    for _ in range(source.choice((1, 1, 2, 3))):
        damage(source, records)
    script = bytearray(b"".join(records))
    if source.random() < 0.15:
        del script[source.randrange(len(script)):]
    if source.random() < 0.1 and script:
        script[source.randrange(len(script))] = source.getrandbits(8)
    return bytes(script)


def unsent_after(source, one):
    """A record that may stand after another one, and that may be an empty chunk or have too long a name; or nothing."""
    kind, name = one[4], source.choice((255, 256, 300))
    if kind == 6 or kind == 5 and one[6] in (6, 8, 9):
        return record(6)
    if kind == 2:
        return record(2, one[6:12] + bytes(2 * name))
    if kind in (3, 9):
        counts = source.choice(((0, name, 0), (name, 0, 255), (0, 255, name)))
        return record(kind, struct.pack("<IBBI3H", 1, 1, 1, 1, *counts) + bytes(2 * sum(counts)))
    return b""


def unsent_script(source):
    """An accepted script but for empty chunks and long names here and there, which a terminal error may drop."""
    records = accepted_records(source)
    return b"".join(one + (unsent_after(source, one) if source.random() < 0.1 else b"") for one in records)


def swept_scripts():
    """Records of every kind, first byte and short length, at each place where a set's records may stand."""
    starts = [record(1), record(1) + record(4)]
    starts += [starts[1] + record(5, bytes([value])) for value in (6, 8)]
    for start in starts:
        for kind in range(11):
            for length in (*range(11), 16, 17, 18):
                for first in range(12) if length else [0]:
                    yield start + record(kind, bytes([first] + [0] * (length - 1))[:length])


def random_script(source):
    """An accepted script, a damaged one, or any bytes."""
    chance = source.random()
    if chance < 0.5:
        return b"".join(accepted_records(source))
    if chance < 0.97:
        return damaged_script(source)
    return source.randbytes(source.randint(0, 40))
