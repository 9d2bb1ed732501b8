"""Replies for the comparison, built from MS-TDS 2.2.7 by an encoder of their own."""
import struct

INTEGERS = {1: "B", 2: "<h", 4: "<i", 8: "<q"}
COLLATION = bytes([0x09, 0x04, 0xD0, 0x00, 0x34])
MORE, LAST = 0x0001, 0x0000
# Column types: code and length.
KINDS = [(0x26, 1), (0x26, 2), (0x26, 4), (0x26, 8), (0xE7, 40), (0xE7, 8000), (0xE7, 0xFFFF), (0xA7, 0xFFFF), (0xA5, 0xFFFF)]


def packet(body, kind=0x04, status=0x01, length=None, rest=bytes([0, 0, 1, 0])):
    length = len(body) + 8 if length is None else length
    return struct.pack(">BBH", kind, status, length & 0xFFFF) + rest + body


def packets(payload, cuts):
    """A payload in packets: it is cut at some places, numbers rise from 1, and the end bit is on the last."""
    ends = [*cuts, len(payload)]
    return [numbered(number, payload[start:end], number == len(ends))
            for number, (start, end) in enumerate(zip([0, *cuts], ends), 1)]


def numbered(number, payload, last):
    return packet(payload, status=int(last), rest=bytes([0, 0, number % 256, 0]))


def sized(bytes_of_packet):
    """A packet with the length of its bytes in its header, if there is one."""
    if len(bytes_of_packet) < 4:
        return bytes_of_packet
    return bytes_of_packet[:2] + struct.pack(">H", len(bytes_of_packet) & 0xFFFF) + bytes_of_packet[4:]


def utf16(text):
    return text.encode("utf-16-le", "surrogatepass")


def columns(*described):
    """COLMETADATA of (code, length, name) each."""
    return b"\x81" + struct.pack("<H", len(described)) + b"".join(column(*each) for each in described)


def column(code, limit, name, user=0, flags=0):
    size = "<B" if code == 0x26 else "<H"
    collation = COLLATION if code in (0xE7, 0xA7) else b""
    text = utf16(name)
    return struct.pack("<IHB", user, flags, code) + struct.pack(size, limit) + collation + bytes([len(text) // 2]) + text


def row(*cells):
    return b"\xD1" + b"".join(cells)


def integer(width, value):
    return b"\0" if value is None else bytes([width]) + struct.pack(INTEGERS[width], value)


def bounded(held):
    return b"\xFF\xFF" if held is None else struct.pack("<H", len(held)) + held


def long_value(chunks, known=True):
    if chunks is None:
        return b"\xFF" * 8
    total = sum(map(len, chunks)) if known else 2**64 - 2
    return struct.pack("<Q", total) + b"".join(struct.pack("<I", len(chunk)) + chunk for chunk in chunks) + bytes(4)


def done(status, count=0, command=0x00C1):
    return b"\xFD" + struct.pack("<HHQ", status, command, count)


def message(code, number, state, severity, text, server, procedure, line):
    texts = [utf16(each) for each in (text, server, procedure)]
    counts = [len(each) // 2 for each in texts]
    body = struct.pack("<IBBH", number, state, severity, counts[0]) + texts[0]
    body += bytes([counts[1]]) + texts[1] + bytes([counts[2]]) + texts[2] + struct.pack("<I", line)
    return bytes([code]) + struct.pack("<H", len(body)) + body


def random_text(random, most):
    return "".join(random.choice("ab é€Ω\u4e2d0_") for _ in range(random.randint(0, most)))


def random_message(random):
    texts = [random_text(random, most) for most in (12, 4, 4)]
    numbers = random.getrandbits(32), random.getrandbits(8), random.getrandbits(8)
    return message(random.choice((0xAA, 0xAB)), *numbers, *texts, random.getrandbits(32))


def random_value(random, code, limit):
    """A cell of a type; every third is null or an end of the type's range."""
    if code == 0x26:
        half = 1 << (8 * limit - 1)
        low, high = (0, 255) if limit == 1 else (-half, half - 1)
        return integer(limit, random.choice((None, low, high, random.randint(low, high), random.randint(low, high))))
    unit = 2 if code == 0xE7 else 1
    if limit != 0xFFFF:
        most = min(limit // 2, 20)
        return bounded(random.choice((None, b"", random.randbytes(2 * most), random.randbytes(2 * random.randint(0, most)))))
    if random.random() < 0.2:
        return long_value(None)
    chunks = [random.randbytes(unit * random.randint(1, 9)) for _ in range(random.randint(0, 3))]
    return long_value(chunks, known=random.random() < 0.7)


def random_set(random, most_columns, most_rows):
    kinds = [random.choice(KINDS) for _ in range(random.randint(0, most_columns))]
    body = columns(*((*kind, random_text(random, 5)) for kind in kinds))
    rows = random.randint(0, most_rows) if kinds else 0
    for _ in range(rows):
        if random.random() < 0.2:
            body += random_message(random)
        body += row(*(random_value(random, *kind) for kind in kinds))
    return body, rows


def random_reply(random, most_sets=3, most_columns=5, most_rows=4):
    """A reply without a fault."""
    body = b""
    for _ in range(random.randint(0, most_sets)):
        tokens, rows = random_set(random, most_columns, most_rows)
        while random.random() < 0.3:
            tokens += random_message(random)
        body += tokens + done(MORE | random.choice((0, 0x10)), rows)
    return packet(body + done(random.choice((LAST, 0x02, 0x10)), 0))
