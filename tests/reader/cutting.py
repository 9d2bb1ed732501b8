"""Replies in packets for the comparison: payloads cut, and packets with faults in their headers and at their end."""
import itertools

import building

HEADER = 8
STATUS, NUMBER = 1, 6  # the places of two bytes in a header
MANY = 300


def in_two(replies):
    """Each reply's payload in two packets, cut at every place."""
    for reply in replies:
        payload = reply[HEADER:]
        for place in range(1, len(payload)):
            yield b"".join(building.packets(payload, [place]))


def cuts(source, length):
    """Places to cut a payload at by chance, few or many."""
    most = min(length - 1, source.choice((1, 2, 3, 5, 10, length)))
    return sorted(source.sample(range(1, length), source.randint(0, most)))


def at_random(source, count):
    """Replies in packets, and some of them with a fault."""
    for _ in range(count):
        payload = building.random_reply(source)[HEADER:]
        parts = building.packets(payload, cuts(source, len(payload)))
        yield b"".join(parts)
        yield b"".join(with_fault(source, parts))


def with_fault(source, parts):
    """Packets with a byte of a header or payload changed, a packet away, repeated or moved, or bytes after them."""
    parts = list(parts)
    at = source.randrange(len(parts))
    turn = source.random()
    if turn < 0.35:
        byte = source.choice((0, 1, 2, 4, 255, source.randrange(256)))
        parts[at] = changed(parts[at], source.randrange(HEADER), byte)
    elif turn < 0.55:
        parts[at] = changed(parts[at], source.randrange(len(parts[at])), source.randrange(256))
    elif turn < 0.65:
        del parts[at]
    elif turn < 0.75:
        parts.insert(at, parts[at])
    elif turn < 0.85:
        parts.insert(source.randint(0, len(parts)), parts.pop(at))
    elif turn < 0.95:
        parts.append(source.randbytes(source.randint(1, 12)))
    else:
        parts[-1] = parts[-1][:source.randrange(len(parts[-1]))]
    return parts


def changed(packet, place, byte):
    return packet[:place] + bytes([byte]) + packet[place + 1:]


def small():
    """A reply with a column, two rows and a message; its packets are cut within tokens."""
    body = building.columns((0xE7, 10, "t")) + building.row(building.bounded(b"a\0b\0"))
    body += building.message(0xAB, 1, 2, 3, "m", "", "", 4) + building.row(building.bounded(None))
    return body + building.done(building.LAST, 2)


def of_small():
    """The small reply in one, two and three packets, cut within its name, its text and its message."""
    return [building.packets(small(), places) for places in ([], [17], [17, 27], [20, 44])]


def header_bytes():
    """Each byte of each header changed to each value; the two bytes of a length together, too."""
    for parts in of_small():
        starts = [sum(map(len, parts[:i])) for i in range(len(parts))]
        lent = b"".join(parts)
        for start, place, byte in itertools.product(starts, range(HEADER), range(256)):
            yield changed(lent, start + place, byte)
        for start in starts:
            for length in range(len(lent) + 12):
                yield lent[:start + 2] + length.to_bytes(2, "big") + lent[start + 4:]


def truncated():
    """Every beginning of packets."""
    for parts in of_small():
        lent = b"".join(parts)
        yield from (lent[:end] for end in range(len(lent) + 1))


def ends():
    """Every choice of end bits, with nothing, bytes, a cut header, headers and packets after the packets."""
    for parts in of_small():
        following = len(parts) + 1
        more = [b"", b"\0", b"\x04", bytes(7), bytes(8), bytes(9), b"\x04" * 12]
        more += [building.numbered(number, payload, last) for number in (1, following - 1, following, following + 1)
                 for payload in (b"", b"\xFD", building.done(building.LAST)) for last in (False, True)]
        more.append(building.numbered(following, b"\0", False) + building.numbered(following + 1, b"\0", True))
        for bits, bytes_after in itertools.product(itertools.product((0, 1), repeat=len(parts)), more):
            yield b"".join(changed(part, STATUS, bit) for part, bit in zip(parts, bits)) + bytes_after


def without_payload():
    """A header alone put before, between and after packets, numbered as the next packet and as the one before."""
    for parts in of_small():
        for at, last in itertools.product(range(len(parts) + 1), (False, True)):
            for number in (at, at + 1):
                yield b"".join([*parts[:at], building.numbered(number, b"", last), *parts[at:]])
            moved = [changed(part, NUMBER, at + 2 + i) for i, part in enumerate(parts[at:])]
            yield b"".join([*parts[:at], building.numbered(at + 1, b"", last), *moved])


def of_one_byte():
    """Replies of 300 and 600 bytes in packets of one byte, whose numbers pass 255; others in headers around 255."""
    for length in (MANY, 2 * MANY):
        parts = building.packets(binary(length), range(1, length))
        yield b"".join(parts)
        for at in range(250, 262):
            for number in (0, 1, 2, at - 1, at, at + 1, at + 2, 254, 255):
                yield b"".join([*parts[:at], changed(parts[at], NUMBER, number % 256), *parts[at + 1:]])
        for end in (255, 256, 257, len(parts) - 1):
            yield b"".join(parts[:end])
    counted_from_0 = [changed(part, NUMBER, i % 256) for i, part in enumerate(parts)]
    yield b"".join(counted_from_0)
    yield b"".join([parts[0], *(changed(part, NUMBER, i % 255 + 1) for i, part in enumerate(parts[1:], 1))])


def binary(length):
    """A payload of so many bytes: a VarBinaryMax value in one chunk."""
    start, end = building.columns((0xA5, 0xFFFF, "")) + b"\xD1", building.done(building.LAST, 1)
    besides = len(start + building.long_value([b"x"]) + end) - 1
    held = bytes(range(256)) * (length // 256 + 1)
    return start + building.long_value([held[:length - besides]]) + end


def large():
    """The longest payload of one packet, and longer ones, in packets of many sizes."""
    for length, size in itertools.product((65_527, 65_528, 120_000), (512, 600, 4096, 32_767)):
        yield b"".join(building.packets(binary(length), range(size - HEADER, length, size - HEADER)))


def filling(length):
    """Packets of 4,096 bytes that fill so many bytes in all."""
    size = 4096
    count = -(-length // size)
    payload = binary(length - count * HEADER)
    return b"".join(building.packets(payload, range(size - HEADER, len(payload), size - HEADER)))
