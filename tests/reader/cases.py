"""A case for each rule of the reply reader: a name, a packet, and the line that its answer ends with."""
import struct

from building import KINDS, LAST, MORE, bounded, column, columns, done, integer, long_value, message, packet, row

END = "end"
N4 = (0x26, 4, "n")
TEXT = (0xE7, 10, "t")
LONG = {code: columns((code, 0xFFFF, "m")) for code in (0xE7, 0xA7, 0xA5)}


def refused(number):
    return f"refused {number}"


def header():
    whole = packet(done(LAST))
    yield "no byte", b"", refused(8)
    yield "seven bytes", whole[:7], refused(8)
    for kind in range(256):
        known = kind in (0x01, 0x03, 0x06, 0x08, 0x0E, 0x10, 0x12)
        yield f"type {kind:02X}", packet(done(LAST), kind), END if kind == 4 else refused(23 if known else 9)
    for status in range(256):
        yield f"status {status:02X}", packet(done(LAST), status=status), END if status & 1 else refused(34)
    for length in (0, 8, 20, 22, 0x1500):
        yield f"length {length}", packet(done(LAST), length=length), refused(34 if length == 20 else 23)
    for number in range(256):
        yield f"number {number}", packet(done(LAST), rest=bytes([0, 0, number, 0])), END if number == 1 else refused(33)
    yield "an unknown type, not ended", packet(b"", 0x05, 0), refused(9)
    yield "spid and window", packet(done(LAST), rest=b"\xFF\xFF\x01\xFF"), END
    yield "a header alone", packet(b""), refused(23)
    start = columns((0xA5, 0xFFFF, ""))
    besides = len(packet(start + row(long_value([b"x"])) + done(LAST))) - 1
    for length in (65534, 65535, 65536):
        whole = packet(start + row(long_value([bytes(length - besides)])) + done(LAST))
        yield f"{length} bytes", whole, END if length <= 65535 else refused(23)


def ends():
    yield "bytes after the last DONE", packet(done(LAST) + b"\x00"), refused(26)
    yield "a token after the last DONE", packet(done(LAST) + done(LAST)), refused(26)
    yield "a cut token after the last DONE", packet(done(LAST) + b"\xFD"), refused(26)
    yield "no last DONE", packet(done(MORE)), refused(24)
    for status in range(256):
        closed = packet(done(status) if not status & 1 else done(status) + done(LAST))
        yield f"DONE status {status:02X}", closed, END
    yield "high status bits", packet(done(0xFFFE, 2**64 - 1, 0xFFFF)), END


def tokens():
    for code in range(256):
        if code not in (0x81, 0xD1, 0xFD, 0xAA, 0xAB):
            yield f"token {code:02X}", packet(bytes([code])), refused(25)
            yield f"token {code:02X} after a set", packet(columns(N4) + bytes([code]) + done(LAST)), refused(25)
    for code in (0x81, 0xAA, 0xAB, 0xFD):
        yield f"token {code:02X} cut", packet(bytes([code])), refused(24)
    yield "row when fresh", packet(b"\xD1"), refused(28)
    yield "row of no columns", packet(columns() + row() + done(LAST)), refused(28)
    yield "row after a DONE", packet(columns(N4) + done(MORE) + row(integer(4, 1)) + done(LAST)), refused(28)
    yield "row cut after its code", packet(columns(N4) + b"\xD1"), refused(24)
    yield "a set after a set", packet(columns(N4) + columns(TEXT) + row(bounded(b"ab")) + done(LAST)), END
    yield "a set without columns after a set", packet(columns(N4) + columns() + row() + done(LAST)), refused(28)
    note = message(0xAB, 1, 2, 3, "m", "s", "p", 4)
    yield "infos between rows", packet(columns(N4) + note + row(integer(4, 1)) + note + row(integer(4, 2)) + note + done(LAST)), END


def metadata():
    for count in (0, 1, 127, 128, 129, 256, 0x7FFF, 0x8000, 0xFFFF):
        body = b"\x81" + struct.pack("<H", count)
        yield f"{count} columns, cut", packet(body), refused(27 if count > 128 else 24)
        described = column(*N4) * min(count, 128)
        yield f"{count} columns", packet(body + described + done(LAST)), refused(27) if count > 128 else END
    yield "a count cut in two", packet(b"\x81\xFF"), refused(24)
    for code in range(256):
        for limit in (0, 1, 2, 3, 4, 5, 8, 16, 255, 256, 7999, 8000, 8001, 0xFFFE, 0xFFFF):
            if code == 0x26 and limit > 255:
                continue
            good = (code == 0x26 and limit in (1, 2, 4, 8)) or (code == 0xE7 and (1 <= limit <= 8000 or limit == 0xFFFF)) \
                or (code in (0xA7, 0xA5) and limit == 0xFFFF)
            yield f"type {code:02X} {limit}", packet(columns((code, limit, "c")) + done(LAST)), END if good else refused(26)
    yield "a wrong type, cut after it", packet(b"\x81\x01\x00" + bytes(6) + b"\x38"), refused(26)
    yield "a type's length cut in two", packet(b"\x81\x01\x00" + bytes(6) + b"\xE7\x00"), refused(24)
    yield "a wrong length, cut after it", packet(b"\x81\x01\x00" + bytes(6) + b"\xA5\xFE\xFF"), refused(26)
    yield "user type and flags", packet(b"\x81\x01\x00" + column(*N4, user=2**32 - 1, flags=0xFFFF) + done(LAST)), END
    yield "a name of 255 units", packet(columns((0x26, 1, "x" * 255)) + done(LAST)), END
    yield "an ill-formed name", packet(columns((0x26, 1, "\ud800")) + done(LAST)), END
    kinds = [(*KINDS[i % len(KINDS)], "") for i in range(128)]
    nulls = {0x26: b"\0"}
    cells = [nulls.get(code, b"\xFF" * (2 if limit != 0xFFFF else 8)) for code, limit, _ in kinds]
    yield "128 columns and two rows", packet(columns(*kinds) + row(*cells) * 2 + done(LAST, 2)), END


def integers():
    for width in (1, 2, 4, 8):
        start = columns((0x26, width, "n"))
        for size in range(256):
            good = size in (0, width)
            yield f"integer {width}, size {size}", packet(start + row(bytes([size]) + bytes(size)) + done(LAST)), END if good else refused(26)
            yield f"integer {width}, size {size}, cut", packet(start + row(bytes([size]))), refused(24 if good else 26)
        for held in (b"\0" * width, b"\xFF" * width, b"\xFF" * (width - 1) + b"\x7F", b"\0" * (width - 1) + b"\x80"):
            yield f"integer {held.hex()}", packet(start + row(bytes([width]) + held) + done(LAST)), END


def texts():
    for limit in (1, 2, 7, 10, 8000):
        start = columns((0xE7, limit, "t"))
        for size in (0, 1, 2, 3, limit - 1, limit, limit + 1, limit + 2, 0x7FFE, 0xFFFD, 0xFFFE, 0xFFFF):
            good = size == 0xFFFF or (size % 2 == 0 and size <= limit)
            held = b"" if size == 0xFFFF else bytes(size if size < 9000 else 0)
            body = start + b"\xD1" + struct.pack("<H", size) + held
            yield f"text {limit}, size {size}", packet(body + done(LAST)), END if good else refused(26)
            cut = refused(26) if not good else refused(24)
            yield f"text {limit}, size {size}, cut", packet(start + b"\xD1" + struct.pack("<H", size)), cut
        yield f"text {limit}, size cut in two", packet(start + b"\xD1\x01"), refused(24)


def long_values():
    def total(n):
        return struct.pack("<Q", n)

    def chunk(n):
        return struct.pack("<I", n)

    for code, start in LONG.items():
        even = code == 0xE7
        start += b"\xD1"

        def case(name, held, answer, closed=True, start=start, code=code):
            return f"{code:02X} {name}", packet(start + held + (done(LAST) if closed else b"")), answer

        odd = refused(26) if even else END
        yield case("null", b"\xFF" * 8, END)
        yield case("empty", total(0) + chunk(0), END)
        yield case("empty of unknown total", total(2**64 - 2) + chunk(0), END)
        yield case("total cut", b"\xFF" * 7, refused(24), False)
        yield case("odd total", total(3) + chunk(3) + b"abc" + chunk(0), odd)
        yield case("odd total, cut", total(3), refused(26 if even else 24), False)
        yield case("greatest known total, cut", total(2**64 - 3), refused(26 if even else 24), False)
        yield case("greatest even total, cut", total(2**64 - 4), refused(24), False)
        yield case("greatest chunk, cut", total(2**64 - 2) + chunk(2**32 - 2), refused(24), False)
        yield case("greatest odd chunk, cut", total(2**64 - 2) + chunk(2**32 - 1), refused(26 if even else 24), False)
        yield case("odd chunks of an even total", total(4) + chunk(1) + b"a" + chunk(3) + b"bcd" + chunk(0), odd)
        yield case("odd chunk, cut", total(4) + chunk(1), refused(26 if even else 24), False)
        yield case("odd chunk of unknown total", total(2**64 - 2) + chunk(1) + b"a" + chunk(0), odd)
        yield case("two chunks", total(6) + chunk(2) + b"ab" + chunk(4) + b"cdef" + chunk(0), END)
        yield case("two chunks of unknown total", total(2**64 - 2) + chunk(2) + b"ab" + chunk(4) + b"cdef" + chunk(0), END)
        yield case("a chunk over the total", total(4) + chunk(6) + b"abcdef" + chunk(0), refused(26))
        yield case("a chunk over the total, cut", total(4) + chunk(6), refused(26), False)
        yield case("a second chunk over the total, cut", total(4) + chunk(2) + b"ab" + chunk(4), refused(26), False)
        yield case("a chunk after the total, cut", total(2) + chunk(2) + b"ab" + chunk(2), refused(26), False)
        yield case("a chunk of a total of 0", total(0) + chunk(2) + b"ab" + chunk(0), refused(26))
        yield case("zero before the total", total(4) + chunk(2) + b"ab" + chunk(0), refused(26))
        yield case("zero before the total, cut", total(4) + chunk(0), refused(26), False)
        yield case("no zero length", total(2) + chunk(2) + b"ab", refused(24), False)
        yield case("a chunk's length cut in two", total(2) + chunk(3)[:3], refused(24), False)
        yield case("a chunk cut", total(4) + chunk(4) + b"abc", refused(24), False)


def messages():
    for code in (0xAA, 0xAB):
        start = bytes([code])
        for length in list(range(20)) + [0xFFFD, 0xFFFE, 0xFFFF]:
            wrong = length < 14 or length % 2
            yield f"message length {length}, cut", packet(start + struct.pack("<H", length)), refused(26 if wrong else 24)
        yield "a length cut in two", packet(start + b"\x01"), refused(24)
        for units, text, server, procedure in (
            (0, 0, 0, 0), (0, 1, None, None), (0, 0xFFFF, None, None), (3, 1, 1, 1), (3, 3, 0, 0), (3, 0, 3, 0), (3, 0, 0, 3),
            (3, 4, None, None), (3, 1, 3, None), (3, 1, 1, 0), (3, 1, 1, 2), (510, 0, 255, 255), (511, 0, None, None),
            (511, 1, 255, 255), (300, 0, 44, None), (300, 0, 45, 255), (255, 0, 0, 255), (256, 0, 0, None),
            (32738, 32228, 255, 255), (32760, 32250, 255, 255), (32760, 32249, None, None),
        ):
            body = struct.pack("<HIBBH", 14 + 2 * units, 1, 2, 3, text)
            number = 24
            left = units - text
            if not 0 <= left <= 510:
                number = 26
            elif server is not None:
                body += b"m\0" * text + bytes([server])
                left -= server
                if not 0 <= left <= 255:
                    number = 26
                elif procedure is not None:
                    body += b"s\0" * server + bytes([procedure])
                    number = 24 if left == procedure else 26
            yield f"message of {units}: {text} {server} {procedure}", packet(start + body), refused(number)
            if number == 24 and procedure is not None:
                whole = packet(start + body + b"p\0" * procedure + bytes(4) + done(LAST))
                if len(whole) <= 65535:
                    yield f"whole message of {units}", whole, END


def all_cases():
    for group in (header, ends, tokens, metadata, integers, texts, long_values, messages):
        yield from group()
