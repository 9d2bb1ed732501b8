"""Calls for the comparison, built from the grammar of MS-TDS (2.2.6.6 RPC Request) by an encoder of their own."""
import struct

COLLATION = bytes([0x09, 0x04, 0xD0, 0x00, 0x34])
INTN, BIGVARBIN, BIGVARCHAR, NVARCHAR, MAX = 0x26, 0xA5, 0xA7, 0xE7, 0xFFFF
INTEGERS = {1: "<B", 2: "<h", 4: "<i", 8: "<q"}
# Types: code and length.
KINDS = [(INTN, 1), (INTN, 2), (INTN, 4), (INTN, 8), (NVARCHAR, 2), (NVARCHAR, 40), (NVARCHAR, 8000), (NVARCHAR, MAX),
         (BIGVARCHAR, MAX), (BIGVARBIN, MAX)]
# Headers: none, and the one of a transaction descriptor (2.2.5.3.2).
BARE = struct.pack("<I", 4)
IN_TRANSACTION = struct.pack("<IIHQI", 22, 18, 2, 0x0102030405060708, 1)


def utf16(text):
    return text.encode("utf-16-le", "surrogatepass")


def named(name):
    return struct.pack("<H", len(utf16(name)) // 2) + utf16(name)


def numbered(number):
    return struct.pack("<HH", 0xFFFF, number)


def parameter(name, status, code, limit, value):
    size = "<B" if code == INTN else "<H"
    collation = COLLATION if code in (NVARCHAR, BIGVARCHAR) else b""
    front = bytes([len(utf16(name)) // 2]) + utf16(name) + bytes([status, code])
    return front + struct.pack(size, limit) + collation + value


def integer(width, value):
    return b"\0" if value is None else bytes([width]) + struct.pack(INTEGERS[width], value)


def bounded(held):
    return b"\xFF\xFF" if held is None else struct.pack("<H", len(held)) + held


def long_value(chunks, known=True):
    if chunks is None:
        return b"\xFF" * 8
    total = sum(map(len, chunks)) if known else 2**64 - 2
    return struct.pack("<Q", total) + b"".join(struct.pack("<I", len(chunk)) + chunk for chunk in chunks) + bytes(4)


def head(procedure, flags=0, headers=BARE):
    return headers + procedure + struct.pack("<H", flags)


def call(procedure, *parameters, flags=0, headers=BARE):
    """A call in its pieces: all before the parameters, and each parameter."""
    return [head(procedure, flags, headers), *parameters]


def number(width, value, name="", status=0):
    return parameter(name, status, INTN, width, integer(width, value))


def text(said, limit, name="", status=0):
    return parameter(name, status, NVARCHAR, limit, bounded(None if said is None else utf16(said)))


def long_text(chunks, name="", known=True, status=0):
    held = None if chunks is None else [utf16(chunk) for chunk in chunks]
    return parameter(name, status, NVARCHAR, MAX, long_value(held, known))


def long_bytes(code, chunks, name="", known=True):
    return parameter(name, 0, code, MAX, long_value(chunks, known))


EXECUTE = numbered(10)


def by_number():
    """Calls of sp_executesql, by the kind of their statement, and of other numbers."""
    yield "a short statement", call(EXECUTE, text("select 1", 16))
    yield "an empty statement", call(EXECUTE, text("", 2))
    yield "a null statement", call(EXECUTE, text(None, 8000))
    yield "a long statement in one chunk", call(EXECUTE, long_text(["go"], "@stmt"), headers=IN_TRANSACTION)
    yield "in chunks", call(EXECUTE, long_text(["s", "el", "ect"]), number(4, 1, "@a"))
    yield "of unknown total", call(EXECUTE, long_text(["go", "on"], known=False))
    yield "of no chunk", call(EXECUTE, long_text([]))
    yield "of no chunk and unknown total", call(EXECUTE, long_text([], known=False), number(1, 0))
    yield "a null long statement", call(EXECUTE, long_text(None), long_text(None))
    yield "a number for a statement", call(EXECUTE, number(8, -2))
    yield "a null number for a statement", call(EXECUTE, number(2, None))
    yield "bytes for a statement", call(EXECUTE, long_bytes(BIGVARBIN, [b"\1", b"\2\3"]))
    query = "select * from trips where feeder = @f and poles = @p"
    yield "a query with parameters", call(EXECUTE, text(query, 2 * len(query)), text("@f nvarchar(6), @p int", 48),
                                          text("Nord 7", 12, "@f"), number(4, 3, "@p"), headers=IN_TRANSACTION)
    yield "number 11, no parameter", call(numbered(11))
    yield "number 13", call(numbered(13), number(4, None, "", 1), text("@a int", 12), text("go", 4), flags=2)
    yield "number 65535", call(numbered(0xFFFF), number(1, 255), flags=0xFFFF)
    yield "number 0", call(numbered(0), text("x", 2), flags=0x8001)


def by_name():
    """Calls by name, with values of every type and length."""
    yield "a name, no parameter", call(named("sp_who"), flags=1)
    yield "sp_executesql by its name", call(named("sp_executesql"), text("go", 4))
    yield "each integer", call(named("p"), number(1, 200, "a"), number(2, -300), number(4, 70_000), number(8, -2**63))
    yield "each null", call(named("p"), *(number(width, None) for width in INTEGERS), long_bytes(BIGVARCHAR, None))
    yield "long values", call(named("é😀"), long_bytes(BIGVARCHAR, [b"ab", b"c"], "@l"),
                              long_bytes(BIGVARBIN, [b"\0"], "@b", known=False))
    yield "bits of a status", call(named("p"), number(2, 5, "@o", 0x01), number(2, None, "@d", 0x02),
                                   number(1, 1, "@x", 0xF7))
    yield "a parameter's name of 128 units", call(named("p"), number(4, 1, "n" * 128), number(4, 2))
    yield "of 253 units", call(named("p"), text("v", 8000, "m" * 253))
    yield "many parameters", call(named("many"), *(number(1, i) for i in range(9)), flags=0x0F0F)


def fixed():
    """Calls of every kind, each with a name and in its pieces."""
    return [*by_number(), *by_name()]


def random_text(source, most):
    return "".join(source.choice("@ab é€\u4e2d0_") for _ in range(source.randint(0, most)))


def random_value(source, code, limit):
    """A value of a type; many are null or at an end of the type's range."""
    if code == INTN:
        half = 1 << (8 * limit - 1)
        low, high = (0, 255) if limit == 1 else (-half, half - 1)
        return integer(limit, source.choice((None, low, high, source.randint(low, high), source.randint(low, high))))
    unit = 2 if code == NVARCHAR else 1
    if limit != MAX:
        most = min(limit // 2, 20)
        return bounded(source.choice((None, b"", source.randbytes(2 * most), source.randbytes(2 * source.randint(0, most)))))
    if source.random() < 0.2:
        return long_value(None)
    chunks = [source.randbytes(unit * source.randint(1, 9)) for _ in range(source.randint(0, 3))]
    return long_value(chunks, known=source.random() < 0.7)


def random_parameter(source):
    code, limit = source.choice(KINDS)
    status = source.choice((0, 0, 0, 1, 2, source.getrandbits(8) & 0xF7))
    return parameter(random_text(source, 5), status, code, limit, random_value(source, code, limit))


def random_call(source, most=4):
    """A call without a fault."""
    procedure = source.choice((EXECUTE, EXECUTE, numbered(source.getrandbits(16)), named(random_text(source, 8))))
    least = 1 if procedure == EXECUTE else 0
    parameters = [random_parameter(source) for _ in range(source.randint(least, most))]
    headers = source.choice((BARE, BARE, IN_TRANSACTION))
    return b"".join(call(procedure, *parameters, flags=source.choice((0, 0, 2, source.getrandbits(16))), headers=headers))
