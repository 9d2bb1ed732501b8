"""The bodies of requests, and what replies have in common with them: a prelogin, and features."""
from .fields import (Unread, ascii_letters, hexed, letters, many, named, read_version, read_zone, show_bytes, show_text,
                     tds_version)
from .refusals import HEADERS_TOO_SMALL

FEATURES = {0x01: "SESSIONRECOVERY", 0x02: "FEDAUTH", 0x04: "COLUMNENCRYPTION", 0x05: "GLOBALTRANSACTIONS",
            0x08: "AZURESQLSUPPORT", 0x09: "DATACLASSIFICATION", 0x0A: "UTF8_SUPPORT", 0x0B: "AZURESQLDNSCACHING",
            0x0D: "JSONSUPPORT", 0x0E: "VECTORSUPPORT", 0x0F: "ENHANCEDROUTINGSUPPORT", 0x10: "USERAGENT"}
FEATURES_END = 0xFF
PRELOGIN_OPTIONS = {0x00: "VERSION", 0x01: "ENCRYPTION", 0x02: "INSTOPT", 0x03: "THREADID", 0x04: "MARS",
                    0x05: "TRACEID", 0x06: "FEDAUTHREQUIRED", 0x07: "NONCEOPT"}
PRELOGIN_END, TLS_HANDSHAKE = 0xFF, 0x16
ENCRYPTION = {0: "off", 1: "on", 2: "not supported", 3: "required"}
TRANSACTIONS = {0: "get the DTC address", 1: "propagate", 5: "begin", 6: "promote", 7: "commit", 8: "roll back",
                9: "save"}
HEADER_KINDS = {1: "query notification", 2: "transaction descriptor", 3: "trace activity"}
LOGIN_NUMBERS = (("Length", 4), ("TDSVersion", 4), ("PacketSize", 4), ("ClientProgVer", 4), ("ClientPID", 4),
                 ("ConnectionID", 4), ("OptionFlags1", 1), ("OptionFlags2", 1), ("TypeFlags", 1), ("OptionFlags3", 1),
                 ("ClientTimeZone", 4), ("ClientLCID", 4))
LOGIN_WORDS = {"TDSVersion": tds_version, "ClientTimeZone": lambda zone: str(zone - (zone >> 31 << 32)),
               "ClientProgVer": hexed(8), "OptionFlags1": hexed(2), "OptionFlags2": hexed(2), "TypeFlags": hexed(2),
               "OptionFlags3": hexed(2)}
LOGIN_PLACES = ("HostName", "UserName", "Password", "AppName", "ServerName", "Extension", "CltIntName", "Language",
                "Database")
LATER_PLACES = ("SSPI", "AtchDBFile", "ChangePassword")
IN_BYTES, SECRET = ("Extension", "SSPI"), ("Password", "ChangePassword")
EXTENSION_BIT = 0x10  # of OptionFlags3
OWN_LENGTH = 4  # the bytes of the headers' length, which it counts


def read_prelogin(f):
    """PRELOGIN, a client's or its answer: a list of options, then their data."""
    if f.left() and f.held[f.at] == TLS_HANDSHAKE:
        f.unread("TLS", len(f.held), "TLS, which is not read")
        return
    base, items = f.at, []
    while True:
        line = f.line("PRELOGIN", 2, "option")
        kind = f.number("PL_OPTION_TOKEN", 1, lambda kind: "FF, no further option" if kind == PRELOGIN_END
                        else named(PRELOGIN_OPTIONS)(kind))
        if kind == PRELOGIN_END:
            line.comment = "no further option"
            break
        start = f.number("PL_OFFSET", 2, lambda start: f"from byte {start} of the body on", "big")
        size = f.number("PL_OPTION_LENGTH", 2, lambda size: many(size, "byte"), "big")
        word = PRELOGIN_OPTIONS.get(kind, f"option {kind:02X}")
        line.comment = f"{word}: {many(size, 'byte')} from byte {start} on"
        items.append((base + start, size, word, PRELOGIN_SHOWN.get(word, show_bytes)))
    read_zone(f, "PRELOGIN", items)


def show_version(f, word, size):
    if size != 6:
        return show_bytes(f, word, size)
    f.lines[-1].comment = f"{word}: {read_version(f, word, size)}"


def show_instance(f, word, size):
    """The name of an instance, in ASCII and ended by a byte 00."""
    held = f.take(word, size, lambda held: ascii_letters(held.rstrip(b"\0")) or many(size, "byte"))
    letters_of = ascii_letters(held.rstrip(b"\0"))
    f.lines[-1].comment = ", ".join(filter(None, [f"{word}: {many(size, 'byte')}", letters_of]))


def show_number(f, word, size):
    number = f.number(word, size)
    f.lines[-1].comment = f"{word}: {number}"


def show_encryption(f, word, size):
    if size != 1:
        return show_bytes(f, word, size)
    number = f.number(word, size, lambda number: f"{number}, {ENCRYPTION.get(number, 'not known')}")
    f.lines[-1].comment = f"{word}: {number}, {ENCRYPTION.get(number, 'not known')}"


PRELOGIN_SHOWN = {"VERSION": show_version, "INSTOPT": show_instance, "ENCRYPTION": show_encryption, "MARS": show_number,
                  "FEDAUTHREQUIRED": show_number, "THREADID": show_number}


def read_login(f):
    """LOGIN7: numbers, places, then what stands at the places."""
    base, items, numbers = f.at, [], {}
    for field, size in LOGIN_NUMBERS:
        line = f.line("LOGIN7", 2, field)
        numbers[field] = f.number(field, size, LOGIN_WORDS.get(field, str))
        line.comment = f"{field}: {f.lines[-1].pieces[-1].meaning}"
    for field in LOGIN_PLACES:
        items.append(read_place(f, field, base))
    line = f.line("LOGIN7", 2, "ClientID")
    line.comment = f"ClientID: {f.bytes('ClientID', 6, lambda held: held.hex().upper()).hex().upper()}"
    for field in LATER_PLACES:
        items.append(read_place(f, field, base))
    line = f.line("LOGIN7", 2, "cbSSPILong")
    line.comment = f"cbSSPILong: {f.number('cbSSPILong', 4)}"
    if numbers["OptionFlags3"] & EXTENSION_BIT:
        items += feature_place(f, items[LOGIN_PLACES.index("Extension")], base)
    read_zone(f, "LOGIN7", items)


def read_place(f, field, base):
    """A field's place: where it starts, and its length in units or bytes."""
    line = f.line("LOGIN7", 2, field)
    noun = "byte" if field in IN_BYTES else "unit"
    start = f.number(f"ib{field}", 2, lambda start: f"from byte {start} of the login on")
    count = f.number(f"cch{field}" if noun == "unit" else f"cb{field}", 2, lambda count: many(count, noun))
    line.comment = f"{field}: {many(count, noun)} from byte {start} on"
    show = show_secret if field in SECRET else show_bytes if noun == "byte" else show_text
    return base + start, count * (2 if noun == "unit" else 1), field, show


def show_secret(f, word, size):
    f.take(word, size, "obscured", 2)
    f.lines[-1].comment = f"{word}: {many(size // 2, 'unit')}, obscured"


def feature_place(f, extension, base):
    """The place of a login's features: the extension holds it as a number."""
    start, size, *_ = extension
    held = f.held[start:start + 4]
    if size < 4 or len(held) < 4:
        return []
    place = base + int.from_bytes(held, "little")
    return [(place, 1, "FeatureExt", lambda f, word, _: read_login_features(f))] if place < len(f.held) else []


def read_login_features(f):
    f.lines.pop()  # a line a feature
    read_features(f, "LOGIN7")


def read_features(f, token):
    """Features until the end's byte: FEATUREEXTACK's, and those of a login."""
    while True:
        line = f.line(token, 2, "feature")
        kind = f.number("FeatureId", 1, lambda kind: "FF, no further feature" if kind == FEATURES_END
                        else named(FEATURES)(kind))
        if kind == FEATURES_END:
            line.comment = "no further feature"
            return
        size = f.number("FeatureDataLen", 4, lambda size: many(size, "byte"))
        line.comment = f"feature {kind:02X}, {FEATURES.get(kind, 'not known')}: {many(size, 'byte')}"
        f.bytes("FeatureData", size, lambda held: held.hex().upper())


def read_headers(f):
    """ALL_HEADERS, which stand before a batch, a call and a transaction request."""
    line, start = f.line("ALL_HEADERS", 0), f.at
    total = f.number("TotalLength", OWN_LENGTH, lambda total: f"{many(total, 'byte')} with this length")
    line.comment = f"ALL_HEADERS: {many(total, 'byte')} with this length"
    end = start + total
    if total < OWN_LENGTH:
        f.fault(HEADERS_TOO_SMALL, f"headers of {many(total, 'byte')}, which cannot hold their own length")
        raise Unread
    if end > len(f.held):
        f.fault(f.rules.cut, f"headers of {many(total, 'byte')}, which go past the body's end", len(f.held))
        raise Unread
    while f.at < end:
        read_request_header(f, end)


def read_request_header(f, end):
    line, start = f.line("ALL_HEADERS", 2, "header"), f.at
    if end - start < 6:
        f.bytes("bytes", end - start)
        f.fault(None, "a header that is cut")
        return
    size = f.number("HeaderLength", 4, lambda size: f"{many(size, 'byte')} with this length")
    kind = f.number("HeaderType", 2, lambda kind: f"{kind}, {HEADER_KINDS.get(kind, 'not known')}")
    line.comment = f"header: {many(size, 'byte')}, type {kind}, {HEADER_KINDS.get(kind, 'not known')}"
    if size < 6 or start + size > end:
        f.fault(None, f"a header of {many(size, 'byte')}, which is not within 6 and the headers' end", start)
        f.bytes("bytes", end - f.at)
    elif kind == 2 and size == 18:
        descriptor = f.number("TransactionDescriptor", 8)
        count = f.number("OutstandingRequestCount", 4)
        line.comment = f"transaction descriptor {descriptor}, {many(count, 'request')}"
    else:
        f.bytes("HeaderData", size - 6)


def read_batch(f):
    read_headers(f)
    line = f.line("SQLText", 0, "text: 0 units")
    size = f.left()
    held = f.take("SQLText", size // 2 * 2, letters, 2)
    line.comment = f"text: {many(size // 2, 'unit')}, {letters(held)}"
    if f.left():
        f.unread("SQLText", len(f.held), "a byte that is no unit")


def read_transaction(f):
    read_headers(f)
    line = f.line("TRANSACTION", 0, "type")
    kind = f.number("RequestType", 2, lambda kind: f"{kind}, {TRANSACTIONS.get(kind, 'not known')}")
    line.comment = f"type {kind}, {TRANSACTIONS.get(kind, 'not known')}"
    f.unread("TRANSACTION", len(f.held), "the rest of the request")


def read_fedauth_token(f):
    line = f.line("FEDAUTHTOKEN", 0)
    total = f.number("DataLen", 4, lambda size: f"{many(size, 'byte')} follow")
    size = f.number("FedAuthToken length", 4, lambda size: many(size, "byte"))
    line.comment = f"token message: {many(total, 'byte')} after this length, a token of {many(size, 'byte')}"
    f.line("FEDAUTHTOKEN", 2, "token")
    show_text(f, "FedAuthToken", size)
    f.unread("FEDAUTHTOKEN", len(f.held), "nonce, or what is not read")
