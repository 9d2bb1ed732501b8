"""The bodies of replies: tokens, those that the reply reader reads and others.

Where the reply reader's rules are broken there is a fault with its number; the first one is where that reader stops.
"""
from .fields import (Fields, Unread, bits, counted_text, hexed, many, named, read_version, read_zone, show_text,
                     tds_version)
from .refusals import COLUMNS, CUT, NO_COLUMNS, UNKNOWN_TOKEN, WRONG
from .requests import read_features, read_prelogin
from .values import read_type, read_value

COLMETADATA, ROW, DONE, ERROR, INFO = 0x81, 0xD1, 0xFD, 0xAA, 0xAB
MOST_COLUMNS = 128
MESSAGE_NUMBERS = 14  # the bytes of ERROR or INFO after its length that are no text
DONE_BITS = {0x0001: "more follows", 0x0002: "an error", 0x0004: "in a transaction", 0x0010: "the row count is valid",
             0x0020: "answers an attention", 0x0100: "a severe error"}
ENV_TEXTS = {1: "database", 2: "language", 3: "character set", 4: "packet size"}
ENV_BYTES = {7: "collation", 8: "begin of a transaction", 9: "commit", 10: "rollback"}
ENV_ROUTES = {20: "routing", 21: "routing with a database"}
SHORT_LENGTH_TOKENS = {0xA4: "TABNAME", 0xA5: "COLINFO", 0xA9: "ORDER", 0xED: "SSPI"}
INFO_OPTIONS = {0x01: "STSURL", 0x02: "SPN"}


def read_reply(f):
    """A reply's tokens, or the answer to a prelogin."""
    if f.left() and f.held[f.at] == 0x00:
        f.fault(UNKNOWN_TOKEN, "the answer to a prelogin, which the reply reader does not read", f.at, "note")
        read_prelogin(f)
    else:
        read_tokens(f)


def token_type(f, name):
    f.number("TokenType", 1, lambda code: f"{code:02X}, {name}")


def read_tokens(f):
    """A reply's tokens, until what follows cannot be told apart."""
    columns, over = [], False
    while f.left():
        code = f.held[f.at]
        if over:
            f.fault(WRONG, "bytes follow the last DONE", f.at)
            over = False
        if code == COLMETADATA:
            columns = read_columns(f)
        elif code == ROW:
            read_row(f, columns)
        elif code == DONE:
            over, columns = not read_done(f, "DONE") & 0x0001, []
        elif code in (ERROR, INFO):
            read_message(f, "ERROR" if code == ERROR else "INFO")
        else:
            read_other_token(f, code)
    if not over and not f.faults:
        f.fault(CUT, "the reply ends before its last DONE", f.at)


def read_columns(f):
    """COLMETADATA; the answer is each column's type and length."""
    line = f.line("COLMETADATA", 0)
    token_type(f, "COLMETADATA")
    count = f.number("Count", 2, lambda count: many(count, "column"))
    line.comment = f"COLMETADATA: {many(count, 'column')}"
    if count > MOST_COLUMNS:
        f.fault(COLUMNS, f"{count} columns; the reply reader holds {MOST_COLUMNS}")
    return [read_column(f) for _ in range(count)]


def read_column(f):
    line = f.line("COLMETADATA", 2, "column")
    user = f.number("UserType", 4)
    flags = f.number("Flags", 2, hexed(4))
    code, limit, type_words = read_type(f)
    words = [f"user type {user}" if user else "user type", f"flags {flags:04X}" if flags else "flags", *type_words]
    line.comment = "column: " + ", ".join(words)
    counted_text(f, "COLMETADATA", "ColName", "name", 1)
    return code, limit


def read_row(f, columns):
    f.line("ROW", 0)
    token_type(f, "ROW")
    if not columns:
        f.fault(NO_COLUMNS, "a row, and no columns for it")
    for code, limit in columns:
        read_value(f, 2, code, limit)


def done_words(status):
    return ", ".join(bits(status, DONE_BITS, 4) + ([] if status & 0x0001 else ["the last"]))


def read_done(f, name):
    """DONE; the answer is its status."""
    line = f.line(name, 0)
    token_type(f, name)
    status = f.number("Status", 2, lambda status: f"{status:04X}, {done_words(status)}")
    command = f.number("CurCmd", 2, hexed(4))
    count = f.number("DoneRowCount", 8, lambda count: many(count, "row"))
    line.comment = f"{name}: status {status:04X}, {done_words(status)}, command {command:04X}, {many(count, 'row')}"
    return status


def read_head(f, name, size=2):
    """A token's type and length; the answer is the length and where the token ends."""
    line = f.line(name, 0)
    token_type(f, name)
    length = f.number("Length", size, lambda length: f"{many(length, 'byte')} follow")
    line.comment = f"{name}: {many(length, 'byte')} after this length"
    return length, f.at + length


def read_message(f, name):
    """ERROR and INFO."""
    length, end = read_head(f, name)
    if length < MESSAGE_NUMBERS or length % 2:
        f.fault(WRONG, f"a length of {length}; {name} has an even one of {MESSAGE_NUMBERS} or more")
        f.unread(name, end, "not read")
        return
    turned = int.from_bytes(length.to_bytes(2, "little"), "big")
    if end > len(f.held) and f.held[f.at + turned:f.at + turned + 1] == bytes([DONE]):
        f.fault(None, f"with its higher byte first, as the error reply has it, the length is {turned}", None, "note")
    line = f.line(name, 4)
    number, state, severity = f.number("Number", 4), f.number("State", 1), f.number("Class", 1)
    line.comment = f"number {number}, state {state}, severity {severity}"
    units = (length - MESSAGE_NUMBERS) // 2
    for field, word, size, names_after in (("MsgText", "message", 2, 2), ("ServerName", "server", 1, 1),
                                           ("ProcName", "procedure", 1, 0)):
        line = f.line(name, 4, word)
        count = f.number(f"{field} count", size, lambda count: many(count, "unit"))
        units -= count
        if not 0 <= units <= 255 * names_after:
            f.fault(WRONG, f"a {word} of {many(count, 'unit')}, which does not go with the token's length")
            f.unread(name, end, "not read")
            return
        line.comment = f"{word}: {many(count, 'unit')}, {f.text(field, count)}"
    line = f.line(name, 4)
    line.comment = f"line {f.number('LineNumber', 4)}"


def read_other_token(f, code):
    """A token that the reply reader does not read."""
    name = OTHER_TOKENS[code][0] if code in OTHER_TOKENS else SHORT_LENGTH_TOKENS.get(code)
    if name is None:
        f.fault(UNKNOWN_TOKEN, f"{code:02X} begins no token that is known here", f.at)
        raise Unread
    if not f.faults:
        f.fault(UNKNOWN_TOKEN, f"{name} is none of the tokens that the reply reader reads", f.at, "note")
    if code in OTHER_TOKENS:
        OTHER_TOKENS[code][1](f, name)
    else:
        f.unread(name, read_head(f, name)[1], "not read")


def within(reader):
    """Reads a token whose length is told: a part that its length has no room for is shown as bytes."""
    def read(f, name, size=2):
        length, end = read_head(f, name, size)
        inner = Fields(f.held[:end])
        inner.at, inner.lines = f.at, f.lines
        try:
            reader(inner, name)
        except Unread:
            pass
        f.at = inner.at
        cut = end > len(f.held)
        for fault in inner.faults:
            f.faults.append(fault._replace(number=None) if not cut else fault)
        if not cut and f.at < end:
            f.fault(None, f"{name} has {many(end - f.at, 'byte')} more than its fields", f.at)
            f.unread(name, end, "not read")
    return read


def read_login_ack(f, name):
    line = f.line(name, 4)
    interface = f.number("Interface", 1)
    version = f.number("TDSVersion", 4, tds_version, "big")
    line.comment = f"interface {interface}, TDS version {tds_version(version)}"
    counted_text(f, name, "ProgName", "program", 1)
    line = f.line(name, 4)
    line.comment = "version " + read_version(f, "ProgVersion", 4)


def read_env_change(f, name):
    line = f.line(name, 4)
    names = {**ENV_TEXTS, **ENV_BYTES, **ENV_ROUTES}
    kind = f.number("Type", 1, lambda kind: f"{kind}, {names.get(kind, 'not known')}")
    line.comment = f"type {kind}, {names.get(kind, 'not known')}"
    if kind in ENV_TEXTS:
        counted_text(f, name, "NewValue", "new", 1)
        counted_text(f, name, "OldValue", "old", 1)
    elif kind in ENV_BYTES:
        counted_bytes(f, name, "NewValue", "new")
        counted_bytes(f, name, "OldValue", "old")
    elif kind in ENV_ROUTES:
        read_route(f, name, kind)
    else:
        f.unread(name, len(f.held), "not read")


def counted_bytes(f, token, field, word):
    line = f.line(token, 4, word)
    size = f.number(f"{field} length", 1, lambda size: many(size, "byte"))
    held = f.take(field, size, lambda held: held.hex().upper())
    line.comment = ", ".join(filter(None, [f"{word}: {many(size, 'byte')}", held.hex().upper()]))


def read_route(f, name, kind):
    line = f.line(name, 4)
    size = f.number("NewValue length", 2, lambda size: many(size, "byte"))
    protocol = f.number("Protocol", 1, lambda protocol: "0, TCP" if protocol == 0 else str(protocol))
    port = f.number("ProtocolProperty", 2, lambda port: f"port {port}")
    line.comment = f"new: {many(size, 'byte')}, protocol {protocol}, port {port}"
    counted_text(f, name, "AlternateServer", "server", 2)
    if kind == 21:
        counted_text(f, name, "AlternateDatabase", "database", 2)
    line = f.line(name, 4)
    line.comment = f"old: {many(f.number('OldValue length', 2, lambda size: many(size, 'byte')), 'byte')}"


def read_feature_ack(f, name):
    f.line(name, 0)
    token_type(f, name)
    read_features(f, name)


def read_fedauth_info(f, name):
    line = f.line(name, 4)
    base = f.at
    count = f.number("CountOfInfoIDs", 4, lambda count: many(count, "option"))
    line.comment = many(count, "option")
    items = []
    for _ in range(count):
        line = f.line(name, 2, "option")
        kind = f.number("FedAuthInfoID", 1, named(INFO_OPTIONS))
        size = f.number("FedAuthInfoDataLen", 4, lambda size: many(size, "byte"))
        start = f.number("FedAuthInfoDataOffset", 4, lambda start: f"from byte {start} of this token's data on")
        word = INFO_OPTIONS.get(kind, f"option {kind:02X}")
        line.comment = f"{word}: {many(size, 'byte')} from byte {start} on"
        items.append((base + start, size, word, show_text))
    read_zone(f, name, items)


def read_return_status(f, name):
    line = f.line(name, 0)
    token_type(f, name)
    line.comment = f"RETURNSTATUS: {f.number('Value', 4)}"


OTHER_TOKENS = {
    0xAD: ("LOGINACK", within(read_login_ack)),
    0xE3: ("ENVCHANGE", within(read_env_change)),
    0xAE: ("FEATUREEXTACK", read_feature_ack),
    0xEE: ("FEDAUTHINFO", lambda f, name: within(read_fedauth_info)(f, name, 4)),
    0xFE: ("DONEPROC", read_done),
    0xFF: ("DONEINPROC", read_done),
    0x79: ("RETURNSTATUS", read_return_status),
}
