"""Replies read by pytds (Debian's python3-tds): packets, which its session reads from a transport that holds their
bytes, and whole conversations with a unit, in transactions.

In a conversation pytds tells all sets and messages, and of each set the DONE's row count, since the status has bit 0010
(MS-TDS 2.2.7.6; without it -1): it must be the number of rows of the set. pytds holds a packet in a buffer of the size
that the login agreed, 4,096 bytes, and fails at a longer one: the unit sends packets of that size. For a reply in one
packet the buffer is made longer here.
"""
import re
import types

import pytds.tds
from pytds import tds_base, tds_types

import scripts

PATIENCE = 120
BUFFER = 65_536
MAX_TYPES = (tds_types.NVarCharMaxSerializer, tds_types.VarCharMaxSerializer, tds_types.VarBinarySerializerMax)
COUNT = re.compile(r"rows_affected=(-?[0-9]+)")


class Bytes:
    """A transport that hands out packets."""

    def __init__(self, packet):
        self.left = packet

    def recv_into(self, view, size):
        taken, self.left = self.left[:size], self.left[size:]
        view[:len(taken)] = taken
        return len(taken)


class Session(pytds.tds._TdsSession):
    """A session that keeps what it says of a token: the row count of a DONE is told nowhere else."""

    def log_response_message(self, msg):
        self.said = msg


def tokens(packets, buffer=BUFFER):
    """The tokens of packets as pytds read them, which holds one in a buffer."""
    transport = Bytes(packets)
    connection = pytds.tds._TdsSocket()
    connection._login = types.SimpleNamespace(bytes_to_unicode=True)
    session = Session(connection, transport, None)
    session._reader.set_block_size(buffer)
    session.state = tds_base.TDS_READING
    found = []
    while True:
        marker = session._reader.get_byte()
        read_token(session, marker, found)
        if marker == tds_base.TDS_DONE_TOKEN and not session.done_flags & tds_base.TDS_DONE_MORE_RESULTS:
            break
    if transport.left or session._reader._pos != session._reader._size:
        found.append(("bytes left",))
    return found


def read_token(session, marker, found):
    failed = None
    try:
        session.process_token(marker)
    except tds_base.Error as error:  # what a DONE with the error bit raises, once it is read
        failed = error
    if marker == tds_base.TDS_DONE_TOKEN:
        found.append(("done", session.done_flags, int(COUNT.search(session.said)[1])))
        if bool(failed) != bool(session.done_flags & tds_base.TDS_DONE_ERROR):
            found.append(("error raised", str(failed)))
        return
    if failed:
        raise failed
    if marker == tds_base.TDS7_RESULT_TOKEN:
        columns = session.res_info.columns
        found.append(("columns", len(columns)))
        found.extend(column(each) for each in columns)
    elif marker == tds_base.TDS_ROW_TOKEN:
        found.append(("row", *session.row))
    else:
        found.append(message(session.messages[-1]))


def column(each):
    kind = each.serializer
    collation = getattr(kind, "_collation", None)
    sent = collation.pack() if collation else b""
    return "column", each.column_usertype, each.flags, kind.type, length(kind), sent, each.column_name


def length(kind):
    if isinstance(kind, MAX_TYPES):
        return 0xFFFF
    # pytds counts an NVARCHAR in characters
    return int(2 * kind.size) if kind.type == tds_base.XSYBNVARCHAR else kind.size


def message(said):
    word = {tds_base.TDS_ERROR_TOKEN: "error", tds_base.TDS_INFO_TOKEN: "info"}[said["marker"]]
    texts = said["message"], said["server"], said["proc_name"]
    return word, said["msgno"] % 2**32, said["state"], said["severity"], *texts, said["line_number"] % 2**32


def expected(script_tokens):
    """The script's tokens as pytds hands them out: texts as str, and no command of a DONE."""
    codes = []
    for token in script_tokens:
        kind = token[0]
        if kind == "columns":
            codes = []
            yield token
        elif kind == "column":
            codes.append(token[3])
            yield *token[:6], token[6].decode("utf-16-le")
        elif kind == "row":
            yield "row", *(scripts.value(code, held) for code, held in zip(codes, token[1:]))
        elif kind == "done":
            yield "done", token[1], token[3]
        else:
            yield *token[:4], *(held.decode("utf-16-le") for held in token[4:7]), token[7]


def conversation(port, texts, withdrawn):
    """For each batch what pytds tells. One that is among `withdrawn` is sent before, and withdrawn after a row.

    The first half is a transaction that is committed, the second half one that is rolled back."""
    connection = pytds.connect("127.0.0.1", scripts.DATABASE, "desk", "secret", port=port, timeout=PATIENCE,
                               login_timeout=PATIENCE, autocommit=False)
    told = []
    for text in texts:
        if len(told) == len(texts) // 2:
            connection.commit()
        cursor = connection.cursor()
        if text in withdrawn:
            cursor.execute(text)
            cursor.fetchone()
            cursor.cancel()
        told.append(heard(cursor, text))
    connection.rollback()
    connection.close()
    return told


def heard(cursor, text):
    """All that pytds tells of one reply: messages, the error and sets. After a leading error it goes on."""
    error, sets = [], []
    try:
        cursor.execute(text)
    except tds_base.DatabaseError as raised:
        error = [("error", raised.number % 2**32)]
    try:
        more = cursor.description is not None or cursor.nextset()
        while more:
            sets.append(("set", *(name for name, *_ in cursor.description)))
            sets.extend(("row", *row) for row in cursor.fetchall())
            sets.append(("count", cursor.rowcount))
            more = cursor.nextset()
    except Exception as raised:  # whatever else pytds raises is its answer
        sets.append(("raised", repr(raised)))
    return [told_message(said) for _, said in cursor.messages] + error + sets


def told_message(said):
    fields = said.number % 2**32, said.state, said.severity, said.text, said.srvname, said.procname
    return "message", *fields, said.line % 2**32


def conversation_expected(tokens):
    """What pytds tells of these tokens."""
    for token in tokens:
        if token[0] in ("error", "info"):
            yield "message", *token[1:4], *(held.decode("utf-16-le") for held in token[4:7]), token[7]
    for token in tokens:
        if token[0] == "error":
            yield "error", token[1]
    for columns, rows in scripts.sets(tokens):
        yield "set", *(name for name, _ in columns)
        yield from (("row", *row) for row in rows)
        yield "count", len(rows)
