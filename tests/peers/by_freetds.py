"""Conversations of FreeTDS with a unit: of its program tsql (Debian's freetds-bin) and of pymssql (Debian's
python3-pymssql), which rests on its library. What each tells of a reply, and what it should tell by the script's
tokens.

tsql tells all tokens in their order, each set with its names and values, each message with all its fields. It
cannot show types, a line number from 2^31 on, nor a DONE's row count: it reports the rows that it counted, and
nothing where there are none.

pymssql tells names, kinds of types, values, and messages without their numbers; an error's number is the
exception's. It shows no set without columns. At an error it withdraws the batch by an attention, so that nothing is
shown of the sets after a leading error. Its `rowcount` is that of the DONE, since the status has bit 0010 (MS-TDS
2.2.7.6; without it -1): it must be the number of rows of the set.

Two things are not in the scripts for these conversations. FreeTDS takes a message of a severity over 10 for an
error, whatever its token, so infos have up to 10 and errors over 10. And FreeTDS 1.3.17 ends the connection at a
chunk that is nothing but the first half of a surrogate pair (chunks `3DD8` and `00DE`), which MS-TDS allows, so
there is no such chunk.
"""
import os
import pathlib
import subprocess
import tempfile

import pymssql as client

import scripts

SERVER = "unit"
PATIENCE = 120
CONFIGURATION = """[global]
    tds version = 7.4
    client charset = UTF-8
    encryption = off
[{server}]
    host = 127.0.0.1
    port = {port}
"""
PROMPTS = "1> 2> "
STRING, BINARY, NUMBER = 1, 2, 3
KINDS = {0x26: NUMBER, 0xE7: STRING, 0xA7: STRING, 0xA5: BINARY}


class Script(scripts.Script):
    """Scripts without what FreeTDS cannot show."""

    def severity(self, word):
        return self.source.randint(0, 10) if word == "info" else self.source.randint(11, 255)

    def chunk(self, held, unit):
        half = unit == 2 and 0xD8 <= held[1] <= 0xDB
        return max(super().chunk(held, unit), 4 if half else 1)


def configure(folder, port):
    """Lets FreeTDS find the unit: the server's name, its port, and TDS 7.4."""
    path = pathlib.Path(folder) / "freetds.conf"
    path.write_text(CONFIGURATION.format(server=SERVER, port=port))
    os.environ["FREETDSCONF"] = str(path)


def tsql(port, texts, _):
    """For each batch the lines that tsql prints. Its outputs are one and unbuffered: messages stand in their place."""
    with tempfile.TemporaryDirectory() as folder:
        configure(folder, port)
        command = ["stdbuf", "-o0", "tsql", "-S", SERVER, "-U", "desk", "-P", "secret", "-D", scripts.DATABASE]
        said = "".join(f"{text}\ngo\n" for text in texts) + "exit\n"
        environment = {**os.environ, "LC_ALL": "C.UTF-8"}
        done = subprocess.run(command, input=said.encode(), stdout=subprocess.PIPE, stderr=subprocess.STDOUT,
                              check=True, timeout=PATIENCE, env=environment)
    told = done.stdout.decode().removesuffix("1> ").split(PROMPTS)[1:]
    return [each.split("\n")[:-1] for each in told]


def tsql_expected(tokens):
    """The lines that tsql prints of these tokens."""
    codes, rows = [], 0
    for i, token in enumerate(tokens):
        if token[0] == "columns":
            columns = tokens[i + 1:i + 1 + token[1]]
            codes, rows = [column[3] for column in columns], 0
            yield "\t".join(column[6].decode("utf-16-le") for column in columns)
        elif token[0] == "row":
            rows += 1
            yield "\t".join(shown(code, held) for code, held in zip(codes, token[1:]))
        elif token[0] == "done" and rows:
            yield f"({rows} row{'' if rows == 1 else 's'} affected)"
        elif token[0] in ("error", "info"):
            yield from message(*token[1:])


def shown(code, held):
    """A value as tsql prints it."""
    if held is None:
        return "NULL"
    return held.hex() if code == 0xA5 else str(scripts.value(code, held))


def message(number, state, severity, said, server, procedure, line):
    said, server, procedure = (each.decode("utf-16-le") for each in (said, server, procedure))
    number, line = (each - (each >> 31 << 32) for each in (number, line))  # to FreeTDS both have a sign
    by = f", Procedure {procedure}" if procedure else ""
    at = f" Line {line}" if line > 0 else ""
    yield f"Msg {number} (severity {severity}, state {state}) from {server}{by}{at}:"
    yield f'\t"{said}"'


def pymssql(port, texts, withdrawn):
    """For each batch what pymssql tells. One that is among `withdrawn` is sent before, and withdrawn after a row."""
    with tempfile.TemporaryDirectory() as folder:
        configure(folder, port)
        client._mssql.min_error_severity = 11  # pymssql's own is 6, at which some infos are raised
        connection = client.connect(server="127.0.0.1", port=str(port), user="desk", password="secret",
                                    database=scripts.DATABASE, charset="UTF-8", autocommit=True, timeout=PATIENCE,
                                    login_timeout=PATIENCE)
        told = []
        for text in texts:
            if text in withdrawn:
                withdraw(connection, text)
            told.append(heard(connection, text))
        connection.close()
    return told


def withdraw(connection, text):
    cursor = connection.cursor()
    cursor.execute(text)
    cursor.fetchone()
    connection._conn.cancel()


def heard(connection, text):
    """All that pymssql tells of one reply: messages, sets, and the error."""
    messages, sets, cursor = [], [], connection.cursor()

    def note(state, severity, server, procedure, line, said):
        messages.append(("message", state, severity, server.decode(), procedure.decode(), line % 2**32, said.decode()))

    connection._conn.set_msghandler(note)
    try:
        cursor.execute(text)
        more = bool(cursor.description)
        while more:
            sets.append(("set", *((name, kind) for name, kind, *_ in cursor.description)))
            sets.extend(("row", *row) for row in cursor.fetchall())
            sets.append(("count", cursor.rowcount))
            more = cursor.nextset()
    except client.Error as error:
        sets.append(("error", error.args[0] % 2**32))
    return messages + sets


def pymssql_expected(tokens):
    """What pymssql tells of these tokens."""
    for token in tokens:
        if token[0] in ("error", "info"):
            said, server, procedure = (each.decode("utf-16-le") for each in token[4:7])
            yield "message", token[2], token[3], server, procedure, token[7], said
    errors = [token for token in tokens if token[0] == "error"]
    if errors:
        yield "error", errors[0][1]
        return
    for columns, rows in scripts.sets(tokens):
        if columns:
            yield "set", *((name, KINDS[code]) for name, code in columns)
            yield from (("row", *row) for row in rows)
            yield "count", len(rows)
