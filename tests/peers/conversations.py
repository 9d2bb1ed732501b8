"""Whole conversations of three clients with a unit (tools/serve.py): prelogin, a login that is routed, a login, setup,
transactions, batches and attentions.

What a client tells of the replies is compared with the scripts, and what the unit read with what was sent: server
and database of the logins, text and transaction descriptor of each batch, the transaction requests, and the
attention that withdraws a batch.
"""
import collections

import by_freetds
import by_pytds
import scripts
import unit

# `free`: whether a batch may be any text, and be withdrawn. `transactions`: whether the client asks for them.
Client = collections.namedtuple("Client", "group name talk expected server free transactions")
CLIENTS = (
    Client("freetds", "pymssql", by_freetds.pymssql, by_freetds.pymssql_expected, unit.HOST, True, False),
    Client("freetds", "tsql", by_freetds.tsql, by_freetds.tsql_expected, by_freetds.SERVER, False, False),
    Client("pytds", "pytds", by_pytds.conversation, by_pytds.conversation_expected, unit.HOST, True, True),
)
# What trimming removes (document 01, 'Requests and logins'); of a range both ends.
WHITE = "\t\n\v\f\r \x85\xA0\u1680\u2000\u200A\u2028\u2029\u202F\u205F\u3000"
# What follows the script's number in a batch; the last makes a request of two packets.
REMARKS = ("", " -- é中😀", " -- " + "word " * 500 + ".")
WITHDRAWN = 10
OUTSIDE, INSIDE = [0, 1], [1, 1]
BEGIN, COMMIT, ROLLBACK = 5, 7, 8


def blanks(source):
    return "".join(source.choice(WHITE) for _ in range(source.choice((0, 1, 5))))


def batches(client, source, made):
    """A batch for each script, and those to withdraw: the first whose reply has rows in its first set and no error."""
    if not client.free:
        return [f"script {number}" for number in range(len(made))], []
    sent = [f"{blanks(source)}script {number}{source.choice(REMARKS)}{blanks(source)}" for number in range(len(made))]
    return sent, [text for text, (_, tokens) in zip(sent, made) if begins_with_rows(tokens)][:WITHDRAWN]


def begins_with_rows(tokens):
    words = [token[0] for token in tokens]
    return "error" not in words and "row" in words[:words.index("done")]


def hold(client, source, made):
    """A client's conversation: for each script what the client should tell and what it told, and of the requests how
    they were sent and how the unit read them."""
    sent, withdrawn = batches(client, source, made)
    with unit.running([script for script, _ in made]) as served:
        told = client.talk(served.port, sent, withdrawn)
        journal = served.journal()
    expected = [list(client.expected(tokens)) for _, tokens in made]
    return zip(expected, told, strict=True), (list(requests(client, sent, withdrawn)), list(read(journal, withdrawn)))


def requests(client, sent, withdrawn):
    """The requests of a conversation, but the client's own setup."""
    for server in (client.server, unit.HOST):
        yield "prelogin",
        yield "login", server, scripts.DATABASE
    for i, text in enumerate(sent):
        if client.transactions and i == len(sent) // 2:
            yield "transaction", COMMIT
        if client.transactions and i in (0, len(sent) // 2):
            yield "transaction", BEGIN
        batch = "batch", text.strip(WHITE), INSIDE if client.transactions else OUTSIDE
        if text in withdrawn:
            yield batch
            yield "attention",
        yield batch
    if client.transactions:
        yield "transaction", ROLLBACK


def read(journal, withdrawn):
    """The same as the unit read them. Attentions that a client sends by itself, at an error, are left out."""
    trimmed, last = {text.strip(WHITE) for text in withdrawn}, None
    for entry in journal:
        kind = entry["request"]
        if kind == "batch":
            last = entry["text"]
            if last.startswith("script "):
                yield kind, last, entry["descriptor"]
        elif kind == "login":
            yield kind, entry["server"].partition(",")[0], entry["database"]  # FreeTDS names the port of a route, too
        elif kind != "left" and (kind != "attention" or last in trimmed):
            yield kind, *(entry[field] for field in ("type", "why") if field in entry)
