"""What other programs make of a column's name that is counted in characters, as the Rust counts it: the evidence for
request 2026-08, by which it is counted in units.

Two scripts have a first column whose name is one surrogate pair, and two. Their replies are read by pytds and tshark, and
in whole conversations of two batches by pymssql, tsql and pytds. As they are sent, each program must tell all that the
script says; with the count in characters, each must lose its place. What each tells stands in characters.txt, which
`tests/peers/run` compares with what it finds, and `tests/peers/run --renew` writes.
"""
import pathlib

import by_pytds
import by_tshark
import characters_unit
import conversations
import scripts
import unit

STORED = pathlib.Path(__file__).resolve().with_suffix(".txt")
HEAD = """\
# What other programs make of a reply whose first column's name is one surrogate pair, and two, by the count before the name: in
# units, as MS-TDS has it, or in characters, as the Rust has it. FreeTDS 1.3.17 (pymssql, tsql), pytds 1.11, tshark 4.0.17.
# Made by `tests/peers/run --renew`.
"""
SECOND = "n".encode("utf-16-le")
BATCHES = ["script 0"] * 2
WHOLE = "all that the script says"


def found(reply):
    """The lines of characters.txt, each with whether it is as it must be. `reply` makes a script's reply."""
    for name in characters_unit.NAMES:
        script, tokens = scripts.named_script([name, SECOND])
        units, characters = characters_unit.counts(name)
        sent = reply(script)
        told = [*of_packet(sent, tokens), *of_conversations(unit.TOOL, script, tokens)]
        yield from lines(name, units, sent, told, True)
        changed = characters_unit.in_characters(sent)
        told = [*of_packet(changed, tokens), *of_conversations(characters_unit.__file__, script, tokens)]
        yield from lines(name, characters, changed, told, False)


def lines(name, count, reply, told, whole):
    """A heading, and what each program told of a reply: all of it where it must be `whole`, and else not."""
    yield f"{name.decode('utf-16-le')} with count {count:02X}: {reply.hex().upper()}", True
    for program, expected, said in told:
        words = WHOLE if expected == said else f"loses its place, {said}"
        yield f"  {program}: {words}", (expected == said) == whole


def of_packet(reply, tokens):
    """Of each program that reads a packet: its name, what it should tell and what it told."""
    yield "pytds, packet", list(by_pytds.expected(tokens)), tried(by_pytds.tokens, reply)
    yield "tshark, packet", tokens, by_tshark.tokens([reply])[0]


def of_conversations(tool, script, tokens):
    """The same of each client, that asks the unit of a tool for the script's reply."""
    for client in conversations.CLIENTS:
        with unit.running([script], tool) as served:
            said = tried(client.talk, served.port, BATCHES, [])
        yield f"{client.name}, two batches", [list(client.expected(tokens))] * 2, said


def tried(read, *arguments):
    """What a program tells; what it raises is its answer."""
    try:
        return read(*arguments)
    except Exception as raised:
        return repr(raised)


def stored():
    return [each for each in STORED.read_text().splitlines() if not each.startswith("#")]


def store(lines):
    STORED.write_text(HEAD + "".join(f"{each}\n" for each in lines))
