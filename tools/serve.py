#!/usr/bin/env python3
"""A unit to connect to: answers TDS clients on 127.0.0.1, each batch and each call with the reply of a script.

    tools/serve.py [--port N] [--journal FILE] [--capture FILE] [--route] SCRIPT..

SCRIPT is a text as `tools/script.py compose` takes it, or, where its name ends in `.script`, a script's bytes. A
script that is refused is named with the number and ends this with status 1. One that does not fit is served with a
warning, since clients may not read its reply.

First it prints `listening on 127.0.0.1:PORT`, then a line for each script and for each request with its answer. Ctrl-C
ends it. Any user and password are let in: they are not looked at. All that a client says is read, and all that it hears
is written, by the calls of target/staticlib/libstation.a (`tools/build station` makes it; gcc links it).

Which script answers a batch:
- of what clients send by themselves, texts that begin with SET, USE, BEGIN, COMMIT, ROLLBACK, `SELECT @@` or `IF @@`,
  none;
- else the one that the text names: as `script N`, counted from 0 as given, or by the file's name without its ending, as
  in `select * from one-row`;
- else the only one, where one is served.
A stored procedure call (RPC) is answered as a batch is. The text of sp_executesql, by its number 10, is its statement;
that of a procedure that is called by its name is this name; other numbers choose none. Parameters are not put in.
What no script answers gets a set without columns. A request that is refused, or of a type that is not answered here
(bulk loads), ends its connection.

    --port N         the port: 1433 where none is said, a free one for 0
    --journal FILE   requests go to FILE, a line of JSON each, and not to standard output
    --capture FILE   what was said goes to FILE, too, as a capture for Wireshark and tshark
    --route          a login is routed to a second port, and accepted there

The exit status is 0 after Ctrl-C, 1 where it cannot serve, and 2 for a wrong command.
"""
import argparse
import collections
import itertools
import json
import os
import pathlib
import re
import signal
import socketserver
import struct
import subprocess
import sys
import threading
import time

sys.dont_write_bytecode = True

import capture
import reasons
from station import END_OF_MESSAGE, Missing, Refused, Station, text

HOST, PORT, LOOPBACK = "127.0.0.1", 1433, bytes([127, 0, 0, 1])
COMPOSE = [sys.executable, "-B", pathlib.Path(__file__).resolve().parent / "script.py", "compose"]
BATCH, RPC, ATTENTION, TRANSACTION, LOGIN, PRELOGIN = 0x01, 0x03, 0x06, 0x0E, 0x10, 0x12
EXECUTE_SQL, FIRST = 10, 0
RPC_SLOTS, RPC_BY_NAME, RPC_NUMBER, RPC_CASE = 19, 0, 3, 15
CASE_PART, CASE_MAX = 2, 3
TRANSACTIONS = {5: "begin", 7: "commit", 8: "rollback"}
HEADER = 8
SET, FEATURE, UTF8_SUPPORT = 0x0001, 0x0013, 0x0A
# The packet size that the login's acknowledgement agrees.
AGREED = 4_096
WITHOUT_HEADERS = struct.pack("<I", 4)
NUMBERED = re.compile(r"\bscript ([0-9]{1,9})\b", re.I)
SETUP = re.compile(r"(set|use|begin|commit|rollback)\b|select\s+@@|if\s+@@", re.I)
MOST_SHOWN = 60
MISFITS = {1: "the classification bytes of set {1}", 2: "column {3} of set {1}", 3: "cell {3} in row {2} of set {1}"}
CLIENTS, NOTING = itertools.count(1), threading.Lock()

Script = collections.namedtuple("Script", "name reply")


class Unserved(Exception):
    """Why a script cannot be served."""


class Unanswered(Exception):
    """Why a request is not answered."""


def composed(path):
    """A script's bytes, of its file or of its text."""
    if path.suffix == ".script":
        return path.read_bytes()
    done = subprocess.run([*COMPOSE, path], capture_output=True)
    if done.returncode:
        raise Unserved(done.stderr.decode(errors="replace").strip())
    return done.stdout


def loaded(station, path):
    """A script with its reply. Warns of one that does not fit."""
    try:
        script = composed(path)
        reply = station.written("build_query_results", script)
    except OSError as error:
        raise Unserved(f"{path}: {error.strerror}") from None
    except Refused as refused:
        raise Unserved(f"{path}: refused {refused.number}: {reasons.cause(refused.number)}") from None
    misfit, slots = station.numbers("fit", 4, script)
    if misfit:
        what = MISFITS[slots[0]].format(*slots)
        print(f"warning: {path} does not fit: {what}. Clients may not read its reply", file=sys.stderr)
    return Script(path.stem, reply)


def all_loaded(station, paths):
    """The scripts of all files, or what is wrong with each."""
    scripts, faults = [], []
    for path in paths:
        try:
            scripts.append(loaded(station, path))
        except Unserved as fault:
            faults.append(str(fault))
    if faults:
        raise Unserved("\n".join(faults))
    return scripts


def chosen(scripts, said):
    """The number of the script that answers a batch, or None for none."""
    if SETUP.match(said):
        return None
    if number := NUMBERED.search(said):
        return int(number[1]) if int(number[1]) < len(scripts) else None
    for i, script in enumerate(scripts):
        if re.search(rf"(?<![\w-]){re.escape(script.name)}(?![\w-])", said, re.I):
            return i
    return 0 if len(scripts) == 1 else None


def called(body, slots):
    """The bytes that choose a call's script: the procedure's name, or the statement of sp_executesql; None for none."""
    by_name, start, length, number, _, at, size = slots[:7]
    if by_name:
        return body[start:start + length]
    if number != EXECUTE_SQL:
        return None
    value, case = body[at:at + size], slots[RPC_CASE]
    return chunks_joined(value) if case == CASE_MAX else value if case == CASE_PART else b""


def chunks_joined(held):
    """The bytes of a Max value: of its chunks, until one of no bytes."""
    parts, at = [], 0
    while length := int.from_bytes(held[at:at + 4], "little"):
        parts.append(held[at + 4:at + 4 + length])
        at += 4 + length
    return b"".join(parts)


def record(kind, payload=b""):
    return struct.pack("<IH", len(payload), kind) + payload


class Conversation(socketserver.BaseRequestHandler):
    """One client's requests, answered in their order."""

    def handle(self):
        self.station, self.number = self.server.station, next(CLIENTS)
        ends = capture.client(self.client_address[1], LOOPBACK), capture.server(self.server.port, LOOPBACK)
        self.heard = capture.Connection(self.server.capture, microseconds, *ends)
        try:
            while message := self.message():
                entry, reply = self.answer(*message)
                reply = self.station.in_packets(reply, AGREED)
                self.note(**entry)
                self.heard.reply(reply)
                self.request.sendall(reply)
        except (ConnectionResetError, BrokenPipeError):
            pass  # the client has left
        except (Refused, Unanswered, OSError) as error:
            self.note(request="refused", why=str(error))
            return
        self.note(request="left")

    def note(self, **entry):
        self.server.note({"client": self.number, **entry})

    def message(self):
        """A message's type and its packets' bodies joined, or None where the client has left."""
        joined = b""
        while True:
            front = self.received(HEADER)
            if not front and not joined:
                return None
            _, (kind, status, length, *_) = self.station.numbers("parse_header", 6, front)
            body = self.received(length - HEADER)
            self.heard.request(front + body)
            if HEADER + len(body) != length:
                raise Unanswered(f"a packet has {HEADER + len(body)} bytes, and its header says {length}")
            joined += body
            if status & END_OF_MESSAGE:
                return kind, joined

    def received(self, count):
        """So many bytes, or fewer where the client has left."""
        held = b""
        while len(held) < count and (more := self.request.recv(count - len(held))):
            held += more
        return held

    def answer(self, kind, body):
        """What a request says, for the journal, and its reply."""
        answers = {PRELOGIN: self.prelogin, LOGIN: self.login, BATCH: self.batch, RPC: self.procedure_call,
                   TRANSACTION: self.transaction, ATTENTION: self.attention}
        if kind not in answers:
            raise Unanswered(f"packets of type {kind:02X} are not answered here")
        return answers[kind](body)

    def prelogin(self, _):
        return {"request": "prelogin"}, self.station.written("build_prelogin_response")

    def login(self, body):
        """A login is accepted, or routed where there is a port to route it to."""
        ids, server, database = self.station.login(body)
        entry = {"request": "login", "server": server, "database": database, "routed": self.server.onward}
        if self.server.onward:
            host = HOST.encode("utf-16-le")
            return entry, self.station.written("build_routing_response", host, self.server.onward)
        done = self.station.written("build_done_token", 0)
        return entry, self.station.packet(self.station.written("build_login_ack") + self.features(ids) + done)

    def features(self, ids):
        """The acknowledgement of UTF-8 collations, which a script's columns may have, where the login asks for it."""
        asked = record(FEATURE, bytes([UTF8_SUPPORT, 1]))
        return self.station.written("build_feature_ext_ack", asked) if UTF8_SUPPORT in ids else b""

    def batch(self, body):
        said = self.batch_text(body)
        found, held = self.station.numbers("parse_transaction_descriptor_header", 2, body)
        number, reply = self.scripted(said)
        return {"request": "batch", "text": said, "descriptor": held if found else None, "script": number}, reply

    def batch_text(self, body):
        _, place = self.station.numbers("parse_sql_batch", 2, body)
        return text(body, *place)

    def scripted(self, said):
        """The number of the script that a text chooses, None for none, and the reply."""
        number = None if said is None else chosen(self.server.scripts, said)
        if number is None:
            return None, self.station.written("build_query_results", record(SET))
        return number, self.server.scripts[number].reply

    def procedure_call(self, body):
        _, slots = self.station.numbers("parse_rpc_request", RPC_SLOTS, body, FIRST)
        held = called(body, slots)
        said = None if held is None else self.batch_text(WITHOUT_HEADERS + held)
        number, reply = self.scripted(said)
        procedure = None if slots[RPC_BY_NAME] else slots[RPC_NUMBER]
        return {"request": "call", "procedure": procedure, "text": said, "script": number}, reply

    def transaction(self, body):
        kind = self.station.call("parse_transaction_manager_request", body)
        entry = {"request": "transaction", "type": kind}
        return entry, self.station.packet(self.station.written("build_transaction_manager_response", kind))

    def attention(self, _):
        return {"request": "attention"}, self.station.written("build_attention_ack_packet")


class Server(socketserver.ThreadingTCPServer):
    """Listens on a port and answers in threads. `onward` is the port that logins are routed to, 0 for none."""
    daemon_threads = allow_reuse_address = True

    def __init__(self, port, station, scripts, options, journal, onward=0):
        super().__init__((HOST, port), Conversation)
        self.station, self.scripts, self.journal, self.onward = station, scripts, journal, onward
        self.port, self.capture = self.server_address[1], options.capture

    def start(self):
        threading.Thread(target=self.serve_forever, daemon=True).start()

    def note(self, entry):
        """A request, as a line of the journal or, where there is none, of standard output."""
        with NOTING:
            if self.journal:
                self.journal.write(json.dumps(entry) + "\n")
            else:
                print(f"client {entry['client']}: {line(entry, self.scripts)}", flush=True)


def line(entry, scripts):
    """A request and its answer, in a line."""
    kind = entry["request"]
    if kind == "login":
        database = "no database" if entry["database"] is None else f"database {shown(entry['database'])}"
        routed = f"routed to port {entry['routed']}" if entry["routed"] else "accepted"
        return f"login, server {shown(entry['server'] or '')}, {database}: {routed}"
    if kind in ("batch", "call"):
        number = entry["script"]
        answer = "a set without columns" if number is None else f"script {number}, {scripts[number].name}"
        return f"{kind} {asked(entry)}: {answer}"
    if kind == "transaction":
        return f"transaction request {entry['type']}, {TRANSACTIONS.get(entry['type'], 'another')}"
    return f"refused: {entry['why']}; the connection ends" if kind == "refused" else kind


def asked(entry):
    """What a batch or a call asks for: its text, or the number of its procedure."""
    if entry["text"] is None:
        return f"of procedure {entry['procedure']}"
    executes = entry.get("procedure") == EXECUTE_SQL
    return ("of sp_executesql " if executes else "") + shown(entry["text"])


def shown(said):
    """A client's text as a line can show it."""
    return repr(said if len(said) <= MOST_SHOWN else said[:MOST_SHOWN] + "..")


def parsed(arguments):
    """The command's options."""
    usage = "tools/serve.py [--port N] SCRIPT.., or --help"
    parser = argparse.ArgumentParser(add_help=False, prog="tools/serve.py", usage=usage)
    parser.add_argument("--help", "-h", action="store_true")
    parser.add_argument("--port", type=int, default=PORT)
    parser.add_argument("--journal")
    parser.add_argument("--capture")
    parser.add_argument("--route", action="store_true")
    parser.add_argument("scripts", nargs="*", type=pathlib.Path)
    options = parser.parse_args(arguments)
    if options.help:
        print(__doc__.strip())
        sys.exit(0)
    if not options.scripts or not 0 <= options.port <= 65_535:
        parser.error("a script is missing" if not options.scripts else "a port is within 0 to 65535")
    return options


def microseconds():
    return time.time_ns() // 1000


def captured(path):
    """What adds a frame to a capture in a file."""
    file = open(path, "wb", buffering=0)
    file.write(capture.HEAD)
    return file.write


def opened(options, scripts, station):
    """The server that listens, or two, of which the first routes to the second."""
    journal = open(options.journal, "w", encoding="ascii", buffering=1) if options.journal else None
    options.capture = captured(options.capture) if options.capture else lambda frame: None
    held = station, scripts, options, journal
    inner = Server(0, *held) if options.route else None
    door = Server(options.port, *held, inner.port if inner else 0)
    return [door, inner] if inner else [door]


def serve(options):
    """Serves until it is interrupted."""
    station = Station()
    station.require("write_header", "fit", "parse_rpc_request")
    scripts = all_loaded(station, options.scripts)
    servers = opened(options, scripts, station)
    print(f"listening on {HOST}:{servers[0].port}", flush=True)
    for i, script in enumerate(scripts):
        print(f"script {i}: {script.name}, a reply of {len(script.reply)} bytes", flush=True)
    for server in servers:
        server.start()
    threading.Event().wait()


def interrupted(*_):
    """Ends at once, threads too: all that was printed has been flushed."""
    os._exit(0)


def main(arguments):
    options = parsed(arguments)
    sys.stdout.reconfigure(errors="backslashreplace")
    signal.signal(signal.SIGINT, interrupted)
    signal.signal(signal.SIGTERM, interrupted)
    try:
        serve(options)
    except (Missing, Unserved) as fault:
        print(fault, file=sys.stderr)
    except OSError as error:
        what = error.filename or f"port {options.port} (--port 0 takes a free one)"
        print(f"{what}: {error.strerror}", file=sys.stderr)
    return 1


if __name__ == "__main__":
    sys.exit(main(sys.argv[1:]))
