"""Calls as the TDS dissector of tshark (Debian's tshark) shows them: `answers` gives what `answer rpc` must write.

Each call stands in a capture as the one packet of a request to port 1433. Places are those of tshark's fields. A type or a
length that it shows and that we do not read is 31.
"""
import itertools
import struct
import subprocess
import tempfile
import xml.etree.ElementTree

import capture

PORT, RPC, END_OF_MESSAGE, SECOND = 1433, 0x03, 0x01, 1_000_000
READ = {0x26: (1, 2, 4, 8), 0xE7: (*range(1, 8001), 0xFFFF), 0xA7: (0xFFFF,), 0xA5: (0xFFFF,)}
EXECUTE_SQL = 10


def packet(body):
    spid, number, window = 0, 1, 0  # tshark takes any other number for a later packet of a request
    return struct.pack(">BBHHBB", RPC, END_OF_MESSAGE, 8 + len(body), spid, number, window) + body


def answers(bodies):
    """For each body the answers to all numbers up to one past its last parameter."""
    with tempfile.NamedTemporaryFile(suffix=".pcap") as file:
        file.write(capture.HEAD)
        clock = itertools.count(0, SECOND)
        for i, body in enumerate(bodies):
            ends = capture.client(20_000 + i), capture.server(PORT)
            capture.Connection(file.write, lambda: next(clock), *ends).request(packet(body))
        file.flush()
        command = ["tshark", "-r", file.name, "-Y", "tds", "-T", "pdml", "-J", "tds"]
        done = subprocess.run(command, capture_output=True, check=True, timeout=120)
    frames = xml.etree.ElementTree.fromstring(done.stdout).iter("packet")
    return [list(read(frame, body)) for frame, body in zip(frames, bodies, strict=True)]


class Shown:
    """A field of tshark's with those below it, and its place in the body."""

    def __init__(self, field, first, body):
        self.field, self.first, self.body = field, first, body
        self.start, self.size = int(field.get("pos")) - first, int(field.get("size"))

    def all(self, *names):
        return [Shown(each, self.first, self.body) for each in self.field.iter("field") if each.get("name") in names]

    def one(self, *names):
        return next(iter(self.all(*names)), None)

    def number(self, name):
        """A field's number as tshark reads it, None where it shows none."""
        found = self.one(name)
        return None if found is None else int(found.field.get("show"), 0)

    def text(self):
        return f"{self.start} {self.size} {self.digits()}"

    def digits(self):
        return self.body[self.start:self.start + self.size].hex().upper() or "-"

    def end(self):
        return self.start + self.size


def read(frame, body):
    field = frame.find("proto[@name='tds']/field[@name='tds.rpc']")
    if field is None:
        yield ["not read"]
        return
    call = Shown(field, int(field.get("pos")), body)
    parameters = call.all("tds.rpc.parameter")
    if not all(is_read(each) for each in parameters):
        yield ["refused 31"]
        return
    front = list(head(call, parameters))
    for each in parameters:
        yield [*front, described(each), value(each)[0]]
    yield [*front, "param none"]


def is_read(parameter):
    limits = READ.get(parameter.number("tds.type_info.type"), ())
    return parameter.number("tds.type_info.varlen") in limits


def head(call, parameters):
    number = call.number("tds.rpc.proc_id")
    name = name_after(call, "tds.rpc.name_length", "tds.rpc.name")
    yield f"proc name {name}" if number is None else f"proc number {number}"
    yield f"flags {call.number('tds.rpc.options'):04X}"
    if number == EXECUTE_SQL:
        _, start, end = value(parameters[0])
        yield f"statement {start} {end - start} {call.body[start:end].hex().upper() or '-'}"


def name_after(shown, length, name):
    """A name; an empty one, which tshark does not show, stands after its length."""
    found, before = shown.one(name), shown.one(length)
    if found is None:
        return "not shown" if before is None else f"{before.end()} 0 -"
    return found.text()


def described(parameter):
    name = name_after(parameter, "tds.rpc.parameter.name_length", "tds.rpc.parameter.name")
    status, code = parameter.number("tds.rpc.parameter.status"), parameter.number("tds.type_info.type")
    collation = parameter.one("tds.type_info.collation")
    shown = collation.digits() if collation else "-"
    return f"param {name} status {status:02X} type {code:02X} {parameter.number('tds.type_info.varlen')} {shown}"


def value(parameter):
    """A value's line, and where its bytes begin and end."""
    held = parameter.one("tds.rpc.parameter.value")
    if total := held.one("tds.type_varbyte.plp_len"):
        return chunks(held, total)
    length = held.one("tds.type_varbyte.length")
    data = held.all("tds.type_varbyte.data.int", "tds.type_varbyte.data.int64", "tds.type_varbyte.data.string")
    if not data:
        return "null", length.end(), length.end()
    start, end = data[0].start, data[0].end()
    if data[0].field.get("name").endswith("string"):
        return f"part {data[0].digits()} @{start}+{end - start}", start, end
    # a TINYINT has no sign (MS-TDS 2.2.5.5.1.1), but tshark shows one
    number = int(data[0].field.get("show"))
    return f"num {number % 256 if end - start == 1 else number}", start, end


def chunks(held, total):
    if total.field.get("show") == "-1":
        return "null", total.end(), total.end()
    joined = "".join(each.digits() for each in held.all("tds.type_varbyte.plp_chunk")) or "-"
    start, end = total.end(), held.all("tds.type_varbyte.plp_chunk_len")[-1].end()
    return f"part {joined} @{start}+{end - start}", start, end
