"""TDS packets field by field: where each field starts, how long it is, and what it says.

`read(held)` gives the packets in some bytes, each a `Packet` with its lines. The pieces of a packet cover each of its
bytes once, in order, whatever the bytes are: what is not understood is a piece `bytes`. A message may have several
packets, whose payloads are read as one; bytes after a reply's packets that are no packet of it come as a last one.
"""
import re
from typing import NamedTuple

from .calls import read_calls
from .fields import Fault, Fields, Line, Unread, bits, many, named
from .refusals import END_BIT_WRONG, HEADER_CUT, NOT_A_REPLY, NOT_THE_NEXT, UNKNOWN_TYPE
from .replies import read_reply
from .requests import read_batch, read_fedauth_token, read_login, read_prelogin, read_transaction

HEADER = 8
CALL, REPLY = 0x03, 0x04
CALL_READER, REPLY_READER = "rpc", "tokens"  # the calls of the program `answer`
NUMBER = 4  # the bytes of the asked parameter's number, which the call reader is given before the body
TYPES = {0x01: "SQL batch", 0x02: "old login", 0x03: "RPC request", 0x04: "reply", 0x06: "attention",
         0x07: "bulk load", 0x08: "FEDAUTH token", 0x0E: "transaction request",
         0x10: "login", 0x11: "SSPI message", 0x12: "prelogin"}
READ_TYPES = (0x01, 0x03, 0x04, 0x06, 0x08, 0x0E, 0x10, 0x12)  # those that our header reader knows
STATUS_BITS = {0x01: "end of message", 0x02: "ignore", 0x08: "reset the connection",
               0x10: "reset the connection, keep the transaction"}


class Packet(NamedTuple):
    start: int
    held: bytes
    lines: list
    faults: list
    reader: str | None  # that is asked: of a reply, a header that is not read, a call (see `asked`)
    given: bytes  # what it is asked about
    part: int  # which packet of its message it is, from 1
    payload: int | None  # where its payload begins in its message's; None where it has none

    def pieces(self):
        return [piece for line in self.lines for piece in line.pieces]


BODIES = {0x01: read_batch, CALL: read_calls, REPLY: read_reply, 0x06: lambda f: None, 0x08: read_fedauth_token,
          0x0E: read_transaction, 0x10: read_login, 0x12: read_prelogin}


def read_header(f, number):
    """The header; number says which packet of its message it is, from 1. The answer is the packet's type."""
    line = f.line("header", 0)
    if f.left() < HEADER:
        f.fault(HEADER_CUT, f"a header is {HEADER} bytes, and {many(f.left(), 'byte')} are here", 0)
        raise Unread
    kind = f.number("Type", 1, named(TYPES))
    if kind not in READ_TYPES:
        f.fault(UNKNOWN_TYPE, f"type {kind:02X} is none that is read{no_packet(f.held)}")
    elif kind != REPLY and number > 1:
        f.fault(NOT_A_REPLY, f"type {kind:02X} in a reply")
    status = f.number("Status", 1, lambda status: f"{status:02X}, {status_words(status)}")
    length = f.number("Length", 2, lambda length: many(length, "byte"), "big")
    if kind == REPLY and length == HEADER:
        f.fault(NOT_A_REPLY, "a packet without a payload")
    elif length != len(f.held):
        fault = NOT_A_REPLY if kind == REPLY else None
        f.fault(fault, f"a length of {length}, and the packet has {many(len(f.held), 'byte')}")
    spid, packet_id = f.number("SPID", 2, str, "big"), f.number("PacketID", 1)
    if kind == REPLY and packet_id != number % 256:
        f.fault(NOT_THE_NEXT, f"packet number {packet_id}; {number % 256} is the next")
    window = f.number("Window", 1)
    line.comment = ", ".join([TYPES.get(kind, f"type {kind:02X}"), status_words(status), f"length {length}",
                              f"spid {spid}", f"number {packet_id}", f"window {window}"])
    return kind


def no_packet(held):
    """What bytes are that someone may have taken for a packet: a program's refusal, or a text."""
    if re.fullmatch(rb"refused [0-9]+\n", held):
        return f"; these bytes are a program's line '{held.decode().strip()}'"
    return "; these bytes are a text" if re.fullmatch(rb"[\t\n\r\x20-\x7E]+", held) else ""


def status_words(status):
    words = bits(status, STATUS_BITS, 2)
    return ", ".join(words if status & 0x01 else ["more of the message follows", *words])


def read_message_of(parts):
    """A message's packets, parts being each packet's start and bytes: the bodies are read as one."""
    whole = parts[:-1] if has_stray(parts) else parts
    heads = [Fields(held) for _, held in whole]
    kinds = [read_head_of(f, i + 1 if is_reply(whole[0]) else 1) for i, f in enumerate(heads)]
    body = Fields(b"".join([whole[0][1], *(held[HEADER:] for _, held in whole[1:])]))
    body.at, body.faults = heads[0].at, list(heads[0].faults)
    try:
        BODIES.get(kinds[0], lambda f: None)(body)
    except Unread:
        pass
    body.unread("bytes", len(body.held), "not read")
    wrong_end = end_of(parts, kinds)
    body.faults = reached(body, whole, heads, wrong_end)
    heads[0].faults = []
    shares = share(body, [(len(held), f) for (_, held), f in zip(whole, heads)])
    add_end(shares, parts, wrong_end)
    readers = readers_of(parts, kinds, shares, body)
    return [finished(*each) for each in zip(parts, shares, readers, payloads(parts))]


def is_reply(part):
    return part[1][:1] == bytes([REPLY]) and len(part[1]) >= HEADER


def is_ended(part):
    return bool(part[1][1] & 0x01)


def has_stray(parts):
    """Whether the last of a message's parts is no packet of it: bytes after the end bit, or no header of a reply."""
    return len(parts) > 1 and is_reply(parts[0]) and (is_ended(parts[-2]) or not is_reply(parts[-1]))


def end_of(parts, kinds):
    """What is wrong at the end of a reply's packets; None where nothing is, and of other messages."""
    if kinds[0] != REPLY:
        return None
    if has_stray(parts):
        return stray_words(parts[-2])
    return None if is_ended(parts[-1]) else "no packet follows, and this one has no end bit"


def stray_words(before):
    return "bytes follow the packet that has the end bit" if is_ended(before) else "no packet of a reply"


def reached(body, whole, heads, wrong_end):
    """The faults of bodies that are read as one. Those that the reader does not come to have no number: a field is read
    where it ends before a header that does not pass, or before a wrong end."""
    bad = next((i for i, f in enumerate(heads) if any(fault.number for fault in f.faults)), None)
    if bad is None and wrong_end is None:
        return body.faults
    stop = HEADER + sum(len(held) - HEADER for _, held in whole[:bad])
    sizes = {piece.start: piece.length for line in body.lines for piece in line.pieces if piece.field != "bytes"}
    in_head = len(heads[0].faults)
    return body.faults[:in_head] + [
        fault if fault.place + sizes.get(fault.place, 1) <= stop else fault._replace(number=None)
        for fault in body.faults[in_head:]]


def add_end(shares, parts, wrong_end):
    """Adds what is wrong at the end of a reply's packets, and a part that is none of them."""
    if has_stray(parts):
        f = Fields(parts[-1][1])
        if is_ended(parts[-2]):
            f.fault(END_BIT_WRONG, wrong_end, 0)
        else:
            read_head_of(f, len(parts))
        f.unread("bytes", len(f.held), "not read")
        shares.append((f.lines, f.faults))
    elif wrong_end:
        shares[-1][1].append(Fault(len(parts[-1][1]), END_BIT_WRONG, wrong_end))


def payloads(parts):
    """The number of each of a message's packets, and where its payload begins in that of the message."""
    passed = 0
    for number, (_, held) in enumerate(parts, 1):
        yield number, None if number == len(parts) and has_stray(parts) else passed
        passed += len(held) - HEADER


def readers_of(parts, kinds, shares, body):
    """The reader of each part, and what it is given."""
    if kinds[0] == CALL:
        return asked(shares, CALL_READER, bytes(NUMBER) + body.held[HEADER:])
    if kinds[0] == REPLY:
        return asked(shares, REPLY_READER, b"".join(held for _, held in parts))
    return [(REPLY_READER, held) if kind not in READ_TYPES else (None, b"") for kind, (_, held) in zip(kinds, parts)]


def asked(shares, reader, given):
    """The readers of a message's packets: the packet that has the first fault is asked about, or else the last one."""
    faulty = [i for i, (_, faults) in enumerate(shares) if any(fault.number for fault in faults)]
    place = faulty[0] if faulty else len(shares) - 1
    return [(reader, given) if i == place else (None, b"") for i in range(len(shares))]


def read_head_of(f, number):
    """The type in a header; None where the header is cut."""
    try:
        return read_header(f, number)
    except Unread:
        return None


def share(body, heads):
    """The lines and faults of each packet of a message whose bodies were read as one."""
    start, found = heads[0][1].at, []
    for i, (size, head) in enumerate(heads):
        end, shift = start + size - head.at, head.at - start
        last = i == len(heads) - 1
        lines = head.lines + [part_of(line, start, end, shift) for line in body.lines]
        faults = head.faults + [fault._replace(place=fault.place + shift) for fault in body.faults
                                if (start <= fault.place or i == 0) and (fault.place < end or last)]
        found.append((lines, faults))
        start = end
    return found


def part_of(line, start, end, shift):
    """What of a line stands between two places, moved by so many bytes."""
    part = Line(line.token, line.indent, line.comment)
    for piece in line.pieces:
        first, last = max(start, piece.start), min(end, piece.start + piece.length)
        if first < last:
            meaning = piece.meaning if first == piece.start else f"the rest of it: {piece.meaning}"
            lead = (piece.start - first) % piece.group
            part.pieces.append(piece._replace(start=first + shift, length=last - first, meaning=meaning, lead=lead))
    if part.pieces and line.pieces[0].start < start:
        part.indent, part.comment = 4, f"the rest of: {line.comment}"
    return part


def finished(part, shared, reader, place):
    """A packet, with its lines and faults, its reader, and its place in its message."""
    lines, faults = shared
    faults = faults if reader[0] else [fault._replace(number=None) for fault in faults]
    lines = [line for line in lines if line.pieces]
    return Packet(*part, lines, sorted(faults, key=lambda fault: fault.place), *reader, *place)


def title(packet, number, count):
    """What is said over one of several packets; of one that goes on with a message, where its payload begins."""
    goes_on = f"; its payload goes on from byte {packet.payload} of its message's" if packet.payload else ""
    return f"packet {number} of {count}, from byte {packet.start} on{goes_on}"


def another_header(held, at):
    """Whether a packet's header can stand at a place."""
    if len(held) - at < HEADER:
        return False
    kind, status, length, window = held[at], held[at + 1], int.from_bytes(held[at + 2:at + 4], "big"), held[at + 7]
    return kind in TYPES and not status & ~sum(STATUS_BITS) and length >= HEADER and window == 0


def cut_up(held):
    """The packets in some bytes, each as its start and bytes. A reply's packet ends where its length says, where it has
    a payload and the bytes have all of it; another one if another header stands there; else it ends at the end."""
    parts, at = [], 0
    while at < len(held) or not parts:
        length = int.from_bytes(held[at + 2:at + 4], "big")
        whole = held[at:at + 1] == bytes([REPLY]) and HEADER < length <= len(held) - at
        end = at + length
        end = end if whole or length >= HEADER and another_header(held, end) else len(held)
        parts.append((at, held[at:end]))
        at = end
    return parts


def goes_on(message, following):
    """Whether a message goes on in what follows it. After a reply's last packet, or where its next one should stand,
    bytes that are no header are its own."""
    last, header = message[-1], another_header(following[1], 0)
    if not is_reply(message[0]):
        return not is_ended(last) and last[1][0] == following[1][0]
    if has_stray(message):
        return False
    return not header or not is_ended(last) and is_reply(following)


def read(held):
    """The packets in some bytes."""
    messages = []
    for part in cut_up(held):
        if messages and goes_on(messages[-1], part):
            messages[-1].append(part)
        else:
            messages.append([part])
    return [packet for message in messages for packet in read_message_of(message)]
