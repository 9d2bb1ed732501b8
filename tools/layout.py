#!/usr/bin/env python3
r"""The bytes of TDS packets piece by piece: as text, as a page for a browser, or as a capture for Wireshark.

    tools/layout.py [--html|--pcap] [-o OUT] PACKET

PACKET is a file, or - for standard input. It holds a packet as it is sent, or several one after another: replies and
requests, each in one packet or in more. What is made goes to standard output, or with -o to the file OUT.

Without --html and --pcap it is text. A line `bytes` has the digits of some fields, and after the # what they say.
`tools/script.py compose` turns the lines into the same bytes again, whatever they are. Texts that are too long for a
line end in `..` there.

--html makes one page that needs nothing else: the bytes in rows of 16, coloured by token, and the list of all fields.
Pointing at bytes, or going to them with the Tab key, shows which field they are and what it says.

--pcap makes a capture: a connection to port 1433, with requests from the client and replies from the server.

A line `# wrong` says what is wrong about the line before it; bytes that cannot be told apart are shown as they are.
Where a reply or a stored procedure call is refused, a line says so, with the refusal and the byte at fault, counted from
0 in the packet. The refusal is what `target/bin/answer tokens` or `answer rpc` answers; without that program the line is
left out.

The exit status is 0, or 1 where a file cannot be read or written, or 2 where the arguments are wrong.
"""
import itertools
import pathlib
import signal
import subprocess
import sys

sys.dont_write_bytecode = True

import capture
import reasons
import running
import script
from layouts import packets
from layouts.fields import many
from layouts.page import page

ANSWER = pathlib.Path(__file__).resolve().parent.parent / "target/bin/answer"
USAGE = "usage: tools/layout.py [--html|--pcap] [-o OUT] PACKET, or --help"
COMMENT_AT, WIDEST = 52, 120
CONTINUED = 4  # the indent of a line that continues another
READERS = {packets.REPLY_READER: "the reply reader", packets.CALL_READER: "the call reader"}


def refusal(packet):
    """The refusal of a packet, by the program `answer`; None where there is none, or no program."""
    if packet.reader is None:
        return None
    try:
        done = running.run([ANSWER, packet.reader], packet.given, timeout=60)
    except (OSError, subprocess.TimeoutExpired):
        return None
    word, _, number = done.stdout.decode(errors="replace").rstrip("\n").rpartition("\n")[2].partition(" ")
    return int(number) if word == "refused" and number.isdigit() else None


def refused(packet, number):
    """The sentence about a refusal, and the place it stands at."""
    place = next((fault.place for fault in packet.faults if fault.number), len(packet.held))
    return place, f"{READERS[packet.reader]} stops at byte {place}: refused {number}, {reasons.cause(number)}"


def said(packet, number):
    """Sentences about what is wrong, each with its place, in order."""
    sentences = [(fault.place, f"{fault.label}: {fault.words}") for fault in packet.faults]
    if number is not None:
        sentences.append(refused(packet, number))
    return sorted(sentences, key=lambda sentence: sentence[0])


def groups(packet, line):
    """The digits of a line's fields, in groups."""
    for piece in line.pieces:
        at, last = piece.start, piece.start + piece.length
        while at < last:
            end = min(at + (piece.lead if at == piece.start and piece.lead else piece.group), last)
            yield packet.held[at:end].hex().upper()
            at = end


def rows(packet, line):
    """The text of a line: as many rows as its digits need, the first with the comment."""
    row, found = " " * line.indent + "bytes", []
    for group in groups(packet, line):
        if len(row) + 1 + len(group) > COMMENT_AT - 2:
            found.append(row)
            row = " " * CONTINUED + "bytes"
        row += " " + group
    found.append(row)
    found[0] = found[0].ljust(COMMENT_AT) + "# " + line.comment
    if len(found[0]) > WIDEST and line.comment.endswith('"'):
        found[0] = found[0][:WIDEST - 2] + ".."
    return found


def text_of_packet(packet, number):
    """A packet's rows; what is wrong stands after the line it is about."""
    sentences = said(packet, number)
    for line in packet.lines:
        yield from rows(packet, line)
        last = line.pieces[-1]
        while sentences and sentences[0][0] < last.start + last.length:
            yield "# " + sentences.pop(0)[1]
    for _, sentence in sentences:
        yield "# " + sentence


def text(name, held, found, numbers):
    yield f"# {name}, {many(len(held), 'byte')}, piece by piece."
    yield "# `tools/script.py compose` turns these lines into the same bytes."
    for i, (packet, number) in enumerate(zip(found, numbers)):
        if len(found) > 1:
            yield f"# {packets.title(packet, i + 1, len(found))}"
        yield from text_of_packet(packet, number)


def shown_name(name):
    """A file's name without its folder, with what does not print escaped."""
    if name == "-":
        return "standard input"
    return "".join(map(script.shown_character, pathlib.Path(name).name))


def captured(held):
    """A capture of packets in their order, a millisecond apart: the same packets make the same bytes."""
    frames, times = [capture.HEAD], itertools.count(0, 1000)
    connection = capture.Connection(frames.append, lambda: next(times), capture.client(50_000), capture.server(1433))
    for packet in held:
        (connection.reply if packet[:1] == bytes([packets.REPLY]) else connection.request)(packet)
    return b"".join(frames)


def made(form, name, held):
    """What the tool writes, as bytes."""
    found = packets.read(held)
    if form == "pcap":
        return captured([packet.held for packet in found])
    numbers = [refusal(packet) for packet in found]
    if form == "html":
        return page(shown_name(name), found, [said(*each) for each in zip(found, numbers)]).encode()
    return "".join(line + "\n" for line in text(shown_name(name), held, found, numbers)).encode()


def arguments(given):
    """The form, the file to write or None, and the packet's file; None where they are wrong."""
    form, out, names, words = None, None, [], list(given)
    while words:
        word = words.pop(0)
        if word in ("--html", "--pcap") and form is None:
            form = word[2:]
        elif word == "-o" and out is None and words:
            out = words.pop(0)
        elif word == "-" or not word.startswith("-"):
            names.append(word)
        else:
            return None
    return (form, out, names[0]) if len(names) == 1 else None


def read(name):
    return sys.stdin.buffer.read() if name == "-" else pathlib.Path(name).read_bytes()


def write(name, held):
    if name is None:
        sys.stdout.buffer.write(held)
        sys.stdout.buffer.flush()
    else:
        pathlib.Path(name).write_bytes(held)


def main(given):
    if given[:1] in (["-h"], ["--help"]):
        print(__doc__.strip())
        return 0
    found = arguments(given)
    if found is None:
        print(USAGE, file=sys.stderr)
        return 2
    form, out, name = found
    try:
        write(out, made(form, name, read(name)))
    except OSError as error:
        print(f"{error.filename or name}: {error.strerror}", file=sys.stderr)
        return 1
    return 0


if __name__ == "__main__":
    signal.signal(signal.SIGPIPE, signal.SIG_DFL)
    sys.exit(main(sys.argv[1:]))
