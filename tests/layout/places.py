"""The lines that `answer places` has to write for a reply, from its pieces alone."""
from layouts.fields import Line

REST = "the rest of it: "  # what the meaning of a field begins with that began in the packet before
BEFORE = {"Value": "Length", "COLLATION": "TYPE_INFO length"}


def number(packet, piece, signed=False):
    return int.from_bytes(packet.held[piece.start:piece.start + piece.length], "little", signed=signed)


def part(packet, token, field):
    """A field as the program shows a part; one of no bytes stands after its count or length."""
    piece = token.get(field)
    if piece is None:
        before = token[BEFORE.get(field, f"{field} count")]
        return f"- @{before.start + before.length}+0"
    return f"{packet.held[piece.start:piece.start + piece.length].hex().upper()} @{piece.start}+{piece.length}"


class Payload:
    """The payload of a message's packets: its bytes, and its lines, in which each field is one piece and counts payload
    bytes."""

    def __init__(self, packets):
        self.held, self.lines = b"", []
        for packet in packets:
            if packet.payload is not None:
                self.add(packet)

    def add(self, packet):
        shift = len(self.held) - len(packet.held) + sum(
            piece.length for piece in packet.pieces() if piece.token != "header")
        for line in packet.lines:
            pieces = [piece._replace(start=piece.start + shift) for piece in line.pieces if piece.token != "header"]
            if pieces and pieces[0].meaning.startswith(REST):
                self.lengthen(pieces.pop(0).length)
            if pieces:
                self.place(line, pieces)
        self.held += packet.held[len(self.held) - shift:]

    def lengthen(self, more):
        last = self.lines[-1].pieces
        last[-1] = last[-1]._replace(length=last[-1].length + more)

    def place(self, line, pieces):
        """A line with its pieces; those of one that began in the packet before go to that line."""
        if not line.comment.startswith("the rest of: "):
            self.lines.append(Line(line.token, line.indent, line.comment))
        self.lines[-1].pieces += pieces


def tokens(payload):
    """The lines that begin a token, each with its fields by name and with its chunks."""
    found = []
    for line in payload.lines:
        if line.indent < 4 or not found:
            found.append((line, {}, []))
        if line.indent == 4 and line.pieces[0].field == "Chunk length":
            found[-1][2].extend(line.pieces)
        else:
            found[-1][1].update({piece.field: piece for piece in line.pieces})
    return found


def cell(packet, token, chunks, code):
    if "Total" in token:
        return max_cell(packet, token, chunks)
    size = number(packet, token["Length"])
    if code == 0x26:
        return f"num {number(packet, token['Value'], size > 1)}" if size else "null"
    return "null" if size == 0xFFFF else f"part {part(packet, token, 'Value')}"


def max_cell(packet, token, chunks):
    if number(packet, token["Total"]) == 2**64 - 1:
        return "null"
    values = [packet.held[each.start:each.start + each.length] for each in chunks if each.field == "Value"]
    start, end = chunks[0].start, chunks[-1].start + chunks[-1].length
    return f"part {b''.join(values).hex().upper() or '-'} @{start}+{end - start}"


def column(packet, token):
    user, flags, code, limit = (number(packet, token[field]) for field in ("UserType", "Flags", "TYPE_INFO type",
                                                                           "TYPE_INFO length"))
    parts = f"{part(packet, token, 'COLLATION')} {part(packet, token, 'ColName')}"
    return f"col {user} {flags:04X} {code:02X} {limit} {parts}"


def message(packet, token):
    code, *numbers = (number(packet, token[field]) for field in ("TokenType", "Number", "State", "Class", "LineNumber"))
    parts = " ".join(part(packet, token, field) for field in ("MsgText", "ServerName", "ProcName"))
    return f"{code:02X} {' '.join(map(str, numbers))} {parts}"


def done(packet, token):
    status, command, count = (number(packet, token[field]) for field in ("Status", "CurCmd", "DoneRowCount"))
    return f"FD {status:04X} {command:04X} {count}"


def lines(packets):
    """The lines of the tokens of a message that are whole and known, until one that is not."""
    packet, codes, at = Payload(packets), [], 0
    for line, token, chunks in tokens(packet):
        try:
            if line.token == "COLMETADATA" and line.indent == 0:
                codes = []
                yield f"81 {number(packet, token['Count'])}"
            elif line.token == "COLMETADATA":
                codes.append(number(packet, token["TYPE_INFO type"]))
                yield column(packet, token)
            elif line.token == "ROW" and line.indent == 0:
                at = 0
                yield "D1"
            elif line.token == "ROW":
                yield cell(packet, token, chunks, codes[at])
                at += 1
            elif line.token in ("ERROR", "INFO"):
                yield message(packet, token)
            elif line.token == "DONE":
                yield done(packet, token)
            else:
                return
        except KeyError:
            return  # a field is missing: the token is cut
