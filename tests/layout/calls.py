"""The lines that `answer rpc` has to write for a procedure call, from the pieces of its packet alone."""
import places

HEADER = 8
EXECUTE_SQL = 10


def part(packet, fields, name):
    """A field as start, length and digits; one of no bytes stands after its count. Places count from the body's start."""
    before = fields.get("NameLenProcID" if name == "ProcName" else f"{name} count")
    start = before.start + before.length
    size = fields[name].length if name in fields else 0
    return shown(packet, start, start + size)


def shown(packet, start, end):
    return f"{start - HEADER} {end - start} {packet.held[start:end].hex().upper() or '-'}"


def number(packet, fields, name):
    return places.number(packet, fields[name])


def procedure(packet, fields):
    if "ProcID" in fields:
        return f"proc number {number(packet, fields, 'ProcID')}"
    return f"proc name {part(packet, fields, 'ProcName')}"


def groups(packet):
    """The head's fields, and for each parameter its fields and the pieces of its chunks."""
    head, parameters = {}, []
    for line in packet.lines[1:]:
        if line.token != "RPC":
            continue
        if line.indent == 2:
            parameters.append(({}, []))
        fields, chunks = parameters[-1] if parameters else (head, [])
        if line.pieces[0].field == "Chunk length":
            chunks.extend(line.pieces)
        else:
            fields.update({piece.field: piece for piece in line.pieces})
    return head, parameters


def ends(fields, chunks):
    """Where a value's bytes start and end, its chunks' lengths among them; of null, after the field that says so."""
    if chunks:
        return chunks[0].start, chunks[-1].start + chunks[-1].length
    told = fields.get("Total") or fields["Length"]
    start = told.start + told.length
    return start, start + (fields["Value"].length if "Value" in fields else 0)


def value(packet, fields, chunks):
    """The line of a value; its place counts from the body's start."""
    line = places.cell(packet, fields, chunks, number(packet, fields, "TYPE_INFO type"))
    words, at, place = line.partition(" @")
    start, plus, size = place.partition("+")
    return f"{words}{at}{int(start) - HEADER}{plus}{size}" if at else line


def parameter(packet, fields, chunks):
    collation = fields.get("COLLATION")
    digits = packet.held[collation.start:collation.start + collation.length].hex().upper() if collation else "-"
    code, limit = (number(packet, fields, f"TYPE_INFO {name}") for name in ("type", "length"))
    status = f"status {number(packet, fields, 'StatusFlags'):02X}"
    return [f"param {part(packet, fields, 'ParamName')} {status} type {code:02X} {limit} {digits}",
            value(packet, fields, chunks)]


def lines(packet):
    """For each number, up to one past the last parameter, the lines of a call that is not refused."""
    head, parameters = groups(packet)
    first = [procedure(packet, head), f"flags {number(packet, head, 'OptionFlags'):04X}"]
    if first[0] == f"proc number {EXECUTE_SQL}" and parameters:
        first.append(f"statement {shown(packet, *ends(*parameters[0]))}")
    return [first + told for told in [*(parameter(packet, *each) for each in parameters), ["param none"]]]
