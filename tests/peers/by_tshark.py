"""Replies read by the TDS dissector of tshark (Debian's tshark): each is a TCP connection from port 1433 in a capture, and
each of its packets a segment."""
import re
import struct
import subprocess
import tempfile
import xml.etree.ElementTree

RAW_IP = 101
HEADER_FIELDS = ("tds.type", "tds.status", "tds.length", "tds.channel", "tds.packet_number", "tds.window")
JOINED = "tds.fragments", "tds.reassembled"
# What XML has no room for; tshark cuts what it shows within a character, but its values are hexadecimal.
NOT_XML = re.compile("[^\t\n\r\x20-\ud7ff\ue000-\ufffd\U00010000-\U0010ffff]")


def packets(reply):
    """The packets of a reply, by their headers' lengths."""
    while reply:
        length = int.from_bytes(reply[2:4], "big")
        yield reply[:length]
        reply = reply[length:]


def capture(replies):
    parts = [struct.pack("<IHHiIII", 0xA1B2C3D4, 2, 4, 0, 0, 262144, RAW_IP)]
    for i, reply in enumerate(replies):
        sent = 1
        for packet in packets(reply):
            length = 40 + len(packet)
            ip = struct.pack(">BBHHHBBH4s4s", 0x45, 0, length, 0, 0, 64, 6, 0, bytes([10, 0, 0, 1]), bytes([10, 0, 0, 2]))
            tcp = struct.pack(">HHIIBBHHH", 1433, 20000 + i, sent, 1, 0x50, 0x18, 65535, 0, 0)
            parts.append(struct.pack("<IIII", i, 0, length, length) + ip + tcp + packet)
            sent += len(packet)
    return b"".join(parts)


def tokens(replies):
    """For each reply its tokens as tshark read them, which it shows with the last packet."""
    with tempfile.NamedTemporaryFile(suffix=".pcap") as file:
        file.write(capture(replies))
        file.flush()
        command = ["tshark", "-r", file.name, "-T", "pdml", "-J", "tds"]
        done = subprocess.run(command, capture_output=True, check=True, timeout=600)
    tree = xml.etree.ElementTree.fromstring(NOT_XML.sub("?", done.stdout.decode(errors="replace")))
    frames = iter(tree.iter("packet"))
    return [list(read([next(frames) for _ in packets(reply)][-1])) for reply in replies]


def read(frame):
    protocol = frame.find("proto[@name='tds']")
    if protocol is None:
        yield ("not read",)
        return
    for field in protocol:
        name = field.get("name")
        if name == "tds.colmetadata":
            yield from columns(field)
        elif name == "tds.row":
            yield "row", *(cell(each) for each in field if each.get("name") == "tds.row.field")
        elif name == "tds.done":
            yield "done", number(field, "status"), number(field, "curcmd"), number(field, "donerowcount64")
        elif name in ("tds.error", "tds.info"):
            yield message(field)
        elif not name.startswith((*HEADER_FIELDS, *JOINED)):
            yield "other", name, field.get("showname")


def held(field, name):
    """The bytes of a field of a token, by the end of its name."""
    each = found(field, name)
    if each is None:
        return b""
    return bytes.fromhex(each.get("unmaskedvalue") or each.get("value") or "")


def found(field, name):
    return next((each for each in field if each.get("name") == f"{field.get('name')}.{name}"), None)


def number(field, name):
    return int.from_bytes(held(field, name), "little")


def message(field):
    numbers = [number(field, name) for name in ("number", "state", "class")]
    texts = [held(field, name) for name in ("msgtext", "servername", "procname")]
    if number(field, "length") != int(field.get("size")) - 3:
        texts.append("length unlike the token's")
    return field.get("name")[4:], *numbers, *texts, number(field, "linenumber")


def columns(field):
    yield "columns", number(field, "columns")
    for each in field:
        if each.get("name") == "tds.colmetadata.field":
            yield column(each)


def column(field):
    parts = {each.get("name").rpartition(".")[2]: bytes.fromhex(each.get("value") or "") for each in field}

    def one(*names):
        return next((int.from_bytes(parts[name], "little") for name in names if name in parts), None)

    collation = b"".join(parts.get(name, b"") for name in ("collate_codepage", "collate_flags", "collate_charset_id"))
    limit = one("type_size", "large_type_size")
    kind = one("usertype"), one("results_token_flags"), one("results_token_type")
    return "column", *kind, limit, collation, parts.get("colname", b"")


def cell(field):
    """A value: an integer as tshark shows it, else bytes; of a Max value its chunks' bytes joined."""
    parts = [(each.get("name").partition("tds.type_varbyte.")[2], each) for each in field]
    names = [name for name, _ in parts]
    if "plp_len" in names:
        total = next(each for name, each in parts if name == "plp_len")
        if total.get("show") == "-1":
            return None
        joined = b"".join(bytes.fromhex(each.get("value")) for name, each in parts if name == "plp_chunk")
        return joined if int(total.get("show")) == len(joined) else ("total", total.get("show"), joined)
    name, data = parts[-1]
    if name == "data.null":
        return None
    if name.startswith("data.int"):
        # a TINYINT has no sign (MS-TDS 2.2.5.5.1.1), but tshark shows one
        return int(data.get("show")) % 256 if data.get("size") == "1" else int(data.get("show"))
    return bytes.fromhex(data.get("value") or "")
