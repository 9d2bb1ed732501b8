"""Packets as tshark's TDS dissector shows them: each stands in a capture as a TCP segment from or to port 1433."""
import struct
import subprocess
import tempfile
import xml.etree.ElementTree

RAW_IP = 101
PORT, OTHER_PORT = 1433, 20000
REPLY = 0x04


def shown(packets):
    """For each packet the set of its fields: each by its name with the value that tshark shows, and with its bytes."""
    with tempfile.NamedTemporaryFile(suffix=".pcap") as file:
        file.write(capture(packets))
        file.flush()
        command = ["tshark", "-r", file.name, "-T", "pdml", "-J", "tds"]
        done = subprocess.run(command, capture_output=True, check=True, timeout=120)
    tree = xml.etree.ElementTree.fromstring(done.stdout)
    return [set(fields(frame)) for frame in tree.iter("packet")]


def fields(frame):
    for field in frame.iter("field"):
        yield field.get("name"), field.get("show")
        yield field.get("name"), (field.get("value") or "").upper()


def capture(packets):
    parts = [struct.pack("<IHHiIII", 0xA1B2C3D4, 2, 4, 0, 0, 262144, RAW_IP)]
    for i, packet in enumerate(packets):
        length = 40 + len(packet)
        ip = struct.pack(">BBHHHBBH4s4s", 0x45, 0, length, 0, 0, 64, 6, 0, bytes([10, 0, 0, 1]), bytes([10, 0, 0, 2]))
        ports = (PORT, OTHER_PORT + i) if packet[0] == REPLY else (OTHER_PORT + i, PORT)
        tcp = struct.pack(">HHIIBBHHH", *ports, 1, 1, 0x50, 0x18, 65535, 0, 0)
        parts.append(struct.pack("<IIII", i, 0, length, length) + ip + tcp + packet)
    return b"".join(parts)
