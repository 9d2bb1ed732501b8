"""Captures for Wireshark and tshark, in the classic form of pcap: connections over Ethernet, IP version 4 and TCP, with the
requests of a client and the replies of a unit. Nothing is captured from a network: the frames are made here."""
import struct
from typing import NamedTuple

ETHERNET, IPV4, TCP = 1, 0x0800, 6
SYN, PUSH, ACK = 0x02, 0x08, 0x10
SEGMENT = 1460  # the most bytes of a TCP segment on Ethernet
HEAD = struct.pack("<IHHiIII", 0xA1B2C3D4, 2, 4, 0, 0, 262_144, ETHERNET)


class End(NamedTuple):
    """An end of a connection: its card, its address and its port."""
    card: bytes
    address: bytes
    port: int


def client(port, address=bytes([10, 0, 0, 1])):
    return End(bytes.fromhex("020000000001"), address, port)


def server(port, address=bytes([10, 0, 0, 2])):
    return End(bytes.fromhex("020000000002"), address, port)


def sum16(held):
    """The checksum of IP and TCP: the complement of a sum of words, in ones' complement."""
    total = sum(struct.unpack(f">{len(held) // 2}H", held[:len(held) // 2 * 2]))
    total += held[-1] << 8 if len(held) % 2 else 0
    while total >> 16:
        total = (total & 0xFFFF) + (total >> 16)
    return ~total & 0xFFFF


class Connection:
    """A connection of two ends, which begins with its handshake. Each frame goes to `write`, with the time that `clock`
    tells in microseconds."""

    def __init__(self, write, clock, client, server):
        self.write, self.clock, self.client, self.server = write, clock, client, server
        self.next, self.frames = {client: 1000, server: 5000}, 0
        self.segment(client, server, SYN)
        self.segment(server, client, SYN | ACK)
        self.segment(client, server, ACK)

    def request(self, held):
        self.say(self.client, self.server, held)

    def reply(self, held):
        self.say(self.server, self.client, held)

    def say(self, sender, receiver, held):
        """Some bytes, in as many segments as they need."""
        for at in range(0, len(held), SEGMENT):
            last = at + SEGMENT >= len(held)
            self.segment(sender, receiver, ACK | PUSH if last else ACK, held[at:at + SEGMENT])

    def segment(self, sender, receiver, flags, held=b""):
        acknowledged = self.next[receiver] if flags & ACK else 0
        tcp = struct.pack(">HHIIBBHHH", sender.port, receiver.port, self.next[sender], acknowledged, 0x50, flags, 65535,
                          0, 0)
        front = sender.address + receiver.address + struct.pack(">HH", TCP, len(tcp) + len(held))
        tcp = tcp[:16] + struct.pack(">H", sum16(front + tcp + held)) + tcp[18:]
        ip = struct.pack(">BBHHHBBH4s4s", 0x45, 0, 40 + len(held), self.frames % 65_536, 0, 64, TCP, 0, sender.address,
                         receiver.address)
        ip = ip[:10] + struct.pack(">H", sum16(ip)) + ip[12:]
        frame = receiver.card + sender.card + struct.pack(">H", IPV4) + ip + tcp + held
        seconds, microseconds = divmod(self.clock(), 10**6)
        self.write(struct.pack("<IIII", seconds, microseconds, len(frame), len(frame)) + frame)
        self.next[sender] = (self.next[sender] + len(held) + (1 if flags & SYN else 0)) % 2**32
        self.frames += 1
