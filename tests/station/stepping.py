"""Replies for the reply reader, with what the second reader (tests/reader) says of them; positions that are none."""
import pathlib
import random
import re
import struct
import sys

HERE = pathlib.Path(__file__).resolve().parent
sys.path.insert(0, str(HERE.parent / "reader"))
sys.path.insert(0, str(HERE.parent / "vectors"))

import building
import cases
import cutting
import listing
import reading

SEED = 20_260_101
RANDOM_REPLIES = 300
PLACE = re.compile(r" @[0-9]+\+[0-9]+")

# The reply of document 01's case 2 in packets of 21, 13 and 23 bytes, and the positions of a run over it: place,
# columns, columns to come, cells to come, over, packet, and the type of its column.
PACKETS = "0400001500000100" "810100" "0000000000002604016E" "0400000D00000200" "00" "D104" "0700" \
    "0401001700000300" "0000" "FD0000C1000100000000000000"
LENGTHS = {1: 21, 2: 13, 3: 23}
INT = 0x26 << 16 | 4
POSITIONS = (
    [8, 0, 0, 0, 0, 1, 0], [11, 1, 1, 0, 0, 1, 0], [9, 1, 0, 0, 0, 2, INT], [10, 1, 0, 1, 0, 2, INT],
    [10, 1, 0, 0, 0, 3, INT], [23, 0, 0, 0, 1, 3, INT],
)
SLOTS = 134
FORGED = 6_000


def packets():
    """A case for each rule, replies by chance, their prefixes, and each with a byte changed; replies in packets."""
    for _, packet, _ in cases.all_cases():
        yield packet
    source = random.Random(SEED)
    for turn in range(RANDOM_REPLIES):
        reply = building.random_reply(source)
        yield reply
        yield building.sized(reply[:source.randrange(len(reply))])
        changed = bytearray(reply)
        changed[source.randrange(8, len(reply))] = source.randrange(256)
        yield bytes(changed)
    for inputs in (cutting.truncated, cutting.ends, cutting.without_payload):
        yield from inputs()
    yield from cutting.at_random(source, RANDOM_REPLIES)


def given(held):
    return b"".join(struct.pack("<I", len(packet)) + packet for packet in held)


def answers(text):
    """The lines of each packet, as `steps` prints them."""
    return [part.split("\n") for part in text.split("\n\n")[:-1]]


def of_list(text):
    """The packets of the stored list with their answers, `tokens PACKET = WORDS`."""
    for line in text.splitlines():
        if line.startswith("tokens "):
            packet, _, words = line.removeprefix("tokens ").partition(" = ")
            yield packet, words


def list_words(lines):
    """The lines of `steps` as the list writes them."""
    return listing.words("tokens", lines)


def without_places(lines):
    return [PLACE.sub("", line) for line in lines]


def is_type(slot):
    code, length = slot >> 16, slot & 0xFFFF
    if code == 0x26:
        return length in (1, 2, 4, 8)
    return code == 0xE7 and 1 <= length <= 8000 or code in (0xE7, 0xA7, 0xA5) and length == 0xFFFF


def wrong_slot(source, position):
    """A slot with a value that no position has in it."""
    slot = source.choice([0, 1, 2, 3, 4, 5, 6] if position[1] > position[2] else [0, 1, 2, 3, 4, 5])
    huge = source.choice((source.getrandbits(64), 1 << source.randrange(8, 64), 2**64 - 1 - source.randrange(4)))
    if slot == 0:
        most = LENGTHS[position[5]]
        return slot, source.choice((source.randrange(8), most + 1 + source.randrange(4), max(most + 1, huge)))
    if slot in (1, 2, 3):
        least = 129 if slot == 1 else position[1] + 1
        return slot, source.choice((least, max(least, huge)))
    if slot == 4:
        return slot, source.choice((2, 3, max(2, huge)))
    if slot == 5:
        return slot, source.choice((0, 4, 5, 257, 258, 259, max(4, huge)))
    value = source.choice((0, huge, INT | 1 << source.randrange(24, 64), source.randrange(2**24)))
    return slot, 0 if is_type(value) else value


def forged():
    """Calls of `step` with a position of which one slot is wrong; each must answer -24 and write nothing."""
    source = random.Random(SEED)
    for _ in range(FORGED):
        position = list(source.choice(POSITIONS))
        slot, value = wrong_slot(source, position)
        position[slot] = value
        if slot == 1 and position[2] == 1:
            position[2] = value
        listed = ",".join(map(str, position))
        yield f"step i:{PACKETS} p:{listed},0*{SLOTS - len(position)} o:11"
