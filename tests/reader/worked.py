"""The worked answers of packets.txt: what is read of packets, and steps from positions."""
import pathlib

import reading

FILE = pathlib.Path(__file__).resolve().parent / "packets.txt"


def held(groups):
    return b"".join(bytes.fromhex(group.strip("-")) for group in groups)


def rows(word):
    """The words and the answer of each line that begins with a word, with the line's place."""
    for number, line in enumerate(FILE.read_text().splitlines(), 1):
        given, _, answer = line.partition("#")[0].partition(" => ")
        if given.split(" ")[0] == word:
            yield f"packets.txt:{number}", given.split()[1:], answer.strip()


def replies():
    """Packets, each with the lines that are answered."""
    for place, groups, answer in rows("read"):
        yield place, held(groups), answer.split(" | ")


def steps():
    """Packets and a position in them, each with what the step answers."""
    for word in ("step", "last"):
        for place, (packet, at, *groups), answer in rows(word):
            yield place, held(groups), reading.Position(int(packet), int(at), over=word == "last"), answer


def told(lent, position):
    """What a step of the second reader answers, and the packet and place where it then stands."""
    try:
        reader = reading.Reader(lent, position)
        line = reader.step()
        return "end" if line is None else f"{line} at {reader.cursor.packet} {reader.cursor.place}"
    except reading.Refused as refusal:
        return f"refused {refusal}"
