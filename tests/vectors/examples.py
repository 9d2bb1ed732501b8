"""The worked examples of MS-TDS in examples.txt: their bytes, the calls they go to, and what tshark shows of them."""
import collections
import pathlib

FILE = pathlib.Path(__file__).resolve().parent / "examples.txt"
HEADER, NUMBER = 8, 4

# section and title, the bytes, `answer`'s lines by call, tshark's values by field
Example = collections.namedtuple("Example", "name held answers shown")


def read():
    examples = []
    for line in FILE.read_text().splitlines():
        line = line.strip()
        if line.startswith("@ "):
            examples.append(Example(line[2:], bytearray(), {}, []))
        elif line and not line.startswith("#"):
            add(examples[-1], line)
    return examples


def add(example, line):
    call, arrow, lines = line.partition(" => ")
    if arrow:
        example.answers[call] = lines.split(" | ")
    elif line.startswith("tshark "):
        example.shown.append(tuple(line.split(" ", 2)[1:]))
    else:
        example.held.extend(bytes.fromhex(line))


def given(call, held):
    """What a call gets: the header's bytes, the whole packet, or what follows it; `rpc` a number, 0, and that."""
    if call == "header":
        return bytes(held[:HEADER])
    if call == "rpc":
        return bytes(NUMBER) + bytes(held[HEADER:])
    return bytes(held) if call == "tokens" else bytes(held[HEADER:])


def asked(given):
    """The number and the body that `rpc` gets."""
    return int.from_bytes(given[:NUMBER], "little"), given[NUMBER:]
