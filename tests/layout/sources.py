"""The packets that layouts are made of: each a name and bytes, which need not be a packet."""
import collections
import importlib.util
import random
import re

import building
import cases
import cutting
import examples
import worked as worked_replies

# Builders that hand out bare tokens; the others make a packet.
BARE = re.compile(
    r"build_(?!query_result|prelogin|attention|fedauth_challenge|error_response|routing_response|routing_login)")
REQUESTS = {"parse_sql_batch": 0x01, "parse_transaction_manager_request": 0x0E, "parse_fedauth_token": 0x08,
            "parse_login7": 0x10, "parse_transaction_descriptor_header": 0x03, "parse_rpc_request": 0x03}
LIKELY = b"\x00\x01\x02\x04\x08\x10\x12\x26\x81\xA5\xA7\xAA\xAB\xAD\xAE\xD1\xE3\xE7\xEE\xFD\xFE\xFF"
READ_TYPES = ("type 26", "type E7", "type A7", "type A5")
MANY = 200
MOST_LISTED = 8_000  # the bytes of a listed packet that is taken; a few longer ones are taken apart


def stored(root):
    """The packets of the examples."""
    for path in sorted((root / "examples").glob("*.packet")):
        yield path.name, path.read_bytes()


def unpacked(word):
    """Bytes as the list writes them."""
    runs = [run.partition("*") for run in word.split(",")]
    return b"" if word == "-" else b"".join(bytes.fromhex(digits) * int(times or 1) for digits, _, times in runs)


def listed(root):
    """The list of calls and answers: what each builder made, requests, replies; bare tokens and bodies get a header."""
    longer = collections.Counter()
    for line in (root / "tests/vectors/list.txt").read_text().splitlines():
        call, _, answer = line.partition(" = ")
        name, *given = call.split()
        if name.startswith("build_") and not answer.startswith("refused"):
            held = unpacked(answer)
            held = building.packet(held) if BARE.match(name) else held
        elif name in REQUESTS:
            held = building.packet(unpacked(given[-1]), REQUESTS[name])
        elif name in ("tokens", "parse_header"):
            held = unpacked(given[-1])
        else:
            continue
        longer[name] += len(held) > MOST_LISTED
        if len(held) <= MOST_LISTED or longer[name] <= 1:
            yield name, held


def worked():
    """The worked examples of MS-TDS, and all of them one after another."""
    held = [(example.name, bytes(example.held)) for example in examples.read()]
    yield from held
    yield "all examples of MS-TDS", b"".join(each for _, each in held)


def of_calls(root, name):
    """A module of tests/rpc; two of its names are taken."""
    found = importlib.util.spec_from_file_location(f"rpc_{name}", root / f"tests/rpc/{name}.py")
    module = importlib.util.module_from_spec(found)
    found.loader.exec_module(module)
    return module


def called(root):
    """Procedure calls: those of tests/rpc, worked, built and as clients sent them; two in one request."""
    stored, built = of_calls(root, "stored"), of_calls(root, "building")
    bodies = [(place, body) for place, _, body, _ in stored.worked()]
    bodies += [(call.name, call.body) for call in stored.captured()]
    bodies += [(name, b"".join(pieces)) for name, pieces in built.fixed()]
    first, second = (built.call(built.named(name), built.number(4, 7, "@n")) for name in ("p", "q"))
    for flag in (b"\xFE", b"\xFF"):
        bodies.append((f"two calls, {flag.hex()}", b"".join([*first, flag, second[0][4:], *second[1:]])))
    for name, body in bodies:
        yield f"rpc, {name}", building.packet(body, 0x03)


def ruled():
    """A case for each rule of the reply reader; where a group has many, all of the types that are read, and some."""
    seen = collections.Counter()
    for name, packet, _ in cases.all_cases():
        group = name.split(" ")[0]
        seen[group] += 1
        if seen[group] <= MANY or seen[group] % 9 == 0 or name.startswith(READ_TYPES):
            yield name, packet


def in_packets(source):
    """Replies in several packets: worked ones, with faults in their headers and at their end, and by chance."""
    yield from ((place, lent) for place, lent, _ in worked_replies.replies())
    groups = {"beginning": cutting.truncated(), "ends": cutting.ends(), "empty": cutting.without_payload(),
              "cut": cutting.at_random(source, MANY)}
    for name, inputs in groups.items():
        yield from ((f"{name} {i}", lent) for i, lent in enumerate(inputs))
    yield from ((f"header byte {i}", lent) for i, lent in enumerate(cutting.header_bytes()) if i % 9 == 0)


def damaged(source, held):
    """Bytes with a few changed, put in or taken out; the header's length is mostly right."""
    held = bytearray(held)
    for _ in range(source.choice((1, 1, 2, 3))):
        at = source.randint(min(8, len(held)) if source.random() < 0.9 else 0, len(held))
        turn = source.random()
        if turn < 0.6 and at < len(held):
            held[at] = source.choice(LIKELY) if source.random() < 0.6 else source.randrange(256)
        elif turn < 0.8:
            held.insert(at, source.choice(LIKELY))
        else:
            del held[at:at + source.randint(1, 4)]
    return building.sized(bytes(held)) if source.random() < 0.8 else bytes(held)


def by_chance(source, count, undamaged):
    """Replies, damaged packets of every kind, several packets after each other, and bytes."""
    for i in range(count):
        turn = source.random()
        if turn < 0.3:
            yield f"reply {i}", building.random_reply(source)
        elif turn < 0.85:
            base = source.choice(undamaged) if turn < 0.6 else building.random_reply(source)
            yield f"damaged {i}", damaged(source, base)
        elif turn < 0.92:
            yield f"several {i}", b"".join(source.choice(undamaged) for _ in range(source.randint(2, 4)))
        else:
            yield f"bytes {i}", bytes(source.choice(LIKELY) for _ in range(source.randint(0, 40)))


def prefixes(root):
    for name, held in stored(root):
        for end in range(min(len(held), 200)):
            yield f"{name} up to {end}", held[:end]
            yield f"{name} up to {end}, sized", building.sized(held[:end])


def split(source, held):
    """A packet's message in several packets, each with a payload; all but the last say that more follows."""
    kind, body = held[0], held[8:]
    cuts = sorted(source.sample(range(1, len(body)), min(source.randint(1, 3), len(body) - 1)))
    bodies = [body[start:end] for start, end in zip([0, *cuts], [*cuts, len(body)])]
    return b"".join(building.packet(each, kind, int(i + 1 == len(bodies)), rest=bytes([0, 0, i + 1, 0]))
                    for i, each in enumerate(bodies))


def all_packets(root, seed, count):
    fixed = [*stored(root), *listed(root), *worked(), *called(root)]
    undamaged = [held for _, held in fixed if len(held) < 600]
    source = random.Random(seed)
    return [*fixed, *ruled(), *in_packets(source), *prefixes(root), *by_chance(source, count, undamaged)]
