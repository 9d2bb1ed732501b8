"""Stored procedure calls for the list, with the answers of the second reader (tests/rpc/reading.py).

Headers lengths that cannot be; calls of every kind, each asked for parameter 0 and for another number; calls that clients
sent; calls that are damaged.
"""
import importlib.util
import pathlib

FOLDER = pathlib.Path(__file__).resolve().parent.parent / "rpc"
SENT, DAMAGED = 20, 40
LONGEST = 300
GREATEST = 2**64 - 1


def loaded(name):
    """A module of tests/rpc, where it has a name that tests/reader has too."""
    spec = importlib.util.spec_from_file_location(f"rpc_{name}", FOLDER / f"{name}.py")
    module = importlib.util.module_from_spec(spec)
    spec.loader.exec_module(module)
    return module


building, reading, stored = map(loaded, ("building", "reading", "stored"))


def cases(source):
    """The calls: an asked number, a body, and the lines of its answer."""
    fixed = [b"".join(pieces) for _, pieces in building.fixed()]
    sent = list(dict.fromkeys(call.body for call in stored.captured() if len(call.body) <= LONGEST))
    yield answered(0, b"")
    for length in range(4):
        yield answered(0, bytes([length, 0, 0, 0]) + fixed[0][4:])
    for body in fixed:
        yield answered(0, body)
        yield answered(another(source, body), body)
    for body in source.sample(sent, SENT):
        yield answered(source.randrange(count(body) or 1), body)
    for _ in range(DAMAGED):
        body = damaged(source, source.choice((source.choice(fixed), building.random_call(source))))
        yield answered(another(source, body), body)


def answered(number, body):
    return number, body, reading.Call(body).lines(number)


def count(body):
    return len(reading.Call(body).parameters)


def another(source, body):
    """A number from 1 on: 1, the last parameter's, the one past it, or the greatest."""
    return source.choice(sorted({1, count(body) - 1, count(body), GREATEST} - {-1, 0}))


def damaged(source, body):
    """A body with its end cut off, or with a byte changed or added."""
    place, chance = source.randrange(len(body)), source.random()
    byte = source.choice((body[place] ^ 1, body[place] ^ 8, 0xFE, 0xFF, source.getrandbits(8)))
    if chance < 0.35:
        return body[:place]
    at = len(body) if chance > 0.85 else place
    return body[:at] + bytes([byte]) + body[at + 1:]
