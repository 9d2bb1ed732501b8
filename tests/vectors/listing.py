"""The list's way of writing calls and answers (README.md beside this file), from what the program `answer` writes."""
import re

SPARED, LONGEST_PERIOD = 48, 32  # a run spares so many bytes at least; the longest piece that is repeated
# what a login may lack, and the words for it
BYTES, NO_BYTE = ("workflow", "classversion"), "256"
PARTS, NO_PART = ("token", "server", "useragent", "database"), f"{2**64 - 1} 0"
PLACE = re.compile(r"(\S+) @([0-9]+)\+([0-9]+)")
FUNCTIONS = {
    "header": "parse_header",
    "batch": "parse_sql_batch",
    "trans": "parse_transaction_manager_request",
    "descriptor": "parse_transaction_descriptor_header",
    "fedauth": "parse_fedauth_token",
    "login": "parse_login7",
    "rpc": "parse_rpc_request",
    "tokens": "tokens",
}
INTN = 0x26


def line(name, given, answer):
    return f"{name} {given} = {answer}"


def packed(held):
    """Bytes in hexadecimal; a run of the same few bytes is `DIGITS*COUNT`, and `,` joins runs."""
    runs, start, at = [], 0, 0
    while at < len(held):
        period, count = run_at(held, at)
        if count == 0:
            at += 1
            continue
        if start < at:
            runs.append(digits(held[start:at]))
        runs.append(f"{digits(held[at:at + period])}*{count}")
        start = at = at + period * count
    if start < at:
        runs.append(digits(held[start:at]))
    return ",".join(runs) or "-"


def run_at(held, at):
    """Length and count of the pieces of the longest run at a place, if it spares enough."""
    best, most = (0, 0), 0
    for period in range(1, min(LONGEST_PERIOD, len(held) - at) + 1):
        piece, count = held[at:at + period], 1
        while held[at + period * count:at + period * (count + 1)] == piece:
            count += 1
        if max(most, SPARED) <= period * (count - 1):
            best, most = (period, count), period * (count - 1)
    return best


def digits(held):
    return held.hex().upper() or "-"


def words(call, lines):
    """The words of an answer, of the lines that `answer` writes; of `tokens` those of `answer places`."""
    if lines[-1].startswith("refused") and call != "tokens":
        return lines[-1]
    return WORDS[call](lines)


def of_header(lines):
    kind, status, *numbers = lines[0].split()[1:]
    flags = [word.partition("=")[2] for word in numbers[4:]]
    return " ".join([str(int(kind, 16)), str(int(status, 16)), *numbers[:4], *flags])


def of_part(lines):
    return " ".join(lines[0].split()[1:3])


def of_descriptor(lines):
    return lines[0].removeprefix("found ")


def of_login(lines):
    held = dict(each.split(" ", 1) for each in lines)
    for name, none in (*((name, NO_BYTE) for name in BYTES), *((name, NO_PART) for name in PARTS)):
        held[name] = none if held[name] == "none" else held[name]
    count, ids = held["features"].split()
    names = ("fedauth", "library", *BYTES, "session", *PARTS)
    return " ".join([*(held[name] for name in names), count, *map(str, bytes.fromhex(ids.strip("-")))])


def of_rpc(lines):
    return " ".join(map(rpc_words, lines))


def rpc_words(shown):
    """The words of a line: numbers decimal, a part as start and length."""
    kind, *words = shown.split()
    if kind == "proc":
        return " ".join(words[:3])
    if kind == "flags":
        return str(int(words[0], 16))
    if kind == "statement":
        return " ".join([kind, *words[:2]])
    if kind == "param":
        return "none" if words == ["none"] else parameter(words)
    return token(shown)


def parameter(words):
    """A parameter's words. Its collation, or the empty part in its place, stands after its type's length."""
    start, length, _, _, status, _, code, limit, collation = words
    status, code = int(status, 16), int(code, 16)
    place = int(start) + int(length) + 2 + (1 if code == INTN else 2)
    numbers = [start, length, status, code, limit, place, len(collation.strip("-")) // 2]
    return " ".join(map(str, ["param", *numbers]))


def of_tokens(lines):
    return " ".join(token(each) for each in lines)


def token(shown):
    """A token's words: numbers decimal, a part as start and length; one that is more than its bytes is a Max part."""
    kind, _, rest = shown.partition(" ")
    places = PLACE.findall(rest)
    numbers = PLACE.sub("", rest).split()
    if kind == "col":
        numbers[1:3] = [str(int(number, 16)) for number in numbers[1:3]]
    if kind == "FD":
        numbers[:2] = [str(int(number, 16)) for number in numbers[:2]]
    if kind == "part" and len(places[0][0].strip("-")) != 2 * int(places[0][2]):
        kind = "max"
    return " ".join([kind, *numbers, *(f"{start} {length}" for _, start, length in places)])


WORDS = {
    "header": of_header,
    "batch": of_part,
    "trans": of_part,
    "descriptor": of_descriptor,
    "fedauth": of_part,
    "login": of_login,
    "rpc": of_rpc,
    "tokens": of_tokens,
}
