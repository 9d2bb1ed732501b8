"""Calls as the library's export station_parse_rpc_request reads them, by the slots of include/station.h.

`expected` gives the slots that stand for the lines of `answer rpc`; those that do not apply are 0.
"""
from station import NO_PART, Refused

SLOTS = 19
BY_NAME, NAME, NUMBER, FLAGS, STATEMENT, FOUND, PARAMETER, STATUS, CODE, LIMIT, COLLATION, CASE, BITS, PART = (
    0, 1, 3, 4, 5, 7, 8, 10, 11, 12, 13, 15, 16, 17)
NUMBERED, BOUNDED, MAX = 1, 2, 3
INTN, MAX_LENGTH = 0x26, 65_535


def slots(station, body, number):
    """The export's slots, or the line of its refusal."""
    try:
        answer, found = station.numbers("parse_rpc_request", SLOTS, body, number)
    except Refused as refused:
        return f"refused {refused.number}"
    return found if answer == 0 else f"answer {answer}"


def expected(lines):
    """The slots of an answer of these lines, or the line of its refusal."""
    if lines[0].startswith("refused"):
        return lines[0]
    out = [0] * SLOTS
    out[STATEMENT] = NO_PART
    for words in map(str.split, lines):
        if words[:2] == ["proc", "name"]:
            out[BY_NAME], out[NAME:NAME + 2] = 1, map(int, words[2:4])
        elif words[0] == "proc":
            out[NUMBER] = int(words[2])
        elif words[0] == "flags":
            out[FLAGS] = int(words[1], 16)
        elif words[0] == "statement":
            out[STATEMENT:STATEMENT + 2] = map(int, words[1:3])
        elif words[0] == "param" and words[1] != "none":
            put_parameter(out, words)
        elif words[0] == "num":
            out[CASE], out[BITS] = NUMBERED, int(words[1]) % 2**64
        elif words[0] == "part":
            out[CASE] = MAX if out[LIMIT] == MAX_LENGTH else BOUNDED
            out[PART:PART + 2] = map(int, words[2].removeprefix("@").split("+"))
    return out


def put_parameter(out, words):
    """The slots of `param START LENGTH HEX status HH type CODE LENGTH COLLATION`."""
    start, length, _, _, status, _, code, limit, collation = words[1:]
    out[FOUND], out[PARAMETER:PARAMETER + 2] = 1, [int(start), int(length)]
    out[STATUS], out[CODE], out[LIMIT] = int(status, 16), int(code, 16), int(limit)
    after = int(start) + int(length) + 2 + (1 if out[CODE] == INTN else 2)  # status, code and the type's length
    out[COLLATION:COLLATION + 2] = [after, 0 if collation == "-" else len(collation) // 2]
