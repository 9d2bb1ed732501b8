"""The list of calls and the oracle's answers (tests/vectors/list.txt) as lines for `calls`, with what must be printed.

A case is a line and what its answer must be: a text, or a function that says of the answer printed whether it is right.
Each line of the list becomes several: as it stands, and with lent slices that are exact, longer, one short, and empty.
"""
import re

# The macro that counts the slots of `out`, for each export that has some.
SLOTS = {
    "parse_header": "HEADER", "text": "TEXT", "parse_sql_batch": "PART", "parse_fedauth_token": "PART",
    "parse_transaction_descriptor_header": "DESCRIPTOR", "parse_rpc_request": "RPC", "parse_login7": "LOGIN",
    "database": "PART", "fit": "FIT",
}
MISFITS = {"class": 1, "column": 2, "cell": 3}
VALUES = {"null": 0, "num": 1, "part": 2, "max": 3}
NO_PART = 2**64 - 1
HEADER_BYTES = 8
TOO_SHORT = "-20"


def expanded(text):
    """Hexadecimal digits, of runs `DIGITS*COUNT` joined by `,`."""
    runs = (run.partition("*") for run in text.strip("-").split(","))
    return "".join(digits * int(count or 1) for digits, _, count in runs) or "-"


def slots(numbers):
    return "o:" + ",".join(map(str, numbers))


def sizes(needed):
    """Sizes of a lent slice around the one that is needed: enough, then too few."""
    return (needed, needed + 3), [size for size in {needed - 1, 0} if 0 <= size < needed]


class Listed:
    def __init__(self, functions, constants):
        self.functions = functions
        self.slots = {name: constants[f"STATION_{macro}_SLOTS"] for name, macro in SLOTS.items()}
        self.null = constants["STATION_NULL_LABEL"]

    def cases(self, text):
        for line in text.splitlines():
            if line and not line.startswith("#") and not line.startswith("tokens "):
                given, _, answer = line.partition(" = ")
                name, *arguments = given.split()
                yield from self.of_line(name, arguments, answer)

    def of_line(self, name, arguments, answer):
        if f"station_{name}" not in self.functions:
            yield f"{name}", "an export of the header"
        elif name == "parse_login7":
            yield from self.login(arguments, answer)
        elif name == "parse_rpc_request":
            yield from self.procedure(arguments, answer)
        elif name == "room_in_packets":
            yield f"{name} i:{expanded(arguments[1])} n:{arguments[0]}", answer.replace("refused ", "-")
        elif name == "capture_marks":
            yield from self.capture(arguments, answer)
        elif name in ("read_label", "write_label"):
            yield from self.label(name, arguments, answer)
        elif name == "database":
            yield from self.database(*map(expanded, arguments), expanded(answer))
        elif name in ("room", "parse_transaction_manager_request"):
            yield f"{name} i:{expanded(arguments[0])}", answer.replace("refused ", "-")
        elif name in ("fit", "is_whitespace"):
            yield from getattr(self, name)(expanded(arguments[0]), answer)
        elif name in self.slots:
            yield from self.numbers(name, expanded(arguments[0]), answer)
        else:
            yield from self.build(name, arguments, answer)

    def numbers(self, name, given, answer):
        """An export with an input and slots."""
        enough, few = sizes(self.slots[name])
        number, words = "0", answer.split()
        if name == "parse_transaction_descriptor_header":
            number = "1"
        if answer == "none":
            number, enough, few = "0", (*enough, *few), ()
        told = f"{number} {slots(words[:self.slots[name]])}" if answer != "none" else number
        refused = f"-{words[1]}" if words[0] == "refused" else None
        for size in enough:
            yield f"{name} i:{given} o:{size}", refused or told
        for size in few:
            yield f"{name} i:{given} o:{size}", refused or TOO_SHORT

    def login(self, arguments, answer):
        lent, body = int(arguments[0]), expanded(arguments[1])
        enough, few = sizes(self.slots["parse_login7"])
        if answer.startswith("refused"):
            yield f"parse_login7 i:{body} d:{lent} o:{enough[0]}", f"-{answer.split()[1]}"
            return
        words = answer.split()
        count, ids = int(words[enough[0]]), words[enough[0] + 1:]
        held = f" d:{bytes(map(int, ids)).hex().upper()}" if ids else ""
        for size in enough:
            yield f"parse_login7 i:{body} d:{lent} o:{size}", f"{count}{held} {slots(words[:enough[0]])}"
        for size in few:
            yield f"parse_login7 i:{body} d:{lent} o:{size}", TOO_SHORT
        if count:
            yield f"parse_login7 i:{body} d:{count - 1} o:{enough[0]}", TOO_SHORT

    def procedure(self, arguments, answer):
        call = f"parse_rpc_request i:{expanded(arguments[1])} n:{arguments[0]}"
        enough, few = sizes(self.slots["parse_rpc_request"])
        refused = answer.replace("refused ", "-") if answer.startswith("refused") else None
        for size in enough:
            yield f"{call} o:{size}", refused or f"0 {slots(procedure_slots(answer.split()))}"
        for size in few:
            yield f"{call} o:{size}", refused or TOO_SHORT

    def capture(self, arguments, answer):
        """As many slots are lent as the line says; where these are enough also as many as there are marks, more and fewer."""
        lent, call, words = arguments[0], f"capture_marks i:{expanded(arguments[1])}", answer.split()
        if words[0] == "refused":
            yield f"{call} o:{lent}", f"-{words[1]}"
            return
        count, *marks = words
        enough, few = sizes(int(count))
        for size in {int(lent), *enough}:
            yield f"{call} o:{size}", f"{count} {slots(marks)}" if marks else count
        for size in few:
            yield f"{call} o:{size}", TOO_SHORT

    def label(self, name, arguments, answer):
        """A label is written to a buffer as others are; null needs none."""
        word, _, held = answer.partition(" ")
        if word == "null":
            for size in {0, int(arguments[0])}:
                yield f"{name} i:{expanded(arguments[1])} b:{size}", str(self.null)
        else:
            yield from self.build(name, arguments, answer if word == "refused" else held)

    def database(self, fallback, body, text):
        def right(said):
            found = re.fullmatch(r"([01]) o:([0-9]+),([0-9]+)", said)
            if not found:
                return False
            which, start, length = map(int, found.groups())
            held = (fallback if which else body).strip("-")
            return held[2 * start:2 * (start + length)] == text.strip("-") and (not which or 2 * length == len(held))

        yield f"database i:{body} i:{fallback} o:2", right
        yield f"database i:{body} i:{fallback} o:1", TOO_SHORT
        yield f"database i:{body} i:{fallback} o:0", TOO_SHORT

    def fit(self, script, answer):
        enough, few = sizes(self.slots["fit"])
        if answer == "fits" or answer.startswith("refused"):
            told = "0" if answer == "fits" else f"-{answer.split()[1]}"
            for size in (*enough, *few):
                yield f"fit i:{script} o:{size}", told
            return
        for size in enough:
            yield f"fit i:{script} o:{size}", f"1 {slots(misfit(answer.split()))}"
        for size in few:
            yield f"fit i:{script} o:{size}", TOO_SHORT

    def is_whitespace(self, unit, answer):
        yield f"is_whitespace n:{int.from_bytes(bytes.fromhex(unit), 'little')}", answer

    def build(self, name, arguments, answer):
        """An export that writes to a buffer. The lines of a packet header do not say how many bytes are lent."""
        lent, given = HEADER_BYTES, []
        if name != "write_header":
            lent, *arguments = int(arguments[0]), *arguments[1:]
        for (_, kind), argument in zip(self.functions[f"station_{name}"], arguments):
            given.append(f"i:{expanded(argument)}" if kind == "bytes" else f"n:{argument}")
        call = " ".join([name, *given])
        if answer.startswith("refused"):
            yield f"{call} b:{lent}", f"-{answer.split()[1]}"
            if answer != "refused 20":
                yield f"{call} b:0", f"-{answer.split()[1]}"
            return
        held = expanded(answer).strip("-")
        enough, few = sizes(len(held) // 2)
        written = f" b:{held}" if held else ""
        for size in {lent, *enough}:
            yield f"{call} b:{size}", f"{len(held) // 2}{written}"
        for size in few:
            yield f"{call} b:{size}", TOO_SHORT


def procedure_slots(words):
    """The slots of a stored procedure call."""
    if words[0] == "name":
        procedure, (flags, *words) = [1, *words[1:3], 0], words[3:]
    else:
        procedure, (flags, *words) = [0, 0, 0, words[1]], words[2:]
    statement = [NO_PART, 0]
    if words[0] == "statement":
        statement, words = words[1:3], words[3:]
    return [*procedure, flags, *statement, *([0] * 12 if words == ["none"] else parameter_slots(*words[1:]))]


def parameter_slots(*words):
    """The slots of a parameter: name, status, type and collation, then case, number and part of its value."""
    *info, kind = words[:8]
    number = int(words[8]) % 2**64 if kind == "num" else 0
    part = words[8:] if kind in ("part", "max") else [0, 0]
    return [1, *info, VALUES[kind], number, *part]


def misfit(words):
    """The slots of a misfit: kind, set, row, column."""
    kind, place, *rest = words
    row = rest[0] if kind == "cell" else 0
    column = rest[-1] if rest else 0
    return MISFITS[kind], place, row, column
