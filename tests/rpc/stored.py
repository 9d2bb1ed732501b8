"""The stored lists: worked.txt, inputs with what must be answered, and captured.txt, calls as clients sent them.

A line of worked.txt is `NUMBER BODY => LINES`; `#` starts a comment. A call of captured.txt is a line `call NAME`, a line
`body BODY`, and for each asked number, up to one past the last parameter, a line `NUMBER LINES`. BODY is hexadecimal digits,
in groups or not, `-` for no byte. LINES are joined by ` | `. Everywhere `(7800*3)` stands for 780078007800.
"""
import collections
import pathlib
import re

HERE = pathlib.Path(__file__).resolve().parent
WORKED, CAPTURED = HERE / "worked.txt", HERE / "captured.txt"
REPEATED = re.compile(r"\(([0-9A-F]+)\*([0-9]+)\)")
RUN = re.compile(r"([0-9A-F]{2}|[0-9A-F]{4})\1{31,}")

# A call that was captured: its name, its body, and its answers' lines by the asked number.
Call = collections.namedtuple("Call", "name body answers")


def expanded(text):
    return REPEATED.sub(lambda run: run[1] * int(run[2]), text)


def squeezed(text):
    """A text with its long runs as `expanded` takes them."""
    return RUN.sub(lambda run: f"({run[1]}*{len(run[0]) // len(run[1])})", text)


def body(digits):
    return bytes.fromhex("" if digits == "-" else digits)


def worked():
    """Each input of worked.txt with the lines of its answer: place, asked number, body, lines."""
    for place, line in enumerate(WORKED.read_text().splitlines(), 1):
        line = line.partition("#")[0].strip()
        if line:
            left, _, right = line.partition(" => ")
            number, digits = left.split(maxsplit=1)
            yield f"worked.txt:{place}", int(number), body(expanded(digits)), expanded(right).split(" | ")


def captured():
    """The calls of captured.txt."""
    calls = []
    for line in CAPTURED.read_text().splitlines():
        word, _, rest = line.partition("#")[0].strip().partition(" ")
        if word == "call":
            calls.append(Call(rest, b"", []))
        elif word == "body":
            calls[-1] = calls[-1]._replace(body=body(expanded(rest)))
        elif word:
            calls[-1].answers.append(expanded(rest).split(" | "))
    return calls


def text(calls):
    """Calls as captured.txt has them."""
    parts = []
    for call in calls:
        parts += [f"call {call.name}", f"body {squeezed(call.body.hex().upper())}"]
        parts += [f"{number} {squeezed(' | '.join(answer))}" for number, answer in enumerate(call.answers)]
    return "".join(part + "\n" for part in parts)
