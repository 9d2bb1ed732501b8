"""What becomes of a script, in words: the call `try` of tools/script.py.

The verdict is the program's: target/bin/answer says the refusal, the misfit, the room, the packet and its tokens. Which
record is at fault is asked too: the first records of a script, so many that they are refused as the whole is.
"""
import bisect
import pathlib
import struct
import subprocess
import sys

import reasons
import running
import script
import token_words
from reasons import counted

ANSWER = pathlib.Path(__file__).resolve().parent.parent / "target/bin/answer"
MISSING = "target/bin/answer is missing or cannot be run; this makes it: tools/build reply answer"
# Refusals that come from a record of the script: from that one on, the first records are refused as the whole is.
OF_A_RECORD = range(11, 18)
PROBES = 32
MOST_QUOTED = 100


class NoAnswer(Exception):
    """The program cannot be asked."""


def ask(call, inputs):
    """The lines that `answer CALL` prints for each input."""
    given = b"".join(struct.pack("<I", len(each)) + each for each in inputs)
    try:
        said = running.run([ANSWER, "many", call], given, check=True).stdout.decode()
    except (OSError, subprocess.CalledProcessError) as error:
        raise NoAnswer(MISSING) from error
    *answers, rest = said.split("\n\n")
    if rest or len(answers) != len(inputs):
        raise NoAnswer("target/bin/answer says nothing of some inputs; this makes it anew: tools/build reply answer")
    return [answer.split("\n") for answer in answers]


def number_of(lines):
    """The refusal that an answer is, or 0."""
    return int(lines[0].split(" ")[1]) if lines[0].startswith("refused ") else 0


def first_refused(whole, ends, number):
    """How many records it takes to be refused with a number, with which all of them are; ends are those of the records."""
    low, high = 0, len(ends)
    while high - low > 1:
        tried = range(low + 1, high, max(1, (high - low) // PROBES))
        answers = ask("room", [whole[:ends[count - 1]] for count in tried])
        refused = [count for count, lines in zip(tried, answers) if number_of(lines) == number]
        high = refused[0] if refused else high
        low = max((count for count in tried if count < high), default=low)
    return high


def refused_record(number, whole, records):
    """The record, counted from 0, that a script is refused for; None where there is none."""
    ends = [start for start, _, _ in records[1:]] + [len(whole)]
    if not records:
        return None
    if number == 18:
        return next(at for at, end in enumerate(ends) if end > reasons.MOST_INPUT)
    return first_refused(whole, ends, number) - 1 if number in OF_A_RECORD else None


class Text:
    """The lines of a text, and where in the script each one's bytes start."""

    def __init__(self, name, lines, composed):
        self.name, self.lines, self.starts = name, lines, [0]
        for one in composed:
            self.starts.append(self.starts[-1] + len(one))

    def line_at(self, place):
        """The number, from 1 on, of the line that a byte of the script is from."""
        return bisect.bisect_right(self.starts, place)

    def quoted(self, number):
        line = self.lines[number - 1].decode().strip()
        line = line if len(line) <= MOST_QUOTED else line[:MOST_QUOTED] + ".."
        return "".join(each if each.isprintable() else script.escaped(each) for each in line)


def fault_lines(text, records, at, reason):
    """A record at fault: its line, and why."""
    number = text.line_at(records[at][0])
    why = f": {reason}" if reason else ""
    return [f"{text.name}:{number}: {text.quoted(number)}", f"  record {at + 1} of {len(records)}{why}"]


def refused_lines(text, whole, records, number):
    said = [f"refused {number}: {reasons.cause(number)}"]
    at = refused_record(number, whole, records)
    if at is None:
        return said + ([] if records else ["  there is no record; a script starts with a set"])
    return said + fault_lines(text, records, at, reasons.refused(number, records, at))


def has_terminal_error(records):
    """Whether a terminal error stands in the first set, which is then all that is sent."""
    kinds = [kind for _, kind, _ in records]
    end = kinds.index(script.SET, 1) if script.SET in kinds[1:] else len(kinds)
    return script.TERMINAL_ERROR in kinds[:end]


def fit_lines(text, records, line):
    """Whether a script fits, by the program's line."""
    if line == "fits":
        return ["fits: the terminal error is sent alone" if has_terminal_error(records) else "fits"]
    at, reason = reasons.misfit(line.split(" ")[1:], records)
    said = f"{line}: the reply may not be read as it is meant (sets, rows and columns count from 0)"
    return [said] if at is None else [said, *fault_lines(text, records, at, reason)]


def verdict(text, whole):
    """What is said of a script, as lines, and whether it is accepted, fits and is read to the end."""
    records = list(script.records(whole))
    said = [f"script: {counted(len(whole), 'byte')}, {counted(len(records), 'record')}"]
    answer, = ask("reply", [whole])
    if number_of(answer):
        return said + refused_lines(text, whole, records, number_of(answer)), False
    packet = bytes.fromhex(answer[0].split(" ")[1])
    (room,), (fit,) = ask("room", [whole])[0], ask("fit", [whole])[0]
    (*tokens, last), = ask("tokens", [packet])
    said.append(f"accepted: the reply has {len(packet)} bytes (room {room.split(' ')[1]})")
    said += fit_lines(text, records, fit)
    said += [counted(len(tokens), "token") + ":", *("  " + line for line in token_words.of(tokens))]
    return [*said, token_words.last(last)], fit == "fits" and last == "end"


def main(name, lines, composed):
    """Prints what is said of a text's script; its lines and the bytes of each are given."""
    try:
        said, good = verdict(Text(name, lines, composed), b"".join(composed))
    except NoAnswer as error:
        print(f"tools/script.py: {error}", file=sys.stderr)
        return 1
    sys.stdout.buffer.write("".join(line + "\n" for line in said).encode())
    return 0 if good else 1
