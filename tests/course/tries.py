"""`tools/script.py try`: stored texts with what it says of them (tries.txt), and random scripts.

Of a random script, written as text with comments and empty lines in it, are compared
- the verdict, with that of `answer` on the script's bytes;
- the line that is named, with that of the record, which `meaning` finds in the text by itself;
- the tokens in words, turned back into the lines of `answer tokens`.
"""
import collections
import pathlib
import re

import meaning
import reasons
import script
import token_words
import trying
from programs import many, tried

STORED = pathlib.Path(__file__).resolve().parent / "tries.txt"
CASE = re.compile(r"^=== (.*)\n((?:(?!---).*\n)*?)--- (\d)\n((?:(?!===).*\n)*)", re.M)
MESSAGE = re.compile(r"(INFO|ERROR) (\d+): state (\d+), severity (\d+), line (\d+)")
NAMED_TEXT = re.compile(r"(message|server|procedure) (" + meaning.TEXT.pattern + ")")
DONE = re.compile(r"DONE: status (\d{4}), (.*); (\d+) rows?")
STATUSES = {"0010": "final, row count valid", "0011": "more follows, row count valid", "0002": "error, final",
            "0003": "error, more follows"}
NAME = "a script"


def stored():
    """The stored cases: a title, a text, the exit status and what is printed."""
    return CASE.findall(STORED.read_text())


def compare_stored(tally):
    found = stored()
    for title, text, status, said in found:
        tally.equal(f"try: {title}", (int(status), said.encode(), ""), tried(text.encode()))
    numbers = {int(number) for *_, said in found for number in re.findall(r"^refused (\d+):", said, re.M)}
    tally.equal("the refusals in tries.txt", list(range(11, 19)), sorted(numbers))
    return len(found)


def renew():
    """Writes the stored cases with what is printed today."""
    head = STORED.read_text().partition("\n=== ")[0] + "\n"
    cases = []
    for title, text, _, _ in stored():
        status, said, _ = tried(text.encode())
        cases.append(f"=== {title}\n{text}--- {status}\n{said.decode()}")
    STORED.write_text(head + "".join(cases))


def spread(source, lines):
    """The lines with others between them that stand for nothing, and the number of each."""
    text, numbers = [], []
    for line in lines:
        text += source.choice(([], [], [""], ["# set"], ["", "  # cell Int 1"]))
        text.append(line)
        numbers.append(len(text))
    return text, numbers


def verdict_of(said):
    """The verdict among the lines that `try` prints, and the line that it names, or None."""
    at = next(at for at, line in enumerate(said) if re.match("refused|misfit|fits", line))
    place = re.match(f"{NAME}:(\\d+): ", said[at + 1]) if at + 1 < len(said) else None
    verdict = said[at].split(":")[0]
    return verdict, int(place[1]) if place else None, said[at + 2] if place else ""


def expected_place(lines, reply, fit):
    """The line at fault, counted from 0, by the text alone; None where no line is."""
    if reply in ("refused 15", "refused 16"):
        return meaning.first_unsent(lines)
    if reply.startswith("refused"):
        return meaning.first_fault(lines)[0]
    return None if fit == "fits" else meaning.misfit_place(lines, fit)


def message_line(words):
    name, *numbers = MESSAGE.match(words).groups()
    texts = dict(NAMED_TEXT.findall(words))
    shown = [meaning.digits(meaning.text(texts.get(each, '""'))) for each in ("message", "server", "procedure")]
    return " ".join(["AA" if name == "ERROR" else "AB", *numbers, *shown])


def cell_line(words):
    if words[1] == "null":
        return "null"
    if words[0] in ("TinyInt", "SmallInt", "Int", "BigInt"):
        return f"num {words[1]}"
    return "part " + (meaning.digits(meaning.text(words[1])) if words[1].startswith('"') else words[1])


def token_line(words):
    """The line of `answer tokens` that some words of `try` stand for."""
    words = words.strip()
    if words == "ROW":
        return "D1"
    if words.startswith("COLMETADATA: "):
        return f"81 {words.split(' ')[1]}"
    if words.startswith("column "):
        return meaning.column_token(meaning.items(words)[1])
    if words.startswith("cell "):
        return cell_line(meaning.items(words)[1])
    done = DONE.fullmatch(words)
    if done:
        return f"FD {done[1]} 00C1 {done[3]}" if STATUSES.get(done[1]) == done[2] else words
    return message_line(words)


def token_lines(said):
    start = next(at for at, line in enumerate(said) if re.fullmatch(r"\d+ tokens?:", line))
    return [token_line(line) for line in said[start + 1:-1]] + [said[-1].split(":")[0]]


def compare_one(tally, source, one, reply, fit):
    """One script; reply and fit are the program's lines for it. Answers the packet's tokens as `try` has them."""
    lines = list(script.show(one))
    text, numbers = spread(source, lines)
    given = "".join(line + "\n" for line in text).encode()
    composed, _ = script.composed_lines(given)
    said, good = trying.verdict(trying.Text(NAME, script.lines_of(given), composed), one)
    verdict, number, reason = verdict_of(said)
    refused = reply.startswith("refused")
    tally.equal(f"try, verdict: {one.hex()}", reply if refused else fit, verdict)
    at = expected_place(lines, reply, fit)
    tally.equal(f"try, line: {one.hex()}", None if at is None else numbers[at], number)
    tally.equal(f"try, a reason: {one.hex()}", at is not None, ": " in reason)
    tally.equal(f"try, status: {one.hex()}", not refused and fit == "fits", good)
    return token_lines(said) if fit == "fits" else None


def compare_random(tally, source, scripts):
    """Random scripts, of which each verdict is counted. Values are shown whole here."""
    token_words.MOST_SHOWN = reasons.MOST_INPUT
    replies, fits = ([lines[0] for lines in many(call, scripts)] for call in ("reply", "fit"))
    met, read = collections.Counter(), []
    for one, reply, fit in zip(scripts, replies, fits):
        found = compare_one(tally, source, one, reply, fit)
        met[reply if reply.startswith("refused") else " ".join(fit.split()[:2])] += 1
        if found:
            read.append((bytes.fromhex(reply.split(" ")[1]), found))
    for (packet, found), tokens in zip(read, many("tokens", [packet for packet, _ in read])):
        tally.equal(f"try, tokens: {packet.hex()}", tokens, found)
    return met
