"""tools/script.py as a program: its arguments, files, exit status, and what it says where something is missing."""
import os
import pathlib
import shutil
import tempfile

import script
from programs import ROOT, TOOL, run, tried

LONGER = 20_000  # rows of a script that no pipe holds
# A program in place of `answer`, which has one answer for every input of a call.
OTHER_PROGRAM = """#!/usr/bin/env python3
import struct, sys
given, at, answers = sys.stdin.buffer.read(), 0, %r
while at < len(given):
    at += 4 + struct.unpack_from("<I", given, at)[0]
    print(answers[sys.argv[2]] + chr(10))
"""
NO_TEXT = "refused 14: a text in a record is not UTF-16\nstandard input:1: set\n  record 1 of 2\n"
READ = ("accepted: the reply has 1 bytes (room 1)\n"
        "{}: the reply may not be read as it is meant (sets, rows and columns count from 0)\n"
        "0 tokens:\nend: the packet ends after its last DONE\n")
PACKET = {"reply": "packet 00", "room": "room 1", "tokens": "end"}
# What it says, and what `try` makes of it for a script of two sets.
OTHER_ANSWERS = (
    ({"reply": "refused 14", "room": "refused 14"}, NO_TEXT),
    ({"reply": "refused 40"}, "refused 40: docs/FORMATS.md has its cause\n"),
    ({**PACKET, "fit": "misfit cell 7 0 0"}, READ.format("misfit cell 7 0 0")),
    ({**PACKET, "fit": "misfit x 0"}, READ.format("misfit x 0")),
)


def compare_calls(tally):
    """The tool as a program: its arguments, files and exit status."""
    row = bytes.fromhex("000000000400")
    usage = (2, b"", "usage: tools/script.py compose|show|try [FILE], or --help\n")
    for arguments in ((), ("Show",), ("compose", "a", "b"), ("-",)):
        tally.equal(str(arguments), usage, run(TOOL, *arguments))
    for arguments in (("--help",), ("-h",), ("compose", "--help"), ("try", "-h")):
        tally.equal(str(arguments), (0, (script.__doc__.strip() + "\n").encode(), ""), run(TOOL, *arguments))
    tally.equal("compose -", (0, row, ""), run(TOOL, "compose", "-", given=b"row\n"))
    tally.equal("show -", (0, b"  row\n", ""), run(TOOL, "show", "-", given=row))
    said = (1, b"script: 0 bytes, 0 records\nrefused 12: a kind is unknown or out of order; a script has no set\n"
            b"  there is no record; a script starts with a set\n", "")
    tally.equal("try -", said, run(TOOL, "try", "-"))
    tally.equal("try, a wrong line", (1, b"", "standard input:2: a value is missing\n"), tried(b"set\ncell\n"))
    tally.equal("compose", (0, row * 2, ""), run(TOOL, "compose", given=b"\xEF\xBB\xBFrow\r\n\n  # none\nrow"))
    tally.equal("show", (0, b"  row\n", ""), run(TOOL, "show", given=row))
    tally.equal("nothing", (0, b"", ""), run(TOOL, "compose"))
    tally.equal("not UTF-8", (1, b"", "standard input:2: not UTF-8\n"), run(TOOL, "compose", given=b"row\n\xFF\nrow\n"))
    tally.equal("no file", (1, b"", "none.txt: No such file or directory\n"), run(TOOL, "show", "none.txt"))
    tally.equal("a folder", (1, b"", "examples: Is a directory\n"), run(TOOL, "compose", "examples"))
    said = "standard input:1: more than the record holds: 'row'\n"
    tally.equal("a return ends no line", (1, b"", said), run(TOOL, "compose", given=b"row\rrow\n"))
    said = "examples/one-row.packet:1: not UTF-8\n"
    tally.equal("a packet", (1, b"", said), run(TOOL, "compose", "examples/one-row.packet"))


def compare_encodings(tally):
    """Files that are no text in UTF-8 are told so in one line; what `show` takes is bytes, whatever they are."""
    for text in ("set\nrow\n", "\n# é\nset\n"):
        for form, mark in (("UTF-16LE", b""), ("UTF-16BE", b""), ("UTF-16", b"\xFF\xFE"), ("UTF-16", b"\xFE\xFF")):
            given = mark + text.encode("utf-16-be" if form == "UTF-16BE" or mark == b"\xFE\xFF" else "utf-16-le")
            said = f"standard input: the text is {form} and has to be UTF-8; "
            said += f"this converts it: iconv -f {form} -t UTF-8\n"
            for call in ("compose", "try"):
                tally.equal(f"{call} of {form} {mark}", (1, b"", said), run(TOOL, call, given=given))
            converted = run("iconv", "-f", form, "-t", "UTF-8", given=given)
            tally.equal(f"iconv of {form} {mark}", (0, text.encode(), ""), converted)
    said = "standard input: bytes and not a text; `tools/script.py show` writes the text of a script's bytes\n"
    for given in ("000000000100", "020000000100A301", "200000000100" + "00" * 32):
        for call in ("compose", "try"):
            tally.equal(f"{call} of a script", (1, b"", said), run(TOOL, call, given=bytes.fromhex(given)))
    tally.equal("show of UTF-16", (0, b"bytes FFFE73006500\n", ""), run(TOOL, "show", given=b"\xFF\xFEs\0e\0"))
    tally.equal("try, not UTF-8", (1, b"", "standard input:2: not UTF-8\n"), tried(b"set\n\xE9\n"))


def compare_other_programs(tally):
    """`try` where the program is missing, broken, or says what the tool has no words for: no traceback, and no other
    number than the program's."""
    said = "tools/script.py: target/bin/answer is missing or cannot be run; this makes it: tools/build reply answer\n"
    with tempfile.TemporaryDirectory() as name:
        top = pathlib.Path(name)
        shutil.copytree(ROOT / "tools", top / "tools", ignore=shutil.ignore_patterns("__pycache__"))
        tool, answer = top / "tools/script.py", top / "target/bin/answer"
        tally.equal("try without a program", (1, b"", said), run(tool, "try", given=b"set\n"))
        answer.parent.mkdir(parents=True)
        answer.write_text("#!/bin/false\n")
        os.chmod(answer, 0o755)
        tally.equal("try with a broken program", (1, b"", said), run(tool, "try", given=b"set\n"))
        longer = b"set\n" + b"row\n" * LONGER
        tally.equal("try with one that leaves a long input unread", (1, b"", said), run(tool, "try", given=longer))
        for answers, expected in OTHER_ANSWERS:
            answer.write_text(OTHER_PROGRAM % answers)
            said = f"script: 12 bytes, 2 records\n{expected}".encode()
            tally.equal(f"try, {answers}", (1, said, ""), run(tool, "try", given=b"set\nset\n"))


def compare(tally):
    for each in (compare_calls, compare_encodings, compare_other_programs):
        each(tally)
