"""What the tables share: running a program, counting its instructions, printing, and telling how counts grow."""

import os
import re
import subprocess
import sys
from pathlib import Path

ROOT = Path(__file__).resolve().parent.parent
TARGET = Path(os.environ.get("CARGO_TARGET_DIR", ROOT / "target" / "benches")).resolve()
# Counts grow with the bytes where each byte more costs the same between all sizes, but for this part of it.
NEAR = 0.1
# How often all times are taken: a moment at which the machine is busy does not meet every time of a case.
PASSES = 5


def progress(line):
    """Tells on standard error what is being measured."""
    print(f"benches: {line}", file=sys.stderr, flush=True)


def said(words, **more):
    """What a program writes."""
    return subprocess.run(words, check=True, stdout=subprocess.PIPE, text=True, **more).stdout


def counts(case, side):
    """The file of a case's counts, for callgrind_annotate."""
    return TARGET / f"{case.replace(' ', '-').replace(',', '')}.{side}.callgrind"


def callgrind(words, counts, *options, **more):
    """What a program writes, and its instructions as valgrind's callgrind counts them into a file."""
    valgrind = ["valgrind", "--quiet", "--tool=callgrind", f"--callgrind-out-file={counts}", *options]
    return said([*valgrind, *words], **more), total(counts)


def total(counts):
    """The instructions in a file of callgrind's."""
    return int(re.search(r"^totals: ([0-9]+)", counts.read_text(), re.M)[1])


def least(what, times):
    """The least of each time; `times` takes them all once."""
    taken = []
    for number in range(PASSES):
        progress(f"{what}, times, pass {number + 1} of {PASSES}")
        taken.append(times())
    return [min(each) for each in zip(*taken)]


def microseconds(nanoseconds):
    """With as many digits as a time of its size is worth; `-` where the clock's steps are too long to tell it."""
    if nanoseconds <= 0:
        return "-"
    time = nanoseconds / 1000
    return f"{time:,.{3 if time < 1 else 2 if time < 100 else 1}f}"


def ratio(time, other):
    """A time beside another, `-` where the clock's steps are too long to tell one of them."""
    return f"{time / other:.2f}" if time > 0 and other > 0 else "-"


def show(heads, rows):
    """A table in Markdown: the first column to the left, the others to the right."""
    widths = [max(len(row[place]) for row in [heads, *rows]) for place in range(len(heads))]
    line = lambda cells: "| " + " | ".join(cells) + " |"
    padded = [[row[0].ljust(widths[0]), *(cell.rjust(width) for cell, width in zip(row[1:], widths[1:]))]
              for row in [heads, *rows]]
    rule = ["-" * widths[0], *("-" * (width - 1) + ":" for width in widths[1:])]
    print("\n".join(map(line, [padded[0], rule, *padded[1:]])) + "\n")


def show_growth(growth):
    """A line for each kind and side that was counted at two sizes or more. `growth` has for each the pairs of bytes and
    instructions, the smallest first; where something else than bytes is counted, its name stands with kind and side."""
    for (kind, side, *named), pairs in growth.items():
        if len(pairs) < 2:
            continue
        (least, few), (most, many) = pairs[0], pairs[-1]
        per = named[0] if named else "byte"
        steps = [(b - a) / (n - m) for (m, a), (n, b) in zip(pairs, pairs[1:])]
        print(f"- {kind}, {side}: instructions per {per} from {least:,} to {most:,} {per}s: {few / least:.2f} -> "
              f"{many / most:.2f}; for each {per} more {', '.join(f'{step:.2f}' for step in steps)}: {manner(steps)}")
    print()


def manner(steps):
    if max(steps) < NEAR:
        return "constant"
    return "linear" if max(steps) <= (1 + NEAR) * min(steps) else "not one slope"
