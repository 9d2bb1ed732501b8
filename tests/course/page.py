"""The commands of docs/COURSE.md and the output that the page shows for them, run as a reader of the page would.

In a block of the page that is marked `console`, a line `$ ..` is a command and the others are what it prints. A block
without a mark holds what has to be done before; there is one, `tools/build reply answer`.
"""
import os
import pathlib
import re
import shutil
import subprocess
import tempfile

BLOCK = re.compile(r"^```(\w*)\n(.*?)^```$", re.M | re.S)
BEFORE = "tools/build reply answer\n"
# The refusals that the page has to show: a request's, a script's and a packet's. 19 is not given, and 20 to 22 are met
# by callers of the library alone.
REFUSALS = {*range(1, 19), *range(23, 35)}


def commands(page):
    """Each command of the page with its output."""
    found = []
    for mark, block in BLOCK.findall(page):
        if mark != "console":
            continue
        for line in block.splitlines(keepends=True):
            if line.startswith("$ "):
                found.append([line[2:], ""])
            else:
                found[-1][1] += line
    return found


def other_blocks(page):
    return [(mark, block) for mark, block in BLOCK.findall(page) if mark != "console"]


def scratch_copy(root, scratch):
    """A copy of what a reader of the page has."""
    for name in ("tools", "examples", "target/bin"):
        shutil.copytree(root / name, scratch / name, ignore=shutil.ignore_patterns("__pycache__"))


def output(command, scratch):
    """What a command prints, on standard output and standard error, as a terminal would show it."""
    environment = {"PATH": os.environ["PATH"], "LC_ALL": "C.UTF-8"}
    done = subprocess.run(["bash", "-c", command], cwd=scratch, env=environment, stdin=subprocess.DEVNULL,
                          stdout=subprocess.PIPE, stderr=subprocess.STDOUT, timeout=60)
    return done.stdout.decode(errors="replace")


def compare(root, tally):
    page = (root / "docs/COURSE.md").read_text()
    tally.equal("the page's other blocks", [("", BEFORE)], other_blocks(page))
    found = commands(page)
    with tempfile.TemporaryDirectory() as name:
        scratch = pathlib.Path(name)
        scratch_copy(root, scratch)
        for command, shown in found:
            tally.equal(f"$ {command.rstrip()}", shown, output(command, scratch))
    shown = {int(number) for _, text in found for number in re.findall(r"^refused (\d+)$", text, re.M)}
    tally.equal("the refusals that the page shows", [], sorted(REFUSALS - shown))
    return len(found)
