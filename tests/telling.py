"""What the tests share: the differences that they tell, and the programs that they need.

A test tells its first 20 differences, and of the others how many there are. Where a program is missing it ends with the
command that makes it.
"""
import collections
import pathlib
import shutil
import subprocess
import sys

ROOT = pathlib.Path(__file__).resolve().parent.parent
MOST, SHOWN, BEFORE = 20, 1_000, 40
# What makes a program, by its place below the top folder; what brings one that is installed, by its name.
MADE_BY = {
    "target/bin/answer": "tools/build answer",
    "target/bin/capture": "tools/build capture",
    "target/bin/replay": "tools/build replay",
    "target/bin/reply": "tools/build reply",
    "target/staticlib/libstation.a": "tools/build station",
}
BROUGHT_BY = {"cargo": "a Rust toolchain (rustup.rs)", "tshark": "apt-get install tshark", "gcc": "apt-get install gcc"}


def need(test, *names):
    """Ends the test where something that it needs is missing, with the command that makes or brings it."""
    missing = [f"{test}: there is no {name}: {MADE_BY[name]}" for name in names
               if name in MADE_BY and not (ROOT / name).exists()]
    missing += [f"{test}: there is no {name}: {BROUGHT_BY[name]}" for name in names
                if name in BROUGHT_BY and not shutil.which(name)]
    if missing:
        sys.exit("\n".join(missing))


def said(test, command, **more):
    """What a program writes. The test ends where it fails, with the command and the end of what it said."""
    try:
        done = subprocess.run(command, capture_output=True, timeout=600, **more)
    except (OSError, subprocess.TimeoutExpired) as error:
        sys.exit(f"{test}: {' '.join(map(str, command))}: {error}")
    if done.returncode != 0:
        last = done.stderr if isinstance(done.stderr, str) else done.stderr.decode(errors="replace")
        lines = "".join(f"\n  {line}" for line in last.splitlines()[-MOST:])
        sys.exit(f"{test}: {' '.join(map(str, command))}: exit status {done.returncode}{lines}")
    return done.stdout


def cut(text):
    return text if len(text) <= SHOWN else text[:SHOWN] + ".."


def sides(expected, found):
    """Two texts that differ; long ones from a little before their first difference on."""
    at = next((i for i, (one, other) in enumerate(zip(expected, found)) if one != other), 0)
    start = max(0, at - BEFORE) if max(len(expected), len(found)) > SHOWN else 0
    return [("" if start == 0 else "..") + cut(text[start:]) for text in (expected, found)]


class Tally:
    """What was compared: how much passed, by a name of the comparison, and how much failed."""

    def __init__(self):
        self.by, self.failed = collections.Counter(), 0

    @property
    def passed(self):
        return self.by.total()

    def good(self, by=""):
        self.by[by] += 1

    def bad(self, text):
        """Counts a failure, and tells the first ones."""
        self.failed += 1
        if self.failed <= MOST:
            print(text)

    def equal(self, name, expected, found, by=""):
        """Compares two values; where they differ, both are told under the name."""
        if expected == found:
            self.good(by)
        else:
            self.bad("{}\n  expected {}\n  found    {}".format(cut(name), *sides(str(expected), str(found))))

    def end(self, test):
        """Tells how many failures were not told, and the last line; the exit status."""
        if self.failed > MOST:
            print(f"and {self.failed - MOST} more")
        print(f"{test}: {self.passed} passed, {self.failed} failed")
        return 0 if self.passed and not self.failed else 1
