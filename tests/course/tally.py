"""What the course's tests compared: how many passed and failed, and of a difference its first line that differs."""
import collections

MOST_REPORTS = 20
SHOWN = 300


def lines_of(answer):
    """An answer as lines: text and bytes by their lines, the items of a list or tuple one after another."""
    if isinstance(answer, (list, tuple)):
        return [line for item in answer for line in lines_of(item)]
    if isinstance(answer, bytes):
        try:
            answer = answer.decode()
        except UnicodeDecodeError:
            return ["bytes " + answer.hex().upper()]
    return str(answer).split("\n")


def cut(line):
    return "no line" if line is None else repr(line[:SHOWN]) + (".." if len(line) > SHOWN else "")


def first_difference(expected, found):
    """The number, from 1 on, of the first line that differs, and both lines."""
    ours, theirs = lines_of(expected), lines_of(found)
    for at in range(max(len(ours), len(theirs))):
        pair = [each[at] if at < len(each) else None for each in (ours, theirs)]
        if pair[0] != pair[1]:
            return at + 1, *pair
    return 1, repr(expected), repr(found)


class Tally:
    """What was compared, and what was met."""

    def __init__(self):
        self.passed = self.failed = 0
        self.met = collections.Counter()

    def equal(self, name, expected, found):
        if expected == found:
            self.passed += 1
            return
        self.failed += 1
        if self.failed <= MOST_REPORTS:
            number, ours, theirs = first_difference(expected, found)
            print(f"{name[:SHOWN]}\n  line {number}: expected {cut(ours)}\n  line {number}: found    {cut(theirs)}")
        elif self.failed == MOST_REPORTS + 1:
            print("further differences are counted and not printed")
