"""The commands of docs/CONNECTING.md and what the page shows for them, run as a reader with two terminals would.

A block that is marked `unit` has one command, which is started, and all that it prints. The blocks marked `client`
after it, up to the next unit, have commands that are run while it serves; a line `> ..` goes on with the command above
it. Then the unit is interrupted. A block without a mark holds what has to be done before. The page's port stands for a
free one.
"""
import os
import pathlib
import re
import shutil
import signal
import subprocess
import tempfile
import time

BLOCK = re.compile(r"^```(\w*)\n(.*?)^```$", re.M | re.S)
BEFORE = ["apt-get install -y gcc freetds-bin", "tools/build station",
          "apt-get install -y python3-pymssql python3-tds"]
PAGE = "docs/CONNECTING.md"
PORT = "14330"
LISTENING = "listening on 127.0.0.1:"
PATIENCE = 30
COPIED = ("tools", "examples", "target/staticlib")


def commands(block):
    """Each command of a block, with its output."""
    found = []
    for line in block.splitlines(keepends=True):
        if line.startswith("$ "):
            found.append([line[2:], ""])
        elif line.startswith("> "):
            found[-1][0] += line[2:]
        else:
            found[-1][1] += line
    return found


def conversations(page):
    """Each unit's command and output, with the commands and outputs of its clients."""
    found = []
    for mark, block in BLOCK.findall(page):
        if mark == "unit":
            found.append((*commands(block), []))
        elif mark == "client":
            found[-1][-1].extend(commands(block))
    return found


def others(page):
    """The lines of blocks without a mark, and the marks that are not known."""
    held = [block.splitlines() for mark, block in BLOCK.findall(page) if not mark]
    return sum(held, []), [mark for mark, _ in BLOCK.findall(page) if mark not in ("", "unit", "client")]


def scratch_copy(root, scratch, names=COPIED):
    """A copy of what a reader of the page has."""
    for name in names:
        shutil.copytree(root / name, scratch / name, ignore=shutil.ignore_patterns("__pycache__"))


def environment(scratch):
    return {"PATH": os.environ["PATH"], "LC_ALL": "C.UTF-8", "HOME": str(scratch)}


def as_terminal(command):
    """A shell command whose programs write line by line, as they do to a terminal."""
    return ["stdbuf", "-oL", "bash", "-c", command]


class Unit:
    """A unit's process, and what it has printed so far. It prints to a file, of which nothing is still on its way."""

    def __init__(self, command, scratch):
        self.printed = scratch / "unit.printed"
        with open(self.printed, "wb") as file:
            self.process = subprocess.Popen(["bash", "-c", command], cwd=scratch, env=environment(scratch),
                                            stdin=subprocess.DEVNULL, stdout=file, stderr=file, start_new_session=True)

    def lines(self):
        return self.printed.read_text().splitlines()

    def wait(self, condition):
        """Waits until a condition holds of the lines, or until the unit has ended."""
        until = time.monotonic() + PATIENCE
        while not condition(self.lines()) and self.process.poll() is None and time.monotonic() < until:
            time.sleep(0.01)

    def port(self):
        """The port that it listens on, or None where it has ended."""
        self.wait(ports)
        return next(iter(ports(self.lines())), None)

    def end(self, how=signal.SIGINT):
        """Interrupts it, as Ctrl-C does. Answers its exit status and all that it printed."""
        if self.process.poll() is None:
            os.killpg(self.process.pid, how)
        return self.process.wait(PATIENCE), self.printed.read_text()


def ports(lines):
    return [line.removeprefix(LISTENING) for line in lines if line.startswith(LISTENING)]


def all_left(lines):
    """Whether each client that has come has left."""
    left = [line for line in lines if line.endswith((": left", "; the connection ends"))]
    return len(left) == sum(line.endswith(": prelogin") for line in lines)


def output(command, scratch):
    """What a command prints, on standard output and standard error."""
    process = subprocess.Popen(as_terminal(command), cwd=scratch, env=environment(scratch), stdin=subprocess.DEVNULL,
                               stdout=subprocess.PIPE, stderr=subprocess.STDOUT, start_new_session=True)
    try:
        held, _ = process.communicate(timeout=PATIENCE)
        return held.decode(errors="replace")
    except subprocess.TimeoutExpired:
        os.killpg(process.pid, signal.SIGKILL)
        return f"{process.communicate()[0].decode(errors='replace')}(it has not ended after {PATIENCE} seconds)"


def told(conversation, scratch):
    """What a unit and its clients print: the unit's exit status, and each command with its output."""
    (command, _), clients = conversation
    unit, found = Unit(command.replace(f"--port {PORT}", "--port 0"), scratch), []
    port = unit.port()
    for client, _ in clients:
        found.append((client, output(client.replace(PORT, str(port)), scratch)))
        unit.wait(all_left)
    status, printed = unit.end()
    return status, [(command, printed.replace(f":{port}", f":{PORT}")), *found]


def readme_commands(readme):
    """The README's commands for a unit and its client."""
    lines = [line.strip().removeprefix("$ ") for line in readme.splitlines()]
    return [line for line in lines if line.startswith("tools/serve.py ") or ("| tsql " in line and "printf" in line)]


def compare_readme(root, page, tally):
    """README has the first unit and the first client of the page, and what that client prints."""
    readme, (unit, clients) = (root / "README.md").read_text(), conversations(page)[0]
    tally.equal("README's unit and client", [unit[0].strip(), clients[0][0].strip()], readme_commands(readme))
    tally.equal("README shows what the client prints", True, clients[0][1] in readme)


def all_told(root, page):
    """For each unit of the page what `told` answers."""
    with tempfile.TemporaryDirectory() as name:
        scratch = pathlib.Path(name)
        scratch_copy(root, scratch)
        return [told(conversation, scratch) for conversation in conversations(page)]


def compare(root, tally):
    page = (root / PAGE).read_text()
    before, unknown = others(page)
    tally.equal("what is to be done before", (BEFORE, []), (before, unknown))
    for (unit, clients), (status, found) in zip(conversations(page), all_told(root, page), strict=True):
        tally.equal(f"$ {unit[0].strip()}: exit status", 0 if LISTENING in unit[1] else 1, status)
        for (command, shown), (_, printed) in zip([unit, *clients], found, strict=True):
            tally.equal(f"$ {command.strip()}", shown, printed)
    compare_readme(root, page, tally)


def renew(root):
    """Writes the page anew, with what its commands print now."""
    page = (root / PAGE).read_text()
    found = [pair for _, pairs in all_told(root, page) for pair in pairs]

    def renewed(block):
        mark, held = block.groups()
        if mark not in ("unit", "client"):
            return block[0]
        lines = "".join(shown(command, found.pop(0)[1]) for command, _ in commands(held))
        return f"```{mark}\n{lines}```"

    (root / PAGE).write_text(BLOCK.sub(renewed, page))


def shown(command, printed):
    return "$ " + "> ".join(command.splitlines(keepends=True)) + printed
