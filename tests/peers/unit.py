"""The unit of tools/serve.py in a process of its own, for conversations: a login is routed to a second port."""
import contextlib
import json
import pathlib
import subprocess
import sys
import tempfile

HOST = "127.0.0.1"
TOOL = pathlib.Path(__file__).resolve().parent.parent.parent / "tools/serve.py"
LISTENING = f"listening on {HOST}:"
PATIENCE = 60


class Unit:
    """A unit that serves: its port, and what its journal says so far."""

    def __init__(self, port, path):
        self.port, self.path = port, path

    def journal(self):
        return [json.loads(line) for line in self.path.read_text().splitlines()]


@contextlib.contextmanager
def running(scripts, tool=TOOL):
    """A unit that answers with these scripts, `script N` with the Nth; its process ends with the block. `tool` serves."""
    with tempfile.TemporaryDirectory() as name:
        folder = pathlib.Path(name)
        journal, paths = folder / "journal", [folder / f"{i}.script" for i in range(len(scripts))]
        for path, script in zip(paths, scripts):
            path.write_bytes(script)
        command = [sys.executable, tool, "--port", "0", "--journal", journal, "--route", *paths]
        with subprocess.Popen(command, stdout=subprocess.PIPE, text=True) as process:
            try:
                yield Unit(listened(process), journal)
            finally:
                process.terminate()
                process.communicate(timeout=PATIENCE)


def listened(process):
    """The port of a unit, which it says first."""
    first = process.stdout.readline()
    if not first.startswith(LISTENING):
        raise SystemExit("tools/serve.py does not serve")  # it has said why on standard error
    return int(first.removeprefix(LISTENING))
