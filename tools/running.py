"""A program that is given its input."""
import signal
import subprocess


def run(command, given, **more):
    """A run of a program with its output kept. It may end before it has read its input, as a broken one does: then its
    status says so, and the tool goes on, though a closed pipe otherwise ends the tool."""
    before = signal.signal(signal.SIGPIPE, signal.SIG_IGN)
    try:
        return subprocess.run(command, input=given, capture_output=True, **more)
    finally:
        signal.signal(signal.SIGPIPE, before)
