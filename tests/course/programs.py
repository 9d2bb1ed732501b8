"""The programs that the course's tests run, and the tool."""
import pathlib
import struct
import subprocess

ROOT = pathlib.Path(__file__).resolve().parent.parent.parent
TOOL = ROOT / "tools/script.py"
ANSWER = ROOT / "target/bin/answer"
REPLY = ROOT / "target/bin/reply"


def need():
    """Ends the run with the command that makes a program where one is missing."""
    for program in (ANSWER, REPLY):
        if not program.exists():
            raise SystemExit(f"course: {program.relative_to(ROOT)} is missing; this makes it: tools/build reply answer")


def run(program, *arguments, given=b""):
    """Exit status, standard output and standard error of a program."""
    done = subprocess.run([program, *arguments], input=given, capture_output=True, timeout=600, cwd=ROOT)
    return done.returncode, done.stdout, done.stderr.decode()


def tried(text):
    """What `try` says of a text."""
    return run(TOOL, "try", given=text)


def many(call, inputs):
    """The lines of `answer CALL` for each input."""
    given = b"".join(struct.pack("<I", len(each)) + each for each in inputs)
    status, said, _ = run(ANSWER, "many", call, given=given)
    *answers, rest = said.decode().split("\n\n")
    if status or rest or len(answers) != len(inputs):
        raise SystemExit(f"course: {len(answers)} answers for {len(inputs)} inputs of {call}")
    return [answer.split("\n") for answer in answers]
