"""The commands that the pages show: those with their output (blocks marked `console`), and all others.

In a block marked `console` a line `$ ..` is a command, with the lines after it where it ends in a backslash; the other
lines are what it prints. Other commands stand in blocks that are indented or have no mark, or in a table whose first
column is headed `command`, in code style. A line with a word such as NAME or FILE.. is a form and no command.
"""
import collections
import os
import pathlib
import re
import shutil
import signal
import subprocess
import tempfile

ROOT = pathlib.Path(__file__).resolve().parent.parent.parent
# Words that a command begins with, besides the paths of programs in the repository.
STARTS = set("""apt apt-get bash bsql cargo cat cc cd chromium clang curl cut diff echo firefox g++ gcc git grep head nm
    objdump od pip printf python3 rt sed sh size sqlcmd sudo tail tshark tsql valgrind wc wireshark xxd""".split())
FOLDERS = ("tests/", "tools/", "benches/", "target/bin/", "./")
FORM = re.compile(r"(?<![\w$/.-])[A-Z]{3,}(?![\w=])")
PLACEHOLDER = re.compile(r"[A-Z]{3,}")
CELL = re.compile(r"^\| `([^`]+)` \|")
SPAN = re.compile(r"`((?:tests|tools|benches)/[\w./-]+)")
COMMENT = re.compile(r"\s+#.*$")
SECONDS = 120

# A command of a console block: the line at which it stands, its text, the lines of its output: first, after the last.
Shown = collections.namedtuple("Shown", "line text first last")


def pages(root=ROOT):
    """The pages, in the order of their names."""
    below = ("docs/*.md", "docs/landings/*.md", "tests/*/README.md", "benches/README.md")
    return [page for name in ("README.md", "CHANGELOG.md", *below) for page in sorted(root.glob(name))]


def console(lines):
    """The commands of the blocks that are marked `console`."""
    found, inside, number = [], False, 0
    while number < len(lines):
        line = lines[number]
        if line.startswith("```"):
            inside = line == "```console"
        elif inside and line.startswith("$ "):
            start = number
            while lines[number].endswith("\\"):
                number += 1
            text = "\n".join([line[2:], *lines[start + 1:number + 1]])
            last = number + 1
            while not lines[last].startswith(("$ ", "```")):
                last += 1
            found.append(Shown(start + 1, text, number + 1, last))
            number = last - 1
        number += 1
    return found


def is_command(line):
    word = line.split(" ", 1)[0]
    place = ROOT / word
    program = word.startswith(FOLDERS) and not word.endswith(":") and not place.is_dir()
    runs = program and (not place.exists() or os.access(place, os.X_OK))
    return (word in STARTS or runs) and not FORM.search(line)


def plain(lines):
    """The other commands: the line and the text of each, blanks squeezed, without a comment."""
    mark, before, joined, start = None, "", "", 0
    yield from in_tables(lines)
    for number, line in enumerate(lines, 1):
        if line.startswith("```"):
            mark = None if mark is not None else line[3:]
            continue
        held, before = before, line
        indented = mark is None and line.startswith("    ") and (not held or held.startswith("    "))
        if not joined and not (indented or mark == ""):
            continue
        start = start if joined else number
        joined += COMMENT.sub("", line).strip()
        if joined.endswith("\\"):
            joined = joined[:-1]
            continue
        if is_command(joined):
            yield start, squeezed(joined)
        joined = ""


def in_tables(lines):
    """The commands of the tables whose first column is headed `command`."""
    inside = False
    for number, line in enumerate(lines, 1):
        inside = line.startswith("| command |") or (inside and line.startswith("|"))
        cell = CELL.match(line)
        if inside and cell and is_command(cell[1]):
            yield number, squeezed(cell[1])


def squeezed(text):
    return re.sub(r"\s+", " ", text).strip()


def named(lines):
    """The programs of the repository that a page names in code style: the line and the path."""
    for number, line in enumerate(lines, 1):
        for path in SPAN.findall(line):
            yield number, path.rstrip(".")


def copy(root, scratch):
    """A copy of the tree, as a reader of the pages has it: with the programs and the archive."""
    left_out = shutil.ignore_patterns("__pycache__", "out")
    for item in root.iterdir():
        if item.name in (".git", "target"):
            continue
        if item.is_dir():
            shutil.copytree(item, scratch / item.name, symlinks=True, ignore=left_out)
        else:
            shutil.copy2(item, scratch / item.name)
    for name in ("bin", "staticlib"):
        if (root / "target" / name).is_dir():
            shutil.copytree(root / "target" / name, scratch / "target" / name)


def copy_built(root, scratch):
    """What rt keeps of the programs, by which it sees that one has not changed since it was proved and built."""
    for stamp in root.glob("crates/*/out/*.stamp"):
        for file in (stamp, stamp.with_suffix("")):
            place = scratch / file.relative_to(root)
            place.parent.mkdir(exist_ok=True)
            shutil.copy2(file, place)


def outputs(tree, found):
    """The lines that the commands of a page print, one after the other in a copy of the tree. Where one of them builds a
    program, the copy has what the top folder keeps of those that are built."""
    with tempfile.TemporaryDirectory() as folder:
        scratch = pathlib.Path(folder)
        copy(tree, scratch)
        if any(re.search(r"\btools/build\b", shown.text) for shown in found):
            copy_built(ROOT, scratch)
        return [output(shown.text, scratch).splitlines() for shown in found]


def output(command, scratch):
    """What a command prints, on standard output and standard error, as a terminal would show it."""
    environment = {"PATH": os.environ["PATH"], "LC_ALL": "C.UTF-8", "HOME": os.environ.get("HOME", "/")}
    with subprocess.Popen(["bash", "-c", command], cwd=scratch, env=environment, stdin=subprocess.DEVNULL,
                          stdout=subprocess.PIPE, stderr=subprocess.STDOUT, start_new_session=True) as running:
        try:
            return running.communicate(timeout=SECONDS)[0].decode(errors="replace")
        except subprocess.TimeoutExpired:
            os.killpg(running.pid, signal.SIGKILL)
            return f"(it had not ended after {SECONDS} seconds)"
