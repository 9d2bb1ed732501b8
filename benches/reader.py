"""The reply reader beside pytds, on packets of rows of NULL Ints. The program `answer many tokens` is measured, which
prints a line for each token; pytds prints nothing. `steps.py` has the step alone, by its call for C.

A count is that of two packets less that of one, and a time, which is the processor's, that of some packets less that of
none: starting is left out, the metadata and the DONE are in."""

import os
import re
import resource
import struct
import subprocess
import sys
import tempfile
from pathlib import Path

import table

PROGRAM = Path(os.environ.get("ANSWER", table.ROOT / "target" / "bin" / "answer")).resolve()
PYTHON = "/usr/bin/python3"
ANSWER = [PROGRAM, "many", "tokens"]
PYTDS = [PYTHON, table.ROOT / "benches" / "pytds_reads.py", table.ROOT / "tests" / "peers"]
COLUMNS = [1, 40, 128]
SIZES = {"1 KB": 1_024, "4 KB": 4_096, "16 KB": 16_384, "64 KB": 65_535}
HEADS = ["case", "bytes", "tokens", "ours", "pytds", "ours/pytds", "ours µs", "pytds µs", "ours/pytds", "ours/token",
         "of it printing", "pytds/token", "ours/byte"]
PRINTING = re.compile(r"^ *([0-9,]+) .*:answer::lines::text(?: |$)", re.M)
# A time is the least of so many runs, each of about so many instructions: whatever else the machine does adds to it.
RUNS = 5
INSTRUCTIONS = 200_000_000


def packet(columns, rows):
    metadata = b"\x81" + struct.pack("<H", columns) + columns * bytes.fromhex("00000000 0000 26 04 00")
    body = metadata + rows * (b"\xd1" + columns * b"\x00") + b"\xfd" + struct.pack("<HHQ", 0, 0xC1, rows)
    return struct.pack(">BBHHBB", 4, 1, 8 + len(body), 0, 1, 0) + body


def rows_in(columns, most):
    """The rows of a packet of so many bytes; under 1 where there is no room for any."""
    return (most - len(packet(columns, 0))) // (1 + columns)


def tokens(columns, rows):
    """COLMETADATA, each column, each ROW with its cells, DONE."""
    return 1 + columns + rows * (1 + columns) + 1


def given(how, words, content, **more):
    """What `how` answers of a program whose standard input is a file, so that it reads the same way in every run."""
    with tempfile.TemporaryFile() as file:
        file.write(content)
        file.seek(0)
        return how(words, stdin=file, **more)


def listed(content, copies):
    """The input of `answer many`: a packet so many times."""
    return copies * (struct.pack("<I", len(content)) + content)


def ours(case, columns, rows):
    """Instructions of a packet, and of printing texts in it (None where that is no function of its own)."""
    table.progress(f"{case}, ours")
    file, content = table.counts(case, "ours"), packet(columns, rows)
    totals, prints = [], []
    for copies in (1, 2):
        count = lambda words, **more: table.callgrind(words, file, **more)
        said, total = given(count, ANSWER, listed(content, copies))
        lines = said.splitlines()
        if len(lines) != copies * (tokens(columns, rows) + 2) or lines[-2:] != ["end", ""]:
            sys.exit(f"{case}: {len(lines)} lines, the last {lines[-2:]}")
        found = PRINTING.search(table.said(["callgrind_annotate", "--inclusive=yes", "--threshold=100", file]))
        totals.append(total)
        prints.append(int(found[1].replace(",", "")) if found else None)
    return totals[1] - totals[0], None if None in prints else prints[1] - prints[0]


def ours_time(content, copies):
    """Nanoseconds of a packet, out of some."""
    def took(count):
        start = processor_time()
        given(subprocess.run, ANSWER, listed(content, count), check=True, stdout=subprocess.DEVNULL)
        return processor_time() - start

    return (min(took(copies) for _ in range(RUNS)) - min(took(0) for _ in range(RUNS))) / copies


def processor_time():
    """The nanoseconds of processor time that the programs took that were run so far."""
    used = resource.getrusage(resource.RUSAGE_CHILDREN)
    return 1e9 * (used.ru_utime + used.ru_stime)


def by_pytds(cases):
    """Instructions of each case's packet, all read in one process."""
    table.progress("reader, pytds")
    file = table.counts("reader", "pytds")
    for old in file.parent.glob(f"{file.name}.*"):
        old.unlink()
    # Names of one hash in every run, so that Python's tables are the same too.
    places = {**os.environ, "PYTHONHASHSEED": "0"}
    count = lambda words, **more: table.callgrind(words, file, "--dump-before=getppid", **more)
    given(count, [*PYTDS, "count"], all_listed(cases), env=places)
    # The first part is what stands before the first packet, the last one what follows the last.
    return [table.total(file.with_name(f"{file.name}.{part}")) for part in range(2, len(cases) + 2)]


def pytds_times(cases):
    """Nanoseconds of each case's packet."""
    found = []
    lines = given(table.said, [*PYTDS, "time"], all_listed(cases)).splitlines()
    for (case, columns, rows), line in zip(cases, lines, strict=True):
        met_rows, met_nulls, nanoseconds = line.split()
        if (int(met_rows), int(met_nulls)) != (rows, rows * columns):
            sys.exit(f"{case}: pytds read {met_rows} rows and {met_nulls} NULLs")
        found.append(float(nanoseconds))
    return found


def all_listed(cases):
    return b"".join(listed(packet(columns, rows), 1) for _, columns, rows in cases)


def row(case, columns, rows, counted, took, peer, growth):
    size, count, (each, printing) = len(packet(columns, rows)), tokens(columns, rows), counted
    kind = case.rsplit(",", 1)[0]
    growth.setdefault((kind, "ours"), []).append((size, each))
    cells = [case, f"{size:,}", f"{count:,}", f"{each:,}"]
    own = [f"{each / count:,.1f}", "-" if printing is None else f"{printing / count:,.1f}"]
    if not peer:
        return [*cells, "-", "-", table.microseconds(took), "-", "-", *own, "-", f"{each / size:,.2f}"]
    theirs, their_time = peer
    growth.setdefault((kind, "pytds"), []).append((size, theirs))
    return [*cells, f"{theirs:,}", f"{each / theirs:.2f}", table.microseconds(took), table.microseconds(their_time),
            table.ratio(took, their_time), *own, f"{theirs / count:,.0f}", f"{each / size:,.2f}"]


def has_pytds():
    try:
        return subprocess.run([PYTHON, "-c", "import pytds"], stderr=subprocess.DEVNULL).returncode == 0
    except FileNotFoundError:
        return False


def measured(chosen):
    """Heads, rows and growth of the chosen cases. A size that has no room for the columns and a row is left out."""
    cases = [("smallest packet read", 1, 1)]
    cases += [(f"reader, {columns} column{'s'[:columns > 1]}, {size}", columns, rows_in(columns, most))
              for columns in COLUMNS for size, most in SIZES.items()]
    cases = [case for case in cases if case[2] > 0 and chosen(case[0])]
    growth = {}
    if not cases:
        return HEADS, [], growth
    if not PROGRAM.exists():
        sys.exit(f"there is no {PROGRAM}: tools/build answer")
    if PROGRAM.read_bytes()[:4] != b"\x7fELF":
        sys.exit(f"{PROGRAM} is a script: its shell would be counted")
    table.TARGET.mkdir(parents=True, exist_ok=True)
    counted = [ours(*case) for case in cases]
    runs = [(packet(*case[1:]), INSTRUCTIONS // each + 1) for case, (each, _) in zip(cases, counted)]
    took = table.least("reader, ours", lambda: [ours_time(*run) for run in runs])
    peers = [None] * len(cases)
    if has_pytds():
        peers = list(zip(by_pytds(cases), table.least("reader, pytds", lambda: pytds_times(cases))))
    return HEADS, [row(*case, *rest, growth) for case, *rest in zip(cases, counted, took, peers)], growth
