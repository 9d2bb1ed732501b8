"""Calls of the static library `station` beside the Rust's on the same inputs: the program `bench` of this folder runs
each case on each side under callgrind, and on both in turn for their times."""

import math
import os
import subprocess
import sys
from pathlib import Path

import table

HERE = Path(__file__).resolve().parent
LIBRARY = Path(os.environ.get("STATION_LIB_DIR", table.ROOT / "target" / "staticlib")).resolve()
# An export of each group, for the feature of its name.
EXPORTS = {
    "request": "station_parse_sql_batch",
    "login": "station_parse_login7",
    "result": "station_build_query_results",
    "rpc": "station_parse_rpc_request",
    "capture": "station_capture_marks",
    "labels": "station_read_label",
}
HEADS = ["case", "input", "reply", "ours", "Rust", "ours/Rust", "ours µs", "Rust µs", "ours/Rust", "ours/byte",
         "Rust/byte"]


def exported():
    """The groups that the library exports."""
    archive = LIBRARY / "libstation.a"
    if not archive.exists():
        sys.exit(f"there is no {archive}: tools/build station")
    names = table.said(["nm", "--defined-only", archive]).split()
    return [group for group, export in EXPORTS.items() if export in names]


def build(groups):
    table.progress("building the calls")
    places = {**os.environ, "STATION_LIB_DIR": str(LIBRARY), "CARGO_TARGET_DIR": str(table.TARGET)}
    cargo = ["cargo", "build", "-j1", "--offline", "--release", "--quiet", "--features", ",".join(groups)]
    if subprocess.run(cargo, cwd=HERE, env=places).returncode != 0:
        sys.exit("the calls were not built; benches/run --help says what they need")
    return table.TARGET / "release" / "bench"


def count(program, case, side):
    """Input bytes, answer bytes and sum as the program says them, and the instructions."""
    table.progress(f"{case}, {side}")
    words = [program, case, side]
    said, instructions = table.callgrind(words, table.counts(case, side), "--toggle-collect=measured")
    if instructions == 0:
        sys.exit(f"{case}: nothing was counted")
    size, answer, checksum = said.split()
    return int(size), int(answer), checksum, instructions


def times(program, cases):
    """The nanoseconds of ours and of the Rust's for each case; ours are endless where the library lacks the call."""
    said = " ".join(table.said([program, case, "time"]) for case, _ in cases).split()
    return [math.inf if time == "-" else float(time) for time in said]


def row(program, case, group, ours_time, rust_time, growth):
    """The row of a case. Its bytes are those of the reply, or those of the input where there is none."""
    size, answer, checksum, rust = count(program, case, "rust")
    per = answer if group == "result" else size
    cells = [case, f"{size:,}", f"{answer:,}" if group == "result" else "-"]
    if ours_time == math.inf:
        return [*cells, "not exported", f"{rust:,}", "", "", table.microseconds(rust_time), "", "", f"{rust / per:.2f}"]
    _, _, ours_checksum, ours = count(program, case, "ours")
    if ours_checksum != checksum:
        sys.exit(f"{case}: the answers differ")
    kind = case.rsplit(",", 1)[0]
    growth.setdefault((kind, "ours"), []).append((per, ours))
    growth.setdefault((kind, "Rust"), []).append((per, rust))
    return [*cells, f"{ours:,}", f"{rust:,}", f"{ours / rust:.2f}", table.microseconds(ours_time),
            table.microseconds(rust_time), table.ratio(ours_time, rust_time), f"{ours / per:.2f}", f"{rust / per:.2f}"]


def measured(chosen):
    """Heads, rows and growth of the chosen cases."""
    program = build(exported())
    growth = {}
    cases = [line.rsplit(" ", 1) for line in table.said([program, "list"]).splitlines()]
    cases = [(case, group) for case, group in cases if chosen(case)]
    if not cases:
        return HEADS, [], growth
    took = table.least("calls", lambda: times(program, cases))
    return HEADS, [row(program, *case, *pair, growth) for case, *pair in zip(cases, took[::2], took[1::2])], growth
