"""What docs/EMBEDDING.md shows besides commands: its blocks in C and Rust are compiled and run, and the functions that
the library calls from outside are those that the page names."""
import re

import compiled
import lending
from compiled import LIBRARY, ROOT

REPLY = ROOT / "target/bin/reply"
BLOCK = re.compile(r"^```(\w+)\n(.*?)^```$", re.M | re.S)
# Each block of C in a program that says what it came to.
LOGIN = """#include <stdio.h>
#include "station.h"
int main(void)
{
%s    return fwrite(packet, 1, length, stdout) == length ? 0 : 1;
}
"""
READER = """#include <stdio.h>
#include "station.h"
static size_t tokens;
static void use(const uint64_t *out) { tokens += out[STATION_STEP_KIND] != 0; }
int main(void)
{
    static uint8_t packets[STATION_MOST_REPLY];
    size_t length = fread(packets, 1, sizeof packets, stdin);
%s    printf("%%d\\n", (int)tokens);
    return 0;
}
"""
PACKETS = """#include <stdio.h>
#include "station.h"
int main(void)
{
    static uint8_t script[STATION_MOST_REPLY];
    size_t script_len = fread(script, 1, sizeof script, stdin);
%s    return written > 0 && fwrite(packets, 1, (size_t)written, stdout) == (size_t)written ? 0 : 1;
}
"""
LABELS = """#include <stdio.h>
#include "station.h"
static void show(const uint8_t *payload, const uint64_t *out)
{
%s    if (length == STATION_NULL_LABEL)
        printf("null");
    for (int64_t at = 0; length != STATION_NULL_LABEL && at < length; at++)
        printf("%%02X", (unsigned)text[at]);
    printf("\\n");
}
int main(void)
{
    static uint8_t packets[STATION_MOST_REPLY], payload[STATION_MOST_REPLY];
    uint64_t position[STATION_POSITION_SLOTS], out[STATION_STEP_SLOTS];
    size_t length = fread(packets, 1, sizeof packets, stdin);
    station_payload(packets, length, payload, sizeof payload);
    station_fresh(position, STATION_POSITION_SLOTS);
    while (station_step(packets, length, position, STATION_POSITION_SLOTS, out, STATION_STEP_SLOTS) == 1)
        if (out[STATION_STEP_KIND] == STATION_TOKEN_CELL)
            show(payload, out);
    return 0;
}
"""
LOGIN_HEADER, LOGIN_LENGTH = "0401006f00000100ad", 111


def blocks(language):
    text = (ROOT / "docs/EMBEDDING.md").read_text()
    return [block for mark, block in BLOCK.findall(text) if mark == language]


def c_program(folder, name, frame, block):
    source = folder / f"{name}.c"
    source.write_text(frame % "".join(f"    {line}\n" for line in block.splitlines()))
    return compiled.program(folder, name, source)


def compare_c(tally, folder):
    records, login, cut, reader, labels = blocks("c")
    helpers = (ROOT / "examples/recorder.c").read_text()
    shown = "".join(f"    {line}\n" for line in records.splitlines())
    tally.check(shown in helpers, "EMBEDDING: the first script is not that of examples/recorder.c")
    packet = compiled.subprocess.run([c_program(folder, "login", LOGIN, login)], capture_output=True).stdout
    tally.equal("EMBEDDING: a login's answer", (LOGIN_HEADER, LOGIN_LENGTH), (packet[:9].hex(), len(packet)))
    compare_packets(tally, c_program(folder, "packets", PACKETS, cut))
    program = c_program(folder, "tokens", READER, reader)
    with (ROOT / "examples/two-sets.packet").open("rb") as packet:
        found = compiled.run([program], stdin=packet).stdout
    lines = (ROOT / "examples/two-sets.tokens.txt").read_text().splitlines()
    tally.equal("EMBEDDING: the tokens that are read", f"{len(lines) - 1}\n", found)
    compare_labels(tally, c_program(folder, "labels", LABELS, labels))


def compare_packets(tally, program):
    """Of a set without anything the packet of the reply builder; of one with 5,000 bytes of classification two packets."""
    for count, lengths in ((0, [24]), (5_000, [4_096, 936])):
        script = count.to_bytes(4, "little") + b"\1\0" + bytes(count)
        found = compiled.subprocess.run([program], input=script, capture_output=True).stdout
        starts = [sum(lengths[:i]) for i in range(len(lengths))]
        told = [int.from_bytes(found[at + 2:at + 4], "big") for at in starts]
        tally.equal("EMBEDDING: a reply in packets", (sum(lengths), lengths), (len(found), told))


def compare_labels(tally, program):
    """Of a VARCHAR(MAX) column the cells: a label in two chunks, and null."""
    cells = lending.record(5, b"\x08") + lending.record(6, b"\x80") + lending.record(6, b"A"), lending.record(5, b"\x07")
    rows = b"".join(lending.record(4) + cell for cell in cells)
    script = lending.record(1) + lending.columns([7], 1) + rows
    packet = compiled.subprocess.run([REPLY], input=script, capture_output=True).stdout
    found = compiled.subprocess.run([program], input=packet, capture_output=True).stdout.decode()
    tally.equal("EMBEDDING: the labels of a reply", "AC204100\nnull\n", found)


def compare_rust(tally, folder):
    (block,) = blocks("rust")
    source, program = folder / "page.rs", folder / "page"
    source.write_text(block.replace('"include/station.rs"', f'"{ROOT / "include/station.rs"}"'))
    linked = ["-L", LIBRARY.parent, "-l", "static=station", "-o", program]
    done = compiled.run(["rustc", "--edition", "2021", "-D", "warnings", *linked, source])
    tally.equal("EMBEDDING: the Rust program, compiled", "", done.stderr)
    tally.check(program.exists() and compiled.run([program]).returncode == 0, "EMBEDDING: the Rust program fails")


def compare_outside(tally):
    called = set(re.findall(r"^ +U (\w+)$", compiled.run(["nm", "-u", LIBRARY]).stdout, re.M))
    row = re.search(r"^\| from outside \| (.*?), nothing else", (ROOT / "docs/EMBEDDING.md").read_text(), re.M)
    tally.equal("EMBEDDING: what is called from outside", sorted(called), sorted(re.findall(r"`(\w+)`", row[1])))
