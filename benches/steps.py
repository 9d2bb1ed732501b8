"""The reply reader by its calls for C: packets of rows of NULL Ints, as `reader.py` has them, read from `station_fresh`
to the end by `station_step` in the program `bench` of this folder; and the payload of the longest one in packets of
three sizes. Only instructions are counted."""

import struct
import sys

import calls
import reader
import table

HEADS = ["case", "bytes", "tokens", "ours", "ours/token", "ours/byte"]
COLUMNS = [1, 40]
PACKETS = [32_767, 4_096, 512]


def cut(packet, size):
    """The payload of a packet in packets of a size."""
    payload, room = packet[8:], size - 8
    parts = [payload[at:at + room] for at in range(0, len(payload), room)]
    return b"".join(struct.pack(">BBHHBB", 4, number == len(parts), 8 + len(part), 0, number % 256, 0) + part
                    for number, part in enumerate(parts, 1))


def count(program, case, columns, rows, packets):
    """The instructions of a run over packets."""
    table.progress(f"{case}, ours")
    how = lambda words, **more: table.callgrind(words, table.counts(case, "ours"), "--toggle-collect=measured", **more)
    said, instructions = reader.given(how, [program, "steps"], packets)
    if int(said) != reader.tokens(columns, rows):
        sys.exit(f"{case}: {said.strip()} tokens were read")
    return instructions


def row(program, case, columns, rows, cut_at, growth):
    packet, tokens = reader.packet(columns, rows), reader.tokens(columns, rows)
    packets = cut(packet, cut_at) if cut_at else packet
    size, each = len(packets), count(program, case, columns, rows, packets)
    if not cut_at:
        growth.setdefault((case.rsplit(",", 1)[0], "ours"), []).append((size, each))
    return [case, f"{size:,}", f"{tokens:,}", f"{each:,}", f"{each / tokens:,.1f}", f"{each / size:,.2f}"]


def measured(chosen):
    """Heads, rows and growth of the chosen cases."""
    cases = [("smallest packet stepped", 1, 1, None)]
    cases += [(f"station_step, {columns} column{'s'[:columns > 1]}, {size}", columns, reader.rows_in(columns, most), None)
              for columns in COLUMNS for size, most in reader.SIZES.items()]
    cases += [(f"station_step, {columns} column{'s'[:columns > 1]}, 64 KB at {size:,}", columns,
               reader.rows_in(columns, 65_535), size) for columns in COLUMNS for size in PACKETS]
    cases, growth = [case for case in cases if chosen(case[0])], {}
    if not cases:
        return HEADS, [], growth
    program = calls.build(calls.exported())
    return HEADS, [row(program, *case, growth) for case in cases], growth
