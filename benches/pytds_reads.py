"""Reads packets by pytds: each is a 4-byte length and its bytes on standard input. Prints for each how many rows and
NULLs were met and the least nanoseconds of processor time.

    python3 pytds_reads.py FOLDER count|time     FOLDER holds by_pytds.py; count: each packet is read once

`getppid` is called right before each packet's first read and after the last one: callgrind's --dump-before=getppid
splits the counts there."""

import os
import struct
import sys
import time

sys.dont_write_bytecode = True
sys.path.insert(0, sys.argv[1])

import by_pytds

READS = {"count": (1, 0), "time": (5, 300_000_000)}


def packets(given):
    while given:
        end = 4 + struct.unpack_from("<I", given)[0]
        yield given[4:end]
        given = given[end:]


def read(packet, least, enough):
    """Reads the packet at least so often, and until it took enough nanoseconds."""
    took = []
    os.getppid()
    while len(took) < least or sum(took) < enough:
        start = time.process_time_ns()
        tokens = by_pytds.tokens(packet)
        took.append(time.process_time_ns() - start)
    return tokens, min(took)


def main():
    given = list(packets(sys.stdin.buffer.read()))
    by_pytds.tokens(given[0])  # what is made once is not counted
    found = [read(packet, *READS[sys.argv[2]]) for packet in given]
    os.getppid()
    for tokens, nanoseconds in found:
        rows = [token for token in tokens if token[0] == "row"]
        print(len(rows), sum(row.count(None) for row in rows), nanoseconds)


main()
