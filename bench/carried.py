#!/usr/bin/env python3
"""Carries a trace of version 1 or 2 over to version 3, from standard input to standard output: bench/carried.py < OLD > NEW

It has the same steps behind its rings, each of which is a record in front of all others. A full slot gets a description of the
start. The first bytes of a file are its one range, and each entry has form 0. So a replay gives the same results, at places that
are greater by the number of rings (docs/FORMAT.md). The start of the trace is held in memory, and records go through one by one.

A trace that ends too early, or has a version or a kind that is not there, is refused with status 1. All else is left to `check`.
"""
import os
import sys
from typing import BinaryIO, Iterator, List, Tuple

sys.dont_write_bytecode = True
sys.path.append(os.path.join(os.path.dirname(os.path.dirname(os.path.abspath(__file__))), "tests"))

import record_traces
import traces
from model import Reader, Refused, within
from record_traces import END, stored, table_of

OF_DESCRIPTION = len(traces.description(0))


class Carrier(Reader):
    """Reads a trace of version 1 or 2 from a stream, and gives its parts as those of version 3."""

    def __init__(self, stream: BinaryIO) -> None:
        super().__init__(b"")
        self.stream = stream

    def take(self, count: int) -> bytes:
        data = self.stream.read(count)
        within(len(data) == count, "Short", self.next + len(data))
        self.at, self.next = self.next, self.next + count
        return data

    def parts(self) -> Iterator[bytes]:
        """The whole trace."""
        within(self.take(8) == traces.head()[:8], "Magic", 0)
        self.number("I", 2, 1, "Version")
        items, described, rings, records, size = (self.field("I") for _ in range(5))
        start = [self.item() for _ in range(items)]
        start.append(self.take(described * OF_DESCRIPTION))
        full = table_of(self.numbers(size))
        yield record_traces.head(items, described, size, len(full))
        yield from start
        yield from full
        for _ in range(rings):
            yield record_traces.ring_of(self.numbers(self.field("H")), self.buffers())
        for _ in range(records):
            yield self.record()
        within(not self.stream.read(1), "Trailing", self.next)
        yield END

    def item(self) -> bytes:
        kind = self.number("B", 3, 1)
        path = self.take(self.field("H"))
        if kind == 1:
            return traces.directory(path)
        if kind == 3:
            return traces.name(path, self.field("I"))
        size = self.field("Q")
        return record_traces.file_of(path, size, self.take(self.field("I")))

    def numbers(self, count: int) -> List[int]:
        return [self.field("I") for _ in range(count)]

    def buffers(self) -> List[Tuple[int, int]]:
        return [(self.field("Q"), self.field("I")) for _ in range(self.field("H"))]

    def record(self) -> bytes:
        kind, ring = self.number("B", 2, 1), self.field("B")
        if kind == 1:
            return record_traces.enter(ring, [self.entry() for _ in range(self.field("H"))])
        buffer, offset = self.field("H"), self.field("I")
        return record_traces.fill(ring, buffer, offset, self.take(self.field("I")))

    def entry(self) -> bytes:
        fields = self.take(traces.ENTRY.size)
        return stored(traces.with_side(fields, self.take(self.field("I"))))


def carry(stream: BinaryIO, out: BinaryIO) -> None:
    """Carries a trace over; it may be Refused."""
    for part in Carrier(stream).parts():
        out.write(part)
    out.flush()


def main() -> int:
    if len(sys.argv) > 1:
        sys.stderr.write(__doc__)
        return 2
    try:
        carry(sys.stdin.buffer, sys.stdout.buffer)
    except Refused as fault:
        print("trace refused: {}".format(fault), file=sys.stderr)
        return 1
    return 0


if __name__ == "__main__":
    sys.exit(main())
