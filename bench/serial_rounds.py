#!/usr/bin/env python3
"""Measures rounds where places wait for each other, against places that all may run side by side: bench/serial_rounds.py

    bench/serial_rounds.py                       the kinds below at windows 64 and 4096, best of three
    bench/serial_rounds.py --kinds appends chain some of them
    bench/serial_rounds.py --windows 64          one window
    bench/serial_rounds.py --program FILE        another program in place of crates/uring_replay/out/uring_replay
    bench/serial_rounds.py --entries N           so many entries in place of 20,000
    bench/serial_rounds.py --best N              the best of N runs
    bench/serial_rounds.py --write KIND          writes the trace of a kind to standard output and measures nothing

The kinds, one ring each:

    disjoint  WRITEs of 64 bytes of one file, no two of which overlap: what the others are measured against
    appends   WRITEs of 64 bytes to a file that is open to append
    range     WRITEs of the same 64 bytes of a file
    chain     the WRITEs of `disjoint`, those of each 4,096 linked to one chain
    drains    the WRITEs of `disjoint`, each of which drains the ring
    opens     four and four an OPENAT as the lowest free descriptor, two READs by it and its CLOSE

A line for each kind and window has the time that a place takes in rounds, and its ratio to that of a place of `disjoint` at
that window. It is what `compare`, which runs both ways, takes beyond `serial`. The kinds are run in turn, so that the ratios
of one run can be compared.
"""
import argparse
import os
import subprocess
import sys
import tempfile
import time
from typing import Dict, List, Tuple

HERE = os.path.dirname(os.path.abspath(__file__))
sys.path.insert(0, os.path.join(os.path.dirname(HERE), "tests"))

from traces import AT_FDCWD, CLOSE, DRAIN, FIXED_FILE, LINK, OPENAT, READ, WRITE, description, descriptor_table, enter, entry, file, head, ring

O_RDWR = 2
BUILT = os.path.join(os.path.dirname(HERE), "crates", "uring_replay", "out", "uring_replay")
REFERENCE = "disjoint"
# How many entries a record has, and so the longest chain.
RECORD = 4096
DATA = bytes(range(64))


def write(number: int, flags: int = 0, slot: int = 0, offset: int = 0) -> bytes:
    """A WRITE of 64 bytes."""
    return entry(WRITE, FIXED_FILE | flags, slot, offset, length=64, user_data=number, side=DATA)


def appends(number: int, _last: bool) -> bytes:
    return write(number, slot=1)


def one_range(number: int, _last: bool) -> bytes:
    return write(number)


def disjoint(number: int, _last: bool) -> bytes:
    return write(number, offset=64 * number)


def chain(number: int, last: bool) -> bytes:
    return write(number, flags=0 if last else LINK, offset=64 * number)


def drains(number: int, _last: bool) -> bytes:
    return write(number, flags=DRAIN, offset=64 * number)


def opens(number: int, _last: bool) -> bytes:
    """The descriptor is 0 each time, since the one before it is closed."""
    if number % 4 == 0:
        return entry(OPENAT, 0, AT_FDCWD, own_flags=O_RDWR, user_data=number, side=b"/data")
    if number % 4 == 3:
        return entry(CLOSE, 0, 0, user_data=number)
    return entry(READ, 0, 0, length=64, user_data=number)


KINDS = {"disjoint": disjoint, "appends": appends, "range": one_range, "chain": chain, "drains": drains, "opens": opens}


def trace(kind: str, entries: int) -> bytes:
    """The file `/data` of zeros, open in slot 0 and to append in slot 1; 64 empty descriptors; the entries of a kind."""
    world = file(b"/data", 64 * entries) + description(1) + description(1, append=1) + descriptor_table([0] * 64) + ring([1, 2])
    records = [range(first, min(first + RECORD, entries)) for first in range(0, entries, RECORD)]
    parts = [enter(0, [KINDS[kind](place, place + 1 == record.stop) for place in record]) for record in records]
    return head(1, 2, 1, len(records), 64, 2) + world + b"".join(parts)


def seconds(words: List[str], given: str) -> float:
    """How long a program runs on a trace."""
    with open(given, "rb") as stdin:
        began = time.monotonic()
        status = subprocess.run(words, stdin=stdin, stdout=subprocess.DEVNULL).returncode
        took = time.monotonic() - began
    if status:
        sys.exit("{} ended with status {} on {}".format(" ".join(words), status, given))
    return took


def measured(kinds: List[str], windows: List[int], program: str, entries: int, best: int) -> Dict[Tuple[int, str], float]:
    """The least time that a place of each kind takes in rounds at each window, in microseconds."""
    alone = {kind: float("inf") for kind in kinds}
    both = {(window, kind): float("inf") for window in windows for kind in kinds}
    with tempfile.TemporaryDirectory() as folder:
        for kind in kinds:
            with open(os.path.join(folder, kind), "wb") as out:
                out.write(trace(kind, entries))
        for _ in range(best):
            for kind in kinds:
                alone[kind] = min(alone[kind], seconds([program, "serial"], os.path.join(folder, kind)))
            for window, kind in both:
                words = [program, "compare", "--window", str(window)]
                both[window, kind] = min(both[window, kind], seconds(words, os.path.join(folder, kind)))
    return {(window, kind): (took - alone[kind]) / entries * 1e6 for (window, kind), took in both.items()}


def main() -> None:
    words = argparse.ArgumentParser(description=__doc__, formatter_class=argparse.RawDescriptionHelpFormatter)
    words.add_argument("--kinds", nargs="+", choices=list(KINDS), default=list(KINDS))
    words.add_argument("--windows", nargs="+", type=int, default=[64, 4096])
    words.add_argument("--program", default=BUILT)
    words.add_argument("--entries", type=int, default=20_000)
    words.add_argument("--best", type=int, default=3)
    words.add_argument("--write", choices=list(KINDS))
    arguments = words.parse_args()
    if arguments.write:
        sys.stdout.buffer.write(trace(arguments.write, arguments.entries))
        return
    kinds = [REFERENCE] + [kind for kind in arguments.kinds if kind != REFERENCE]
    times = measured(kinds, arguments.windows, arguments.program, arguments.entries, arguments.best)
    print("| trace | window | a place | ratio to {} |\n|---|---|---|---|".format(REFERENCE))
    for (window, kind), took in times.items():
        print("| {} | {} | {:.2f} us | {:.2f} |".format(kind, window, took, took / times[window, REFERENCE]))


if __name__ == "__main__":
    main()
