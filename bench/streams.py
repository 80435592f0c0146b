#!/usr/bin/env python3
"""A long trace of version 3 as a stream, on standard output: the same words give the same bytes. None of it is kept.

    bench/streams.py read 1000000 | uring_replay serial
    bench/streams.py write 32768 --length 65536 --size 8388608 | uring_replay serial --sums

It is of one file, which is open in a slot of one ring. Entry K has `length` bytes at the offset K * `step`, and from the start of the file
again where they would be beyond its end. Its user_data is the number of that piece. A WRITE gives to each piece what it has at the start,
so the file stays as it is where pieces do not overlap. The records have 1 to 32 entries in turn.
"""
import argparse
import os
import sys
from functools import lru_cache, partial
from itertools import cycle, islice
from typing import Callable, Iterator

sys.dont_write_bytecode = True
sys.path.append(os.path.join(os.path.dirname(os.path.dirname(os.path.abspath(__file__))), "tests"))

import record_traces
from traces import FIXED_FILE, READ, WRITE, entry

KINDS = {"read": READ, "write": WRITE}
MOST_OF_RECORD = 32
# About what an object of Python has beside its bytes.
OF_OBJECT = 160
# So many bytes are written at once, and entries of so many bytes kept: a trace of any length goes over the same pieces again.
AT_ONCE, KEPT = 1 << 20, 1 << 27


def of_piece(number: int, length: int) -> bytes:
    """The bytes of a piece, which begin with its number."""
    front = b"%d, " % number
    return (front * (length // len(front) + 1))[:length]


def entries_of(kind: str, length: int, step: int) -> Callable[[int], bytes]:
    """The entry of each piece."""
    side_of = partial(of_piece, length=length) if kind == "write" else lambda number: b""

    def of_number(number: int) -> bytes:
        return record_traces.stored(entry(KINDS[kind], FIXED_FILE, offset=number * step, length=length, side=side_of(number), user_data=number))

    return lru_cache(KEPT // (len(of_number(0)) + OF_OBJECT))(of_number)


def parts(kind: str, count: int, length: int, step: int, size: int) -> Iterator[bytes]:
    """The start, the records and the end of a trace of so many entries."""
    pieces, left, record = (size - length) // step + 1, count, 0
    each = map(entries_of(kind, length, step), cycle(range(pieces)))
    yield record_traces.of_one_file(size, b"".join(of_piece(it, step) for it in range(size // step)))
    while left > 0:
        record = record % MOST_OF_RECORD + 1
        yield record_traces.enter(0, list(islice(each, min(record, left))))
        left -= record
    yield record_traces.END


def put_out(made: Iterator[bytes]) -> None:
    """Writes what is made, much at once."""
    held = bytearray()
    for part in made:
        held += part
        if len(held) >= AT_ONCE:
            sys.stdout.buffer.write(held)
            held.clear()
    sys.stdout.buffer.write(held)
    sys.stdout.buffer.flush()


def main() -> None:
    words = argparse.ArgumentParser(description=__doc__, formatter_class=argparse.RawDescriptionHelpFormatter)
    words.add_argument("kind", choices=list(KINDS))
    words.add_argument("entries", type=int)
    words.add_argument("--length", type=int, default=512, help="how many bytes an entry reads or writes (512)")
    words.add_argument("--step", type=int, default=0, help="how far apart they are (the length)")
    words.add_argument("--size", type=int, default=1 << 20, help="how many bytes the file has (1,048,576)")
    given = words.parse_args()
    put_out(parts(given.kind, given.entries, given.length, given.step or given.length, given.size))


if __name__ == "__main__":
    main()
