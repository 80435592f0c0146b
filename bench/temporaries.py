#!/usr/bin/env python3
"""A trace of version 3 that makes and removes files, as a stream on standard output: the same words give the same bytes. None of it is kept.

    bench/temporaries.py | uring_replay serial
    bench/temporaries.py 5000 --size 4096 | uring_replay serial

Each of the files is made by OPENAT, written from its start on, closed and removed, by an entry each with the number of the file as user_data.
It is open in the one slot of the ring if its number is even, and else at the one descriptor. The records have the entries of 1 to 8 files in
turn. No file is there at the start, and none at the end.
"""
import argparse
import os
import sys
from itertools import chain
from typing import Iterator, List

sys.dont_write_bytecode = True
sys.path.append(os.path.join(os.path.dirname(os.path.dirname(os.path.abspath(__file__))), "tests"))

import record_traces
from streams import of_piece, put_out
from traces import AT_FDCWD, CLOSE, FIXED_FILE, OPENAT, UNLINKAT, WRITE, entry

MOST_OF_RECORD = 8
# The flags of OPENAT that make a file to be read and written.
MAKES = 0o102


def entries_of(number: int, size: int) -> List[bytes]:
    """Makes, writes, closes and removes a file."""
    path, slot = b"/tmp-%d" % number, 1 - number % 2
    made = (
        entry(OPENAT, fd=AT_FDCWD, own_flags=MAKES, file_index=slot, side=path, user_data=number),
        entry(WRITE, FIXED_FILE * slot, length=size, side=of_piece(number, size), user_data=number),
        entry(CLOSE, file_index=slot, user_data=number),
        entry(UNLINKAT, fd=AT_FDCWD, side=path, user_data=number),
    )
    return [record_traces.stored(it) for it in made]


def parts(files: int, size: int) -> Iterator[bytes]:
    """The start, the records and the end of a trace of so many files."""
    first, record = 0, 0
    yield record_traces.head(table=1) + record_traces.ring(1)
    while first < files:
        record = record % MOST_OF_RECORD + 1
        behind = min(first + record, files)
        yield record_traces.enter(0, list(chain.from_iterable(entries_of(it, size) for it in range(first, behind))))
        first = behind
    yield record_traces.END


def main() -> None:
    words = argparse.ArgumentParser(description=__doc__, formatter_class=argparse.RawDescriptionHelpFormatter)
    words.add_argument("files", type=int, nargs="?", default=50_000, help="how many files (50,000)")
    words.add_argument("--size", type=int, default=1 << 16, help="how many bytes are written to each (65,536)")
    given = words.parse_args()
    put_out(parts(given.files, given.size))


if __name__ == "__main__":
    main()
