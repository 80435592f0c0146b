#!/usr/bin/env python3
"""Tells which modules took longest in the first check of a crate by one job: tests/slowest.py NAME [COUNT]

A check writes each module that it has proved below out/, so the time between two of these files is what the later one took.
Run it after `find out -name '*.oantt' -delete; rt check --jobs 1` in the crate's folder: a folder out/ that is gone is filled
again from what was kept on the machine, with old times."""
import os
import sys
from typing import Iterator, List, Tuple

TOP = os.path.dirname(os.path.dirname(os.path.abspath(__file__)))


def written(folder: str) -> Iterator[Tuple[float, str]]:
    """When each module was written, and its name."""
    for at, _, names in os.walk(folder):
        if os.path.basename(at) == "records":
            continue
        for name in names:
            if name.endswith(".oantt"):
                yield os.stat(os.path.join(at, name)).st_mtime, name[: -len(".oantt")]


def seconds(folder: str) -> List[Tuple[float, str]]:
    """What each module took, the longest first."""
    files = sorted(written(folder))
    return sorted(((end - start, name) for (start, _), (end, name) in zip(files, files[1:])), reverse=True)


def main(words: List[str]) -> int:
    if len(words) not in (1, 2) or not all(word.isdigit() for word in words[1:]):
        print(__doc__, file=sys.stderr)
        return 2
    found = seconds(os.path.join(TOP, "crates", words[0], "out", "incremental"))
    print("{:.0f} seconds in {} modules".format(sum(time for time, _ in found), len(found)))
    for time, name in found[: int(words[1]) if words[1:] else 20]:
        print("{:7.1f} {}".format(time, name))
    return 0


if __name__ == "__main__":
    sys.exit(main(sys.argv[1:]))
