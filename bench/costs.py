"""Traces of each kind, and what programs cost on them: what the commands of this folder share."""
import os
import subprocess
import sys
import time
from typing import List, NamedTuple

HERE = os.path.dirname(os.path.abspath(__file__))
TOP = os.path.dirname(HERE)
BUILT = os.path.join(TOP, "crates", "uring_replay", "out", "uring_replay")
# What each kind is made by, with n for the number of entries, few for a 250th part of it, quarter for a fourth, and long for the number
# of `files`.
KINDS = {
    "rw": "rw {n} 64 64",
    "rings": "rings {n}",
    "one_file": "one_file {n}",
    "paths": "paths {n}",
    "chains": "chains {n}",
    "big": "big {few} 1",
    "position": "position {n} 16",
    "pages": "pages {n} 64",
    "appends": "appends {n}",
    "files": "files {long} 1024",
    "over": "over {quarter} 4096 64",
}
# Those that the tables of docs/PERFORMANCE.md have.
TABLED = [kind for kind in KINDS if kind != "over"]
# What each kind is.
ABOUT = {
    "rw": "reads and writes of 64 bytes at random in 64 MB",
    "rings": "the same in 64 files, a ring each",
    "one_file": "writes that overlap",
    "paths": "opens, creates, renames and removals in 1,000 directories",
    "chains": "chains of 4, drains, some that break",
    "big": "transfers of 1 MB",
    "position": "reads of 4,096 bytes at the position of a file of 16 MB",
    "pages": "reads, writes and fixed transfers of pages of 4,096 bytes in 64 MB",
    "appends": "writes of 64 bytes at the end",
    "files": "writes of 1 MiB to 64 files",
    "over": "writes of 4,096 bytes over and over a file of 64 MB",
}


class Run(NamedTuple):
    """A command, and the trace that it is given."""

    words: List[str]
    trace: str


class Cost(NamedTuple):
    """The least time and the most memory of some runs."""

    seconds: float
    megabytes: float


def once(run: Run) -> Cost:
    """Runs a command to its end."""
    with open(run.trace, "rb") as given, open(os.devnull, "wb") as nowhere:
        began = time.monotonic()
        started = subprocess.Popen(run.words, stdin=given, stdout=nowhere)
        _, status, usage = os.wait4(started.pid, 0)
        seconds = time.monotonic() - began
    started.returncode = os.waitstatus_to_exitcode(status)
    if status:
        sys.exit("{} ended with status {} on {}".format(" ".join(run.words), started.returncode, run.trace))
    return Cost(seconds, usage.ru_maxrss / 1024)


def least(runs: List[Run], best: int) -> List[Cost]:
    """The cost of each run, the runs in turn."""
    costs = [Cost(float("inf"), 0.0) for _ in runs]
    for _ in range(best):
        for place, run in enumerate(runs):
            cost = once(run)
            costs[place] = Cost(min(costs[place].seconds, cost.seconds), max(costs[place].megabytes, cost.megabytes))
    return costs


def made_by(words: str, entries: int, long: int = 192) -> List[str]:
    """The words of `workloads.py` that make a trace of so many entries; the second is how many it really has."""
    return words.format(n=entries, few=max(entries // 250, 1), quarter=max(entries // 4, 1), long=long).split()


def written(words: List[str], folder: str) -> str:
    """Writes the trace that these words of `workloads.py` make."""
    trace = os.path.join(folder, "measured.trace")
    with open(trace, "wb") as out:
        subprocess.run([sys.executable, "-B", os.path.join(HERE, "workloads.py"), *words], stdout=out, check=True)
    return trace
