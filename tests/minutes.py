#!/usr/bin/env python3
"""Runs a command and says how many processor minutes each crate took of it: tests/minutes.py rt ci

The processes below the command are looked at once a second. One that proves or builds a crate names it behind
--crate-name; what an edit that must be refused takes is told apart by the folder in which it is tried. The whole is what the
system counted; what no crate is named for, or ended within a second, is in the last line.
"""
import collections
import os
import resource
import subprocess
import sys
import threading
from typing import Dict, List, Optional, Tuple

KINDS = ("proof", "tests", "edits")
TICKS = os.sysconf("SC_CLK_TCK")


def text_of(path: str) -> bytes:
    try:
        with open(path, "rb") as file:
            return file.read()
    except OSError:
        return b""


def crate_of(process: str) -> Optional[Tuple[str, str]]:
    """The crate that a process works on, and for what."""
    words = text_of("/proc/{}/cmdline".format(process)).split(b"\0")
    if b"--crate-name" not in words:
        return None
    name = words[words.index(b"--crate-name") + 1].decode("utf-8", "replace")
    try:
        folder = os.path.basename(os.readlink("/proc/{}/cwd".format(process)))
    except OSError:
        folder = ""
    return name, "edits" if folder.startswith("rt-edit-") else "tests" if b"--test" in words else "proof"


class Watch:
    """The processor time of the processes below one, by crate."""

    def __init__(self, top: int) -> None:
        self.top = top
        self.of: Dict[Tuple[str, str], Optional[Tuple[str, str]]] = {}
        self.seconds: Dict[Tuple[str, str], float] = {}
        self.is_over = threading.Event()
        self.thread = threading.Thread(target=self.run, daemon=True)
        self.thread.start()

    def run(self) -> None:
        while not self.is_over.wait(1):
            self.look()

    def look(self) -> None:
        """Adds up the time of each process that is there."""
        stats = {}
        for process in os.listdir("/proc"):
            if process.isdigit():
                fields = text_of("/proc/{}/stat".format(process)).rpartition(b") ")[2].split()
                if len(fields) > 20:
                    stats[process] = fields
        below, is_more = {str(self.top)}, True
        while is_more:
            new = {it for it, fields in stats.items() if it not in below and fields[1].decode() in below}
            below, is_more = below | new, bool(new)
        for process in below & stats.keys():
            key = process, stats[process][19].decode()
            if self.of.get(key) is None:
                self.of[key] = crate_of(process)
            self.seconds[key] = (int(stats[process][11]) + int(stats[process][12])) / TICKS

    def table(self, whole: float) -> List[str]:
        """The lines of the table, the crate with the most first."""
        self.is_over.set()
        self.thread.join()
        found: Dict[str, Dict[str, float]] = collections.defaultdict(lambda: dict.fromkeys(KINDS, 0.0))
        for key, crate in self.of.items():
            if crate is not None:
                found[crate[0]][crate[1]] += self.seconds[key]
        form = "{:<20}" + "{:>9}" * 4
        lines = ["processor minutes:", form.format("", *KINDS, "in all")]
        for name, kinds in sorted(found.items(), key=lambda it: -sum(it[1].values())):
            lines.append(form.format(name, *("{:.1f}".format(kinds[it] / 60) for it in KINDS), "{:.1f}".format(sum(kinds.values()) / 60)))
        sums = [sum(kinds[it] for kinds in found.values()) for it in KINDS]
        lines.append(form.format("all crates", *("{:.1f}".format(it / 60) for it in sums), "{:.1f}".format(sum(sums) / 60)))
        lines.append("the whole command: {:.1f}".format(whole / 60))
        return lines


def children() -> float:
    """The processor seconds of the processes that this one started and that have ended."""
    used = resource.getrusage(resource.RUSAGE_CHILDREN)
    return used.ru_utime + used.ru_stime


def main() -> int:
    if len(sys.argv) < 2:
        print(__doc__, end="", file=sys.stderr)
        return 2
    before = children()
    started = subprocess.Popen(sys.argv[1:])
    watch = Watch(started.pid)
    status = started.wait()
    print("\n".join(watch.table(children() - before)))
    return status if status >= 0 else 128 - status


if __name__ == "__main__":
    sys.exit(main())
