#!/usr/bin/env python3
"""What long traces of version 3 cost that are replayed while they are made, as a table: bench/streamed.py

    bench/streamed.py --kinds writes      one of the kinds below
    bench/streamed.py --modes serial      one of the modes
    bench/streamed.py --entries N         so many reads in place of 30,000,000, and a hundredth part of writes and of files
    bench/streamed.py --program FILE      another program in place of crates/uring_replay/out/uring_replay

The traces are those of bench/streams.py, of a file of 64 MiB, through a pipe. `reads` are of 512 bytes, `writes` of 64 KiB, side by side;
those of `overlapping` begin 4 KiB behind one another. `temporaries` is that of bench/temporaries.py: files of 64 KiB, of which each is made,
written, closed and removed. Seconds are those of a processor that the program takes, without those of what makes the trace. Peak memory is
what Linux tells of it (VmHWM), looked up 100 times a second.
"""
import argparse
import os
import subprocess
import sys
import time
from typing import List, NamedTuple

sys.dont_write_bytecode = True
sys.path.insert(0, os.path.dirname(os.path.abspath(__file__)))

from costs import BUILT, HERE

SIZE = 64 << 20
KINDS = {
    "reads": "streams.py read {all} --length 512 --size {size}",
    "writes": "streams.py write {few} --length 65536 --size {size}",
    "overlapping": "streams.py write {few} --length 65536 --step 4096 --size {size}",
    "temporaries": "temporaries.py {few} --size 65536",
}
MODES = {"serial": ["serial"], "check": ["check"], "run": ["run", "--workers", "4"]}
PAUSE = 0.01


class Streamed(NamedTuple):
    """What a program took."""

    seconds: float
    megabytes: float


def peak_of(pid: int) -> int:
    """The most memory that a program has had so far, in KiB; 0 where it has ended."""
    try:
        with open("/proc/{}/status".format(pid)) as status:
            return next((int(line.split()[1]) for line in status if line.startswith("VmHWM:")), 0)
    except OSError:
        return 0


def streamed(words: List[str], made_by: List[str]) -> Streamed:
    """Gives a program what another one writes."""
    with subprocess.Popen(made_by, stdin=subprocess.DEVNULL, stdout=subprocess.PIPE) as maker:
        started = subprocess.Popen(words, stdin=maker.stdout, stdout=subprocess.DEVNULL)
        maker.stdout.close()
        peak, ended = 0, 0
        while not ended:
            time.sleep(PAUSE)
            peak = max(peak, peak_of(started.pid))
            ended, status, usage = os.wait4(started.pid, os.WNOHANG)
    started.returncode = os.waitstatus_to_exitcode(status)
    if started.returncode or maker.returncode:
        sys.exit("{} ended with status {}".format(" ".join(words), started.returncode))
    return Streamed(usage.ru_utime + usage.ru_stime, peak / 1024)


def main() -> None:
    words = argparse.ArgumentParser(description=__doc__, formatter_class=argparse.RawDescriptionHelpFormatter)
    words.add_argument("--kinds", nargs="+", choices=list(KINDS), default=list(KINDS))
    words.add_argument("--modes", nargs="+", choices=list(MODES), default=list(MODES))
    words.add_argument("--entries", type=int, default=30_000_000)
    words.add_argument("--program", default=BUILT)
    given = words.parse_args()
    few = max(given.entries // 100, 1)
    print("| Stream | Entries or files | {} |\n|{}".format(" | ".join("`{}`: time, memory".format(it) for it in given.modes), "---|" * (2 + len(given.modes))), flush=True)
    for kind in given.kinds:
        script, *made_by = KINDS[kind].format(all=given.entries, few=few, size=SIZE).split()
        command = [sys.executable, os.path.join(HERE, script), *made_by]
        cells = ["{:.1f} s, {:.0f} MB".format(*streamed([given.program, *MODES[it]], command)) for it in given.modes]
        print("| `{}` | {:,} | {} |".format(kind, given.entries if kind == "reads" else few, " | ".join(cells)), flush=True)


if __name__ == "__main__":
    main()
