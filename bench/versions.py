"""Traces of each kind as they are and carried over to version 3, and how many times the instructions programs take for an entry then."""
import os
import subprocess
import sys
from concurrent.futures import ProcessPoolExecutor
from typing import List, Tuple

from carried import carry
from costs import KINDS, made_by, written
from instructions import FILES, Counted, added, instructions
from record_traces import behind_rings

# The version of the traces of each kind, and the one that they are carried over to.
VERSIONS = (1, 3)
HEADER = 32


def output(words: List[str], trace: str) -> bytes:
    """What a program writes of a trace, which it has to take."""
    with open(trace, "rb") as given:
        ran = subprocess.run(words, stdin=given, stdout=subprocess.PIPE, check=False)
    if ran.returncode:
        sys.exit("{} ended with status {} on {}".format(" ".join(words), ran.returncode, trace))
    return ran.stdout


def same(program: str, trace: str, carried: str) -> None:
    """Ends this program where a program gives other results of a trace that is carried over."""
    words = [program, "serial", "--sums"]
    with open(trace, "rb") as given:
        header = given.read(HEADER)
    if behind_rings(output(words, trace), header) != output(words, carried):
        sys.exit("{} gives other results of {} than of {}".format(" ".join(words), carried, trace))


def carried_over(programs: List[str], trace: str, carried: str) -> None:
    """Carries a trace over, of which each program then has to give the same results."""
    with open(trace, "rb") as given, open(carried, "wb") as out:
        carry(given, out)
    for program in programs:
        same(program, trace, carried)


def both(programs: List[str], words: List[str], folder: str) -> Tuple[str, str]:
    """The trace that these words of `workloads.py` make, and the same carried over. That is done in another process, since the peak memory of a
    program is never below that of the process that starts it."""
    trace, carried = written(words, folder), os.path.join(folder, "carried.trace")
    with ProcessPoolExecutor(1) as another:
        another.submit(carried_over, programs, trace, carried).result()
    return trace, carried


def counted(commands: List[List[str]], kind: str, times: int, entries: int, folder: str) -> Counted:
    """Each command on both traces of so many times the entries."""
    words = made_by(KINDS[kind], times * entries, times * FILES)
    pair = both(list(dict.fromkeys(command[0] for command in commands)), words, folder)
    return Counted([instructions(command, trace) for command in commands for trace in pair], int(words[1]))


def ratios_an_entry(commands: List[List[str]], kind: str, entries: int, folder: str) -> List[float]:
    """How many times the instructions each command takes for an entry of the trace that is carried over."""
    figures = added(*(counted(commands, kind, times, entries, folder) for times in (1, 2)))
    return [after / before for before, after in zip(figures[::2], figures[1::2])]
