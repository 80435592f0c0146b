"""How many instructions programs take for an entry, by callgrind of valgrind(1): unlike times, they hardly change from run to run."""
import os
import sys
from typing import List, NamedTuple

sys.path.append(os.path.join(os.path.dirname(os.path.dirname(os.path.abspath(__file__))), "tests"))

import callgrind
from answers import same
from costs import KINDS, made_by, written

# Each kind is run with so many entries, and with twice as many; `big` has a 250th part, `files` this many.
ENTRIES, FILES = 20_000, 96


class Counted(NamedTuple):
    """The instructions of programs on one trace, and its entries."""

    instructions: List[int]
    entries: int


def lacking() -> bool:
    """Says where valgrind lacks."""
    told = callgrind.lacking()
    if told:
        print("skipped: " + told, file=sys.stderr)
    return bool(told)


def instructions(words: List[str], trace: str) -> int:
    """Those of one run, in user space."""
    with open(trace, "rb") as given:
        count = callgrind.instructions(words, given)
    if count is None:
        sys.exit("{} failed under valgrind".format(" ".join(words)))
    return count


def counted(commands: List[List[str]], kind: str, times: int, entries: int, folder: str) -> Counted:
    """Each command on a trace of so many times the entries, to which all give the same answers."""
    words = made_by(KINDS[kind], times * entries, times * FILES)
    trace = written(words, folder)
    same(list(dict.fromkeys(command[0] for command in commands)), trace)
    return Counted([instructions(command, trace) for command in commands], int(words[1]))


def added(fewer: Counted, more: Counted) -> List[int]:
    """The instructions for an entry: what the second half of the entries adds, so without start and items."""
    entries = more.entries - fewer.entries
    return [round((b - a) / entries) for a, b in zip(fewer.instructions, more.instructions)]


def an_entry(commands: List[List[str]], kind: str, entries: int, folder: str) -> List[int]:
    """The instructions of each command for an entry."""
    return added(*(counted(commands, kind, times, entries, folder) for times in (1, 2)))
