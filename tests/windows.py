"""Rounds of large windows: drawn mixes of operations and chains, and traces whose steps wait in ways of their own, cost by what they have
and not by its square or cube. `./tests/windows.py PROGRAM COUNT` tries so many mixes, and tells the longest."""
import random
import sys
from functools import partial
from typing import Callable, Dict, List, NamedTuple, Optional

from harness import Answer, Job, Outcome, Program, Timed, difference, first
from traces import AT_FDCWD, CLOSE, DRAIN, FIXED_FILE, FTRUNCATE, LINK, LINKAT, MKDIRAT, NOP, OPENAT, READ, READ_FIXED, RENAMEAT, UNLINKAT
from traces import WRITE, WRITE_FIXED, description, directory, enter, entry, file, head, ring, two_paths

CREAT, TRUNC, APPEND = 0x40, 0x200, 0x400
POSITION = (1 << 64) - 1
START = AT_FDCWD & 0xFFFFFFFF
WINDOW = ["--window", "4096"]
# How many mixes are drawn, in how many lots, of how many entries; and the seconds of processor time that one may take, which are up
# to 0.95 and 2.2 of 200 mixes. With each place that rests on none looked at in each round such a mix took `compare` 54.
MIXES, LOTS, ENTRIES = 20, 4, 4_000
MOST_OF_MIX = {"compare": 5.0, "rounds": 10.0}
# How many seconds a trace may take in which steps wait in a way of its own, which is up to 0.1 and 0.3; it was 3 to 10, and over 7.
MOST_OF_WAITS = {"compare": 2.0, "rounds": 4.0}
# How many times the processor time of half the entries all may take, which is 1 to 4 times. With cubic costs it was 8.
MOST_OF_TWICE = 5.0
# How many appends come behind the OPENAT of their slot, and how many times the processor time of as many to a file that is open at the
# start they may take, which is 1 to 3 times. With all reaches before asked of each it was 40.
APPENDS, MOST_BEHIND = 4_200, 20.0


class Mix:
    """Draws entries of a workload that is drawn too: how many files, directories, slots and rings it has, and how often each operation
    comes. Half of the entries are linked to the next one."""

    def __init__(self, seed: int) -> None:
        self.source = random.Random("mix {}".format(seed))
        self.slots, self.rings = self.source.choice((4, 8, 64)), self.source.choice((1, 1, 2, 4))
        self.directories, files = self.source.choice((0, 1, 4)), self.source.choice((1, 2, 8, 40))
        fronts = ["", *("/d{}".format(number) for number in range(self.directories))]
        self.paths = ["{}/f{}".format(front, number).encode() for front in fronts for number in range(files)]
        self.kinds: Dict[Callable[[int], bytes], int] = {kind: self.source.choice((0, 1, 4, 16)) for kind in self.every_kind()}
        self.kinds[self.reading] += 1
        self.each_drain = self.source.choice((0, 0, 0, 200, 1000))

    def every_kind(self) -> List[Callable[[int], bytes]]:
        return [self.reading, self.writing, self.appending, self.at_position, self.opening, self.closing, self.renaming, self.linking, self.removing,
                self.making, self.truncating, self.of_buffer, self.at_descriptor, self.idle]

    def slot(self) -> int:
        return self.source.randrange(self.slots)

    def offset(self) -> int:
        return self.source.choice((0, self.source.randrange(64), self.source.randrange(70_000)))

    def path(self) -> bytes:
        return self.source.choice(self.paths)

    def two_paths(self) -> bytes:
        return two_paths(self.path(), self.path())

    def reading(self, flags: int) -> bytes:
        return entry(READ, flags | FIXED_FILE, self.slot(), self.offset(), length=self.source.choice((1, 64)))

    def writing(self, flags: int) -> bytes:
        return entry(WRITE, flags | FIXED_FILE, self.slot(), self.offset(), length=1, side=b"w")

    def appending(self, flags: int) -> bytes:
        return entry(WRITE, flags | FIXED_FILE, 1, length=1, side=b"l")

    def at_position(self, flags: int) -> bytes:
        return entry(READ, flags | FIXED_FILE, self.slot(), POSITION, length=1)

    def opening(self, flags: int) -> bytes:
        own = 2 | self.source.choice((0, 0, CREAT, CREAT | TRUNC, APPEND))
        return entry(OPENAT, flags, AT_FDCWD, own_flags=own, file_index=self.slot() + 1, side=self.path())

    def at_descriptor(self, flags: int) -> bytes:
        return entry(OPENAT, flags, AT_FDCWD, own_flags=2 | self.source.choice((0, CREAT)), side=self.path())

    def closing(self, flags: int) -> bytes:
        return entry(CLOSE, flags, file_index=self.slot() + 1)

    def renaming(self, flags: int) -> bytes:
        return entry(RENAMEAT, flags, AT_FDCWD, length=START, side=self.two_paths())

    def linking(self, flags: int) -> bytes:
        return entry(LINKAT, flags, AT_FDCWD, length=START, side=self.two_paths())

    def removing(self, flags: int) -> bytes:
        return entry(UNLINKAT, flags, AT_FDCWD, side=self.path())

    def making(self, flags: int) -> bytes:
        return entry(MKDIRAT, flags, AT_FDCWD, side=b"/d%d" % self.source.randrange(self.directories + 2))

    def truncating(self, flags: int) -> bytes:
        return entry(FTRUNCATE, flags | FIXED_FILE, self.slot(), self.source.randrange(70_000))

    def of_buffer(self, flags: int) -> bytes:
        opcode = self.source.choice((READ_FIXED, WRITE_FIXED))
        return entry(opcode, flags | FIXED_FILE, self.slot(), self.offset(), length=16, address=4_096 + self.source.randrange(4_000))

    def idle(self, flags: int) -> bytes:
        return entry(NOP, flags)

    def entry(self) -> bytes:
        (kind,) = self.source.choices(list(self.kinds), list(self.kinds.values()))
        is_drain = self.each_drain and self.source.randrange(self.each_drain) == 0
        return kind(LINK * (self.source.random() < 0.5) | DRAIN * is_drain)

    def trace(self, count: int) -> bytes:
        records: List[bytes] = []
        while count:
            several = min(count, self.source.choice((1, 4, 64)) if self.rings > 1 else 64)
            records.append(enter(self.source.randrange(self.rings), [self.entry() for _ in range(several)]))
            count -= several
        items = [file(b"/f0", 70_000), file(b"/log"), *(directory(b"/d%d" % number) for number in range(self.directories))]
        described = [description(1), description(2, append=1), description(1, position=5)]
        handles = [1, 2, *(self.source.choice((0, 1, 3)) for _ in range(self.slots - 2))]
        rings = [ring(handles, [(4_096, 4_096)])] * self.rings
        front = head(len(items), len(described), len(rings), len(records), 8, version=2)
        return b"".join([front, *items, *described, bytes(4 * 8), *rings, *records])


def of_log(entries: List[bytes]) -> bytes:
    """Entries on one ring, with a file in slot 0, a log that is appended to in slot 1, and an empty slot 2."""
    items, described = [file(b"/f", 70_000), file(b"/log")], [description(1), description(2, append=1)]
    return b"".join([head(2, 2, 1, 1), *items, *described, ring([1, 2, 0]), enter(0, entries)])


def appends(count: int, flags: int = 0, slot: int = 1) -> List[bytes]:
    return [entry(WRITE, FIXED_FILE | flags, slot, length=1, side=b"l")] * count


def opened(path: bytes, slot: int, flags: int = 0) -> bytes:
    return entry(OPENAT, fd=AT_FDCWD, own_flags=2 | flags, file_index=slot + 1, side=path)


def reads(count: int, slot: int, flags: int = 0) -> List[bytes]:
    return [entry(READ, FIXED_FILE | flags * (number < count - 1), slot, number, length=1) for number in range(count)]


def chained_reads(each: int) -> bytes:
    """A chain of appends and an open, and a chain of reads through the slot that the open fills."""
    return of_log([*appends(each, LINK), opened(b"/f", 2), *reads(each, 2, LINK)])


def far_reads(chained: int, between: int, count: int) -> bytes:
    """A chain of appends and a write, appends to the log, and reads of what that write writes."""
    wrote = entry(WRITE, FIXED_FILE, 0, length=count, side=bytes(count))
    return of_log([*appends(chained, LINK), wrote, *appends(between), *reads(count, 0)])


def appends_behind(is_open: bool) -> bytes:
    """Appends to a file that is open at the start, or is opened by the first entry."""
    front = [] if is_open else [opened(b"/log", 2, APPEND)]
    return of_log([*front, *appends(APPENDS, slot=1 if is_open else 2)])


class Taken(NamedTuple):
    """What a command took of a trace, and what is wrong with that."""

    seconds: float
    fault: Optional[str]


def taken(program: Program, mode: str, trace: bytes, most: float) -> Taken:
    """The processor time of a command."""
    seconds = program.least([mode, *WINDOW], trace, most)
    return Taken(seconds, None if seconds < most else "{} takes {:.2f} seconds, and not less than {}".format(mode, seconds, most))


def of_mix(program: Program, seed: int) -> Optional[str]:
    """What is wrong with a drawn mix in rounds, if anything is."""
    trace = Mix(seed).trace(ENTRIES)
    told = [difference(program.run(["compare", *WINDOW], trace), Answer(0, b"equal\n", b""))]
    told += [taken(program, mode, trace, most).fault for mode, most in MOST_OF_MIX.items()]
    return first([it for it in told if it])


def lot(program: Program, seeds: range) -> List[Outcome]:
    faults = ["seed {}: {}".format(seed, told) for seed in seeds for told in [of_mix(program, seed)] if told]
    return [Outcome("mixes {} to {} in rounds of {} by {}".format(seeds[0], seeds[-1], WINDOW[1], program.compiler), first(faults))]


def of_waits(program: Program) -> List[Outcome]:
    """Chains that wait for an outsider's open, and reads for a write far back."""
    outcomes = []
    for name, trace in (("chained reads", chained_reads(500)), ("far reads", far_reads(400, 500, 1_200))):
        for mode, most in MOST_OF_WAITS.items():
            outcomes.append(Outcome("{} of {} by {}".format(mode, name, program.compiler), taken(program, mode, trace, most).fault))
    return outcomes


def ratio(program: Program, name: str, mode: str, trace: bytes, plain: bytes, most: float) -> Outcome:
    """That one trace takes less than so many times the processor time of another."""
    slow, quick = (Timed([mode, *WINDOW], it) for it in (trace, plain))
    return Outcome("{} of {} by {}".format(mode, name, program.compiler), program.outlasts(slow, quick, most))


def of_twice(program: Program) -> List[Outcome]:
    """Twice the entries take no more than so many times the processor time."""
    pairs = [("twice a mix", Mix(1).trace(4_000), Mix(1).trace(2_000)), ("twice the chained reads", chained_reads(2_000), chained_reads(1_000)),
             ("twice the far reads", far_reads(600, 900, 2_500), far_reads(300, 450, 1_250))]
    return [ratio(program, name, mode, trace, half, MOST_OF_TWICE) for name, trace, half in pairs for mode in MOST_OF_MIX]


def of_appends(program: Program) -> List[Outcome]:
    """Appends behind the open of their slot."""
    return [ratio(program, "appends behind their open", mode, appends_behind(False), appends_behind(True), MOST_BEHIND) for mode in MOST_OF_MIX]


def jobs(programs: List[Program]) -> List[Job]:
    """By the first program."""
    each, program = MIXES // LOTS, programs[0]
    lots = [partial(lot, program, range(at, at + each)) for at in range(0, MIXES, each)]
    return [*lots, *(partial(test, program) for test in (of_waits, of_twice, of_appends))]


def main(words: List[str]) -> int:
    """Tries so many mixes by a program, and tells which took longest in each mode."""
    if len(words) != 2 or not words[1].isdigit():
        print(__doc__, file=sys.stderr)
        return 2
    program, failed = Program(words[0], words[0]), 0
    longest = {mode: (0.0, -1) for mode in MOST_OF_MIX}
    for seed in range(int(words[1])):
        trace = Mix(seed).trace(ENTRIES)
        for mode, most in MOST_OF_MIX.items():
            took = taken(program, mode, trace, most)
            longest[mode] = max(longest[mode], (took.seconds, seed))
            failed += took.fault is not None
    for mode, (seconds, seed) in longest.items():
        print("{}: at most {:.2f} seconds, of seed {}".format(mode, seconds, seed))
    print("{} failed".format(failed))
    return 1 if failed else 0


if __name__ == "__main__":
    sys.exit(main(sys.argv[1:]))
