"""What nothing leads to is dropped while a trace of version 3 is replayed: nodes without a name that are not open, and open file descriptions that
nothing holds. No report tells it: long traces that make much give what the second replayer gives of them, which keeps all, and what they give as
version 2, of which all is kept. What the memory is bounded by tells it."""
import heapq
import os
import random
import subprocess
import sys
from functools import partial
from typing import Callable, Iterator, List, NamedTuple, Optional, Tuple, Union

import by_models
import days
import drawing
import model
import model_records
import record_traces
from harness import TOP, Answer, Job, Outcome, Program, Timed, difference, first, shown
from model import A_DIRECTORY, CREAT
from record_traces import DESCRIPTION, DESCRIPTOR, SLOT, Carried, Records, file_of, stored
from records import lot
from streams import BY_MODEL, Bounded, in_memory
from traces import AT_FDCWD, CLOSE, FADVISE, FIXED_FILE, FSYNC, FTRUNCATE, LINK, LINKAT, MKDIRAT, NOP, OPENAT, READ, RENAMEAT, STATX, UNLINKAT, WRITE
from traces import description, directory, enter, entry, head, name, ring, two_paths

BENCH = os.path.join(TOP, "bench", "temporaries.py")
# Something is dropped when so many nodes and descriptions were made since the last time, and as many as there was left to look at then. At least so
# often that comes to pass where all is made to succeed, and in drawn traces.
MADE, OFTEN, ONCE = 512, 4, 1
# How many traces of each kind are tried. How many files lead a life in one.
DRAWN, LIVES = 4, 1_200
# Beside how many descriptions, or names of one file, so many temporary files come and go. How many times the processor time of those beside one
# description they may take, which is 1 to 2 times; and how many times that of the names alone, which is 1 to 1.6 times. Were all these looked at each
# time that the fewest were made, it would be over 10 times, and 4.
BESIDE, TEMPORARIES, MOST_BESIDE = 200_000, 20_000, 5.0
BESIDE_NAMES, MOST_BESIDE_NAMES = 100_000, 2.5
# How many slots and descriptors there are, how long a file is left alone, and how long one of a few is.
OPEN, PAUSE, LONG, EACH_LONG = 150, 30, 3_000, 12
LAST, POSITION, EXCHANGE, REMOVES_DIRECTORY = (1 << 32) - 1, (1 << 64) - 1, 2, 0x200


# --- How often something is dropped ---------------------------------------------------------------------------------

class Left(NamedTuple):
    """What something leads to: how many nodes and descriptions there are of it, and how much there is of it to look at."""

    there: int
    size: int


def left_in(world: model_records.Records) -> Left:
    """The descriptions that the trace starts with count."""
    holding = [number for handles in (*world.slots, world.table) for number in handles if number is not None]
    named = [node for _, node in world.paths()]
    held = {*range(world.described), *holding}
    nodes = {0, *named, *(world.descriptions[it].node for it in held)}
    return Left(len(held) + len(nodes), len(held) + len(holding) + len(nodes) + len(named))


def kept_by_model(trace: bytes) -> Tuple[int, Answer]:
    """How often enough was made behind a record of a trace of version 3 that something is dropped, chains that broke aside; and what the second replayer
    gives, which keeps all."""
    world, replies = model_records.Records(trace), {}
    ends, times, gone = {places for _, places in world.ends}, 0, 0
    made = len(world.nodes) + len(world.descriptions)
    room = made + max(made, MADE)
    for chain in world.chains:
        if chain.first in ends:
            made = len(world.nodes) + len(world.descriptions)
            if made - gone > room:
                left, times = left_in(world), times + 1
                gone = made - left.there
                room = left.there + max(left.size, MADE)
        replies.update({chain.first + at: model.run_step(world, chain, at) for at in range(len(chain.steps))})
    return times, Answer(0, model.report_of(world, replies, True), b"")


# --- Drawn traces that make much ------------------------------------------------------------------------------------

class Many:
    """Draws many records in which files are opened, closed and removed again and again."""

    names, fewest, records, most_slots, tables = tuple(b"%d" % it for it in range(60)), 2_200, 2_400, 12, (5, 40)
    weights = {OPENAT: 40, CLOSE: 22, UNLINKAT: 9, MKDIRAT: 2, RENAMEAT: 6, LINKAT: 3, WRITE: 3, READ: 3, FTRUNCATE: 1, FSYNC: 1, NOP: 1}
    flags = ((LINK, 15), *drawing.FLAGS[1:])
    each_through_table, each_of_table, longest, counts = 2, 2, 60, (0, 1, 7, 33)

    def path(self) -> bytes:
        return super().path() if self.rarely(6) else b"/" + self.one(self.names)


class ManyRecords(Many, Records):
    """Draws such a trace of version 3, in which rings come and go."""

    weights = {**Many.weights, STATX: 2, FADVISE: 1}
    most_described, each_ring, each_end, each_given = 60, 40, 60, 25


class Alike(Many):
    """Draws one that is the same in versions 2 and 3: version 3 serves flags of transfers that version 2 does not."""

    def entry(self, number: int) -> bytes:
        made = super().entry(number)
        return made[:28] + bytes(4) + made[32:] if made[0] in (READ, WRITE) else made


class ManySecond(Alike, drawing.Second):
    """Draws such a trace of version 2."""


class ManyCarried(Alike, Carried):
    """Draws the same in version 3."""


# --- Lives of files -------------------------------------------------------------------------------------------------

# What a life does next: an entry, or to leave the file alone for so many turns.
Turn = Union[bytes, int]


class Lives:
    """Draws entries by which files and directories are made, and most of them removed: while they are open, by a rename, by one of two names. They
    are open in slots and by descriptors. Each entry succeeds."""

    def __init__(self, seed: int) -> None:
        self.source = random.Random("lives {}".format(seed))
        self.slots, self.table = list(range(OPEN)), list(range(OPEN))
        self.number = 0
        self.kinds = (self.of_removed, self.of_replaced, self.of_two_names, self.of_directories, self.of_two_descriptions, self.of_exchanged, self.of_open_directory, self.of_kept)

    def entries(self) -> List[bytes]:
        due = [(it * 7, it, self.life(it)) for it in range(LIVES)]
        heapq.heapify(due)
        made: List[bytes] = []
        while due:
            at, number, life = heapq.heappop(due)
            turn = next(life, None)
            if turn is None:
                continue
            if isinstance(turn, bytes):
                made.append(turn)
            heapq.heappush(due, (at + (turn if isinstance(turn, int) else 1), number, life))
        return made

    def life(self, number: int) -> Iterator[Turn]:
        yield from self.kinds[self.source.randrange(len(self.kinds))](b"/%d" % number)

    def pause(self) -> int:
        return self.source.randrange(LONG if self.source.randrange(EACH_LONG) == 0 else PAUSE)

    def data(self) -> bytes:
        return b"%d " % self.source.randrange(1 << 30) * self.source.choice((1, 3, 700))

    def entry(self, *facts, **fields) -> bytes:
        self.number += 1
        return entry(*facts, user_data=self.number, **fields)

    def open(self, path: bytes, flags: int = CREAT | 2) -> Tuple[bytes, "Open"]:
        """An entry that opens a file, and what is open then. The lowest descriptor is taken."""
        is_slot = self.source.randrange(2) == 0 and self.slots
        free = self.slots if is_slot else self.table
        number = free.pop(self.source.randrange(len(free)) if is_slot else free.index(min(free)))
        return self.entry(OPENAT, fd=AT_FDCWD, own_flags=flags, file_index=number + 1 if is_slot else 0, side=path), Open(self, number, bool(is_slot))

    def of_names(self, opcode: int, old: bytes, new: bytes, own_flags: int = 0) -> bytes:
        return self.entry(opcode, fd=AT_FDCWD, length=AT_FDCWD & LAST, own_flags=own_flags, side=two_paths(old, new))

    def removed(self, path: bytes, own_flags: int = 0) -> bytes:
        return self.entry(UNLINKAT, fd=AT_FDCWD, own_flags=own_flags, side=path)

    def made_directory(self, path: bytes) -> bytes:
        return self.entry(MKDIRAT, fd=AT_FDCWD, side=path)

    def written(self, path: bytes) -> Iterator[Turn]:
        """A file that is made, written and closed."""
        opens, at = self.open(path)
        yield opens
        yield at.write(self.data())
        yield at.close()

    def of_removed(self, path: bytes) -> Iterator[Turn]:
        opens, at = self.open(path)
        yield opens
        yield at.write(self.data())
        yield self.removed(path)
        for _ in range(self.source.randrange(3)):
            yield self.pause()
            yield at.write(self.data())
            yield at.read()
        yield at.close()

    def of_replaced(self, path: bytes) -> Iterator[Turn]:
        yield from self.written(path + b"new")
        opens, at = self.open(path)
        yield opens
        yield at.write(self.data())
        yield self.of_names(RENAMEAT, path + b"new", path)
        yield self.pause()
        yield at.read()
        yield at.close()
        yield self.pause()
        yield self.removed(path)

    def of_two_names(self, path: bytes) -> Iterator[Turn]:
        yield from self.written(path)
        yield self.of_names(LINKAT, path, path + b"too")
        yield self.removed(path)
        yield self.pause()
        opens, at = self.open(path + b"too", 0)
        yield opens
        yield at.read()
        yield self.removed(path + b"too")
        yield at.close()

    def of_directories(self, path: bytes) -> Iterator[Turn]:
        below, renamed = path + b"/below", path + b"renamed"
        yield self.made_directory(path)
        yield self.made_directory(below)
        yield from self.written(below + b"/file")
        yield self.pause()
        yield self.of_names(RENAMEAT, path, renamed)
        yield self.removed(renamed + b"/below/file")
        yield self.removed(renamed + b"/below", REMOVES_DIRECTORY)
        yield self.pause()
        yield self.removed(renamed, REMOVES_DIRECTORY)

    def of_two_descriptions(self, path: bytes) -> Iterator[Turn]:
        opens, at = self.open(path)
        yield opens
        again, too = self.open(path, 0)
        yield again
        yield at.write(self.data())
        yield at.close()
        yield self.removed(path)
        yield self.pause()
        yield too.read()
        yield too.close()

    def of_exchanged(self, path: bytes) -> Iterator[Turn]:
        yield self.made_directory(path)
        yield from self.written(path + b"file")
        yield self.of_names(RENAMEAT, path, path + b"file", EXCHANGE)
        yield self.pause()
        yield self.removed(path + b"file", REMOVES_DIRECTORY)
        opens, at = self.open(path, 0)
        yield opens
        yield self.removed(path)
        yield at.read()
        yield at.close()

    def of_open_directory(self, path: bytes) -> Iterator[Turn]:
        yield self.made_directory(path)
        opens, at = self.open(path, A_DIRECTORY)
        yield opens
        yield self.removed(path, REMOVES_DIRECTORY)
        yield self.pause()
        yield at.synced()
        yield at.close()

    def of_kept(self, path: bytes) -> Iterator[Turn]:
        """One in a few is never removed, and some stay open."""
        opens, at = self.open(path)
        yield opens
        yield at.write(self.data())
        yield self.pause()
        if self.source.randrange(4):
            yield at.close()
        if self.source.randrange(2):
            yield self.removed(path)


class Open(NamedTuple):
    """A slot or a descriptor that holds something."""

    lives: Lives
    number: int
    is_slot: bool

    def moved(self, opcode: int, offset: int = POSITION, **fields) -> bytes:
        return self.lives.entry(opcode, FIXED_FILE * self.is_slot, self.number, offset, **fields)

    def write(self, data: bytes) -> bytes:
        return self.moved(WRITE, length=len(data), side=data)

    def read(self) -> bytes:
        return self.moved(READ, self.lives.source.randrange(20), length=9_000)

    def synced(self) -> bytes:
        return self.moved(FSYNC, 0)

    def close(self) -> bytes:
        (self.lives.slots if self.is_slot else self.lives.table).append(self.number)
        return self.lives.entry(CLOSE, fd=0 if self.is_slot else self.number, file_index=self.number + 1 if self.is_slot else 0)


def in_records(entries: List[bytes], source: random.Random) -> Iterator[List[bytes]]:
    at = 0
    while at < len(entries):
        count = source.randrange(1, 33)
        yield entries[at : at + count]
        at += count


def of_lives(seed: int) -> Tuple[bytes, bytes]:
    """Such a trace in version 2, and in version 3."""
    records = list(in_records(Lives(seed).entries(), random.Random("records {}".format(seed))))
    second = head(rings=1, records=len(records), table=OPEN, version=2) + bytes(4 * OPEN) + ring([0] * OPEN) + b"".join(enter(0, it) for it in records)
    third = [record_traces.enter(0, [stored(it) for it in record]) for record in records]
    return second, b"".join([record_traces.head(table=OPEN), record_traces.ring(OPEN), *third, record_traces.END])


def of_draws(seed: int) -> Tuple[bytes, bytes]:
    return ManySecond(seed).trace(), ManyCarried(seed).trace()


def unlike_model(program: Program, trace: bytes, fewest: int) -> Optional[str]:
    """How a trace of version 3 is served otherwise than by the second replayer, if it is, or that it makes too little."""
    times, wanted = kept_by_model(trace)
    told = [difference(program.run(words, trace), wanted) for words in (["serial", "--sums"], ["run", "--sums"])]
    return first([it for it in told if it]) or (None if times >= fewest else "something is dropped {} times".format(times))


def of_versions(made: Callable[[int], Tuple[bytes, bytes]], fewest: int, program: Program, seed: int) -> Optional[str]:
    """The same of one whose report in version 2 is the same too."""
    second, third = made(seed)
    kept = program.run(["serial", "--sums"], second)
    told = shown(kept) if kept.status else difference(program.run(["serial", "--sums"], third), kept._replace(output=record_traces.behind_rings(kept.output, second)))
    return told or unlike_model(program, third, fewest)


def of_rings(program: Program, seed: int) -> Optional[str]:
    return unlike_model(program, ManyRecords(seed).trace(), ONCE)


def all_succeed() -> List[Outcome]:
    """Each entry of a life succeeds, so that each is as it is meant."""
    _, third = of_lives(0)
    world = model_records.Records(third)
    failed = [place for place, it in model.replies_by_turns(world).items() if it.result < 0]
    kinds = {it.opcode for _, _, it in model.entries_of(world)}
    told = "places {} fail".format(failed[:5]) if failed else None if len(kinds) == 9 else "it has the opcodes {}".format(sorted(kinds))
    return [Outcome("the lives of files, by the second replayer", told)]


# --- What stays -----------------------------------------------------------------------------------------------------

def temporaries(number: int, count: int) -> bytes:
    """Records in which so many files are made, closed and removed by slot 0 of a ring, with user_data 0."""
    made = [
        stored(it) for at in range(count) for path in [b"/t%d" % at]
        for it in (entry(OPENAT, fd=AT_FDCWD, own_flags=CREAT | 2, file_index=1, side=path), entry(CLOSE, file_index=1), entry(UNLINKAT, fd=AT_FDCWD, side=path))
    ]
    return b"".join(record_traces.enter(number, made[at : at + 30]) for at in range(0, len(made), 30))


def made_and_removed(count: int, described: int = 0, named: int = 0) -> bytes:
    """A trace of so many temporary files, of so many descriptions that it starts with, of the root, and of a file that has so many names beside its own."""
    items = [file_of(b"/named", 0, b"")] + [name(b"/n%d" % at, 1) for at in range(named)] if named else []
    return b"".join([record_traces.head(len(items), described), *items, description(0, 0) * described, record_traces.ring(1), temporaries(0, count), record_traces.END])


def told_of(number: int, entries: List[bytes]) -> bytes:
    return record_traces.enter(number, [stored(it) for it in entries])


def reads(slot: int, user: int, offset: int = 0) -> bytes:
    return entry(READ, FIXED_FILE, slot, offset, 10, user_data=user)


def of_what_stays() -> Tuple[bytes, List[Tuple[int, int, int, bytes]]]:
    """A trace in which files that are open but removed, by an entry or a set, and descriptions of the start that only a later ring takes, are read behind
    many temporary files; and of each other entry its user_data, its ring, its result and what it reads."""
    at = {"fd": AT_FDCWD}
    items = [file_of(b"/a", 10, b"0123456789"), file_of(b"/b", 5, b"bcdef"), file_of(b"/c", 3, b"xyz"), directory(b"/d")]
    described = [description(1), description(2, position=1), description(3), description(4, 0)]
    first_ring = record_traces.ring(3, [(1, (DESCRIPTION, 0, 0))])
    # (the first ring ends, so its slots are held no more)
    second_ring = record_traces.ring(7, [(1, (DESCRIPTION, 0, 1)), (2, (DESCRIPTION, 0, 0)), (3, (DESCRIPTION, 0, 2)), (4, (SLOT, 0, 2)), (5, (DESCRIPTION, 0, 3))])
    breaks = [entry(READ, FIXED_FILE | LINK, 1, 0, 11, user_data=9), entry(NOP, user_data=10)]
    before = [
        reads(1, 1, POSITION), entry(UNLINKAT, side=b"/b", user_data=2, **at), entry(UNLINKAT, side=b"/a", user_data=3, **at),
        entry(OPENAT, own_flags=CREAT | 2, file_index=3, side=b"/held", user_data=4, **at), entry(WRITE, FIXED_FILE, 2, 0, 4, b"held", user_data=5),
        entry(UNLINKAT, side=b"/held", user_data=6, **at), entry(OPENAT, own_flags=CREAT | 2, side=b"/over", user_data=7, **at), entry(WRITE, 0, 0, 0, 4, b"over", user_data=8),
    ]
    over = entry(RENAMEAT, length=AT_FDCWD & LAST, side=two_paths(b"/c", b"/over"), user_data=11, **at)
    gone = entry(UNLINKAT, own_flags=REMOVES_DIRECTORY, side=b"/d", user_data=12, **at)
    put = [entry(WRITE, FIXED_FILE, 0, 0, 3, b"put", user_data=15), entry(UNLINKAT, side=b"/put", user_data=16, **at)]
    # (from then on descriptor 1 alone holds that file)
    moved = [record_traces.set_copy((DESCRIPTOR, 0, 1), (SLOT, 0, 0)), record_traces.set_nothing((SLOT, 0, 0))]
    held = [reads(2, 13), entry(READ, 0, 0, 0, 10, user_data=14), entry(READ, 0, 1, 0, 10, user_data=17)]
    taken = [reads(1, 20, POSITION), reads(2, 21), reads(3, 22), reads(4, 23), reads(5, 24), entry(READ, 0, 1, 0, 10, user_data=27)]
    opens = [entry(OPENAT, own_flags=0, file_index=7, side=b"/over", user_data=25, **at), reads(6, 26)]
    records = [
        first_ring, record_traces.set_path((SLOT, 0, 0), b"/put", CREAT | 2), told_of(0, before + breaks + put), *moved, temporaries(0, 700), told_of(0, [over, gone]), temporaries(0, 700), told_of(0, held + breaks),
        second_ring, record_traces.ring_ends(0), temporaries(1, 700), told_of(1, taken + opens), temporaries(1, 700), told_of(1, taken),
    ]
    broken = [(9, 0, 10, b"0123456789"), (10, 0, -125, b"")]
    wanted = [
        (1, 0, 10, b"0123456789"), (2, 0, 0, b""), (3, 0, 0, b""), (4, 0, 0, b""), (5, 0, 4, b""), (6, 0, 0, b""), (7, 0, 0, b""), (8, 0, 4, b""), *broken,
        (15, 0, 3, b""), (16, 0, 0, b""), (11, 0, 0, b""), (12, 0, 0, b""), (13, 0, 4, b"held"), (14, 0, 4, b"over"), (17, 0, 3, b"put"), *broken,
        (20, 1, 4, b"cdef"), (21, 1, 10, b"0123456789"), (22, 1, 3, b"xyz"), (23, 1, 4, b"held"), (24, 1, -21, b""), (27, 1, 3, b"put"), (25, 1, 0, b""), (26, 1, 3, b"xyz"),
        (20, 1, 0, b""), (21, 1, 10, b"0123456789"), (22, 1, 3, b"xyz"), (23, 1, 4, b"held"), (24, 1, -21, b""), (27, 1, 3, b"put"),
    ]
    return b"".join([record_traces.head(len(items), len(described), 2), *items, *described, *records, record_traces.END]), wanted


# What that trace has behind its lines: the names alone.
NAMES = b"tree\nfile /over node=3 size=3\nslots\n"


def unlike_by_hand(program: Program) -> Optional[str]:
    """How the lines of that trace differ from those by hand, if they do."""
    trace, told = of_what_stays()
    wanted = ["ring={} user={} res={} posted{}".format(ring, user, result, " data=" + data.hex() if data else "") for user, ring, result, data in told]
    got = program.run(["serial"], trace)
    front, _, _ = got.output.partition(b"tree\n")
    lines = [it.split(" ", 1)[1] for it in front.decode().splitlines()[1:]]
    others = [it for it in lines if " user=0 " not in it]
    faults = ["{} in place of {}".format(*it) for it in zip(others, wanted) if it[0] != it[1]] + [it for it in lines if " user=0 " in it and not it.endswith(" res=0 posted")]
    is_well = got.status == 0 and others == wanted and got.output[len(front) :].startswith(NAMES)
    return first(faults) or (None if is_well else shown(got))


def stays(programs: List[Program]) -> List[Outcome]:
    """What something leads to stays: open files without a name, and what the trace starts with, also where a later ring alone takes it."""
    trace, _ = of_what_stays()
    outcomes = [Outcome("what stays while much is dropped, by {}".format(it.compiler), unlike_by_hand(it)) for it in (by_models.MODELS, *programs)]
    return outcomes + [Outcome("the report of what stays by {}".format(it.compiler), unlike_model(it, trace, OFTEN)) for it in programs]


# --- In the memory of what stays ------------------------------------------------------------------------------------

class Files(NamedTuple):
    """A trace of bench/temporaries.py, but for its number of files."""

    size: int

    def command(self, count: int) -> List[str]:
        return [sys.executable, BENCH, str(count), "--size", str(self.size)]

    def lines(self, count: int) -> Iterator[bytes]:
        """The first line, and those of so many files; the first of them is behind the ring."""
        yield b"uring-report 2\n"
        for number in range(count):
            results = (0, self.size, 0, 0)
            yield b"".join(b"%d ring=0 user=%d res=%d posted\n" % (4 * number + at, number, result) for at, result in enumerate(results, 1))

    def end(self, has_sum: bool) -> bytes:
        return b"tree\nslots\nbuffers\nend\n"


# The words, of how many files, and the most KiB, also of four times the files.
BOUNDED = (
    Bounded("2,500 files of 64 KiB that are removed", Files(1 << 16), ["serial"], 2_500, 60_000),
    Bounded("2,500 files of 64 KiB that are removed", Files(1 << 16), ["run", "--sums"], 2_500, 60_000),
    Bounded("10,000 files of 16 bytes that are removed", Files(16), ["serial"], 10_000, 8_000),
)


def in_time(program: Program) -> List[Outcome]:
    """The cost is in proportion to what was made, and not to what is left each time."""
    kinds = (
        ("descriptions", made_and_removed(TEMPORARIES, BESIDE), made_and_removed(TEMPORARIES, 1), MOST_BESIDE),
        ("names", made_and_removed(BESIDE_NAMES, 1, BESIDE), made_and_removed(1, 1, BESIDE), MOST_BESIDE_NAMES),
    )
    label = "temporary files beside {} {} by {}".format
    return [Outcome(label(BESIDE, kind, program.compiler), program.outlasts(Timed(["serial"], many), Timed(["serial"], one), most)) for kind, many, one, most in kinds]


def by_bench(bounded: Bounded) -> List[Outcome]:
    """What is wanted of many files is what the second replayer gives of a few."""
    what = bounded.what
    trace = subprocess.run(what.command(BY_MODEL), stdin=subprocess.DEVNULL, stdout=subprocess.PIPE, check=True).stdout
    wanted = Answer(0, b"".join([*what.lines(BY_MODEL), what.end(False)]), b"")
    return [Outcome("{}, by the second replayer".format(bounded.label), difference(by_models.replayed(trace), wanted))]


def jobs(programs: List[Program]) -> List[Job]:
    whole = programs[0]
    made: List[Job] = [partial(in_memory, whole, it) for it in BOUNDED] + [partial(by_bench, it) for it in BOUNDED] + [all_succeed, partial(stays, programs), partial(in_time, whole)]
    kinds = (
        ("lives of files", partial(of_versions, of_lives, OFTEN)),
        ("many opens, in two versions", partial(of_versions, of_draws, ONCE)),
        ("many opens, with rings that come and go", of_rings),
    )
    for program in programs:
        for label, unlike in kinds:
            for start in (0, days.first_seed()):
                seeds = range(start, start + (DRAWN if program is whole else 1))
                made += [partial(lot, program, label, unlike, seeds[at : at + 1]) for at in range(len(seeds))]
    return made
