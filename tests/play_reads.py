"""The sums of what the player's reads brought: hashlib says what each is, of bytes that stand here."""
import struct
from functools import partial
from hashlib import sha256
from typing import Callable, Dict, List, NamedTuple, Sequence

import record_traces
from harness import Job, Outcome, Program, first, shown, skipped
from mounted import Passthrough
from player import MODES, SECTIONS, Player, against
from model import AT_POSITION
from traces import FIXED_FILE, HARDLINK, LINK, NOP, READ, READ_FIXED, READV, SKIP, WRITE, WRITE_FIXED
from traces import description, enter, entry, file, fill, head, ring, sums_option

CONTENT = bytes((7 * at + at // 256) % 251 for at in range(1_000))
AT = 4096
MIB = 1 << 20


class Case(NamedTuple):
    """A trace, and by place the bytes of each read that has a sum; no other has one."""

    trace: bytes
    wanted: Dict[int, bytes]


def slot(opcode: int, flags: int = 0, offset: int = 0, length: int = 0, **more: object) -> bytes:
    return entry(opcode, FIXED_FILE | flags, offset=offset, length=length, **more)


def vectors(lengths: Sequence[int], offset: int = 0, flags: int = 0) -> bytes:
    return slot(READV, flags, offset, len(lengths), side=struct.pack("<{}Q".format(len(lengths)), *lengths))


def of_one_file(records: Sequence[bytes], size: int = len(CONTENT)) -> bytes:
    return head(1, 1, 1, len(records)) + file(b"/a", size, CONTENT) + description(1) + ring([1], [(AT, 4096)]) + b"".join(records)


def lengths() -> Case:
    """A READ or READV has a sum from its 33rd byte on, of as many as were there; other operations have none."""
    entries = [slot(READ, offset=10, length=100), slot(READ, length=32), slot(READ, length=33), slot(READ, offset=950, length=100), slot(READ, offset=1_000, length=50),
               vectors([10, 0, 30], 5), vectors([10, 0, 22]), vectors([1, 40, 4_000], 900), slot(READ, offset=AT_POSITION, length=64), slot(READ, offset=AT_POSITION, length=64),
               slot(WRITE, offset=2_000, length=40, side=b"w" * 40), slot(READ, offset=990, length=2_000), entry(READ, fd=77, length=64), entry(NOP)]
    wanted = {0: CONTENT[10:110], 2: CONTENT[:33], 3: CONTENT[950:], 5: CONTENT[5:45], 7: CONTENT[900:], 8: CONTENT[:64], 9: CONTENT[64:128],
              11: CONTENT[990:] + bytes(1_000) + b"w" * 40}
    return Case(of_one_file([enter(0, [it]) for it in entries]), wanted)


def silent() -> Case:
    """A read that posts nothing brought all that it asked for."""
    entries = [slot(READ, LINK | SKIP, 3, 40), vectors([20, 20], 7, LINK | SKIP), slot(READ_FIXED, LINK | SKIP, 9, 3, address=AT), slot(READ, LINK | SKIP, 1, 32), entry(NOP)]
    return Case(of_one_file([enter(0, entries)]), {0: CONTENT[3:43], 1: CONTENT[7:47], 2: CONTENT[9:12]})


def read_over() -> Case:
    """A READ_FIXED has the sum of what it put into its buffer, also where that is read over at once, in its chain or by the next, filled, or written."""
    def fixed(offset: int, length: int, at: int = 0, flags: int = 0, opcode: int = READ_FIXED) -> bytes:
        return slot(opcode, flags, offset, length, address=AT + at)

    records = [
        enter(0, [fixed(0, 100, flags=LINK), fixed(200, 100, flags=LINK), fixed(300, 10, 50, HARDLINK), fixed(400, 1, 99)]),
        enter(0, [fixed(500, 50, 200, LINK), fixed(600, 50, 300, LINK), fixed(700, 50, 250)]),
        fill(0, 0, 0, b"f" * 300),
        enter(0, [fixed(100, 64), fixed(164, 64), fixed(990, 64)]),
        enter(0, [fixed(800, 30, flags=LINK), fixed(2_000, 30, flags=LINK, opcode=WRITE_FIXED), fixed(10, 30, flags=LINK), fixed(2_000, 30)]),
        enter(0, [fixed(0, 0), fixed(0, 5, 1 << 20), fixed(3_000, 5), fixed(0, 4_096)]),
    ]
    wanted = {0: CONTENT[:100], 1: CONTENT[200:300], 2: CONTENT[300:310], 3: CONTENT[400:401], 4: CONTENT[500:550], 5: CONTENT[600:650], 6: CONTENT[700:750],
              8: CONTENT[100:164], 9: CONTENT[164:228], 10: CONTENT[990:], 11: CONTENT[800:830], 13: CONTENT[10:40], 14: CONTENT[800:830],
              18: CONTENT + bytes(1_000) + CONTENT[800:830]}
    return Case(of_one_file(records), wanted)


def sparse(marks: Dict[int, bytes], size: int, entries: Sequence[bytes], wanted: Dict[int, bytes]) -> Case:
    """Entries on a file of zeros with some marks, behind its ring at place 0; each is a chain where it is not linked."""
    front = record_traces.head(1, 1) + record_traces.file(b"/a", size, sorted(marks.items())) + description(1)
    slots = record_traces.ring(1, [(0, (record_traces.DESCRIPTION, 0, 0))])
    return Case(front + slots + record_traces.enter(0, [record_traces.stored(it) for it in entries]) + record_traces.END, wanted)


def great() -> Case:
    """Reads of much, beside each other and in one chain, of which a later one may not have the memory of an earlier one."""
    marks = {5 * MIB: b"near", 69 * MIB: b"far"}
    whole = bytearray(70 * MIB)
    for at, mark in marks.items():
        whole[at:at + len(mark)] = mark
    entries = [slot(READ, 0, 1, 70 * MIB), slot(READ, LINK, 0, 70 * MIB), slot(READ, 0, 4 * MIB, 5 * MIB), vectors([3, 69 * MIB, 5 * MIB], 2)]
    return sparse(marks, 70 * MIB, entries, {1: bytes(whole[1:]), 2: bytes(whole), 3: bytes(whole[4 * MIB:9 * MIB]), 4: bytes(whole[2:])})


def greater() -> Case:
    """More than is read at once: the chain is cut."""
    each = 90 * MIB
    entries = [slot(READ, LINK, at * each, each) for at in range(3)] + [slot(READ, 0, 3 * each, 40)]
    marks = {at * each: bytes([65 + at]) for at in range(4)}
    return sparse(marks, 3 * each + 40, entries, {1 + at: bytes([65 + at]) + bytes((each if at < 3 else 40) - 1) for at in range(4)})


def sums_of(results: bytes) -> Dict[int, str]:
    found = {}
    for line in results.decode().splitlines():
        facts = dict(it.split("=", 1) for it in line.split() if "=" in it)
        if "data-sum" in facts:
            found[int(line.split()[0])] = facts["data-sum"]
    return found


def told(player: Player, program: Program, made: Callable[[], Case], modes: Sequence[str] = MODES) -> List[Outcome]:
    """Each sum is that of the bytes, in each way to play, and nothing else differs."""
    case = made()
    report = program.run(["serial", sums_option(case.trace)], case.trace).output
    wanted, outcomes = {place: sha256(it).hexdigest() for place, it in case.wanted.items()}, []
    for mode in modes:
        got = player.played(program, case.trace, report, mode, player.directories()[-1])
        found, sums = against(program, report, got), sums_of(got.output)
        wrong = ["place {}: {} for {}".format(it, sums.get(it), wanted.get(it)) for it in sorted({*sums, *wanted}) if sums.get(it) != wanted.get(it)]
        outcomes.append(Outcome("the player: sums of reads: {} in {}".format(made.__name__.replace("_", " "), mode), found.fault or first(wrong), found.untried))
    return outcomes


def as_it_stands(player: Player) -> List[Outcome]:
    """Without a report a chain is played as it stands. So what is read over has no sum, and neither has what is too much at once; what is not has."""
    def fixed(at: int, flags: int) -> bytes:
        return slot(READ_FIXED, flags, at, 10, address=AT + at)

    chained = of_one_file([enter(0, [fixed(0, LINK), fixed(20, LINK), fixed(5, 0)]), enter(0, [slot(READ, LINK, length=1 << 30), slot(READ, LINK, length=1 << 30), slot(READ, length=40)])])
    much = of_one_file([enter(0, [slot(READ, HARDLINK, length=1 << 30)] * 3)])
    outcomes = []
    for label, trace, wanted in (("what is read over", chained, {1: CONTENT[20:30], 2: CONTENT[5:15], 3: CONTENT}), ("what is too much", much, {0: CONTENT, 1: CONTENT})):
        got = player.with_summary().play([], trace)
        sums = {place: sha256(it).hexdigest() for place, it in wanted.items()}
        is_told = (b"1 reads have no sum, since they brought too much at once\n" in got.errors) == (trace is much)
        is_well = got.status == 0 and sums_of(got.output) == sums and is_told
        outcomes.append(Outcome("the player: no sum of {}".format(label), None if is_well else shown(got)))
    return outcomes


def left_out(player: Player, program: Program) -> List[Outcome]:
    """With --no-read-sums no read has a sum."""
    outcomes = []
    for made in (lengths, read_over):
        case = made()
        report = program.run(["serial", sums_option(case.trace)], case.trace).output
        got = player.steered(case.trace, report, ["--no-read-sums"])
        fault = against(program, report, got).fault or (None if not sums_of(got.output) else shown(got))
        outcomes.append(Outcome("the player: --no-read-sums with {}".format(made.__name__.replace("_", " ")), fault))
    return outcomes


# --- Wrong bytes behind the 32nd --------------------------------------------------------------------------------------

class Corrupted(NamedTuple):
    """A trace of which a file system that changes the last byte of each read of 33 to 4,096 bytes (tests/passthrough.c) has one read wrong: its place and
    opcode, and the bytes that are right. No other line shows it."""

    name: str
    trace: bytes
    place: int
    opcode: int
    right: bytes


def among_others(name: str, opcode: int, wrong: bytes, right: bytes, after: Sequence[bytes] = ()) -> Corrupted:
    """Behind reads of few bytes and of many, and before others."""
    few = [slot(READ, 0, 5, 32), vectors([16, 16], 7), slot(READ_FIXED, 0, 9, 32, address=AT), slot(WRITE, 0, 2_000, 5, side=b"wrote"), slot(READ, length=5_000)]
    records = [enter(0, [*few, wrong]), *after, enter(0, few)]
    return Corrupted(name, of_one_file(records, 10_000), len(few), opcode, right)


def corrupted_traces() -> List[Corrupted]:
    """A READ; a READV, of which it is the third vector; and a READ_FIXED whose bytes a read of few and a fill write over."""
    over = [enter(0, [slot(READ_FIXED, 0, 1, 20, address=AT + 64)]), fill(0, 0, 84, b"filled over it" * 4)]
    return [among_others("a READ", READ, slot(READ, LINK, 100, 100), CONTENT[100:200]),
            among_others("the third vector of a READV", READV, vectors([20, 12, 9], 200), CONTENT[200:241]),
            among_others("a READ_FIXED that is written over", READ_FIXED, slot(READ_FIXED, 0, 300, 40, address=AT + 64), CONTENT[300:340], over)]


def corrupted(player: Player, program: Program) -> List[Outcome]:
    """The sum of that read alone is another one than that of the right bytes. A report with sums differs from the play in it, and in nothing else."""
    outcomes = []
    with Passthrough(["corrupt"]) as there:
        if there.lacking:
            return skipped("the player: wrong bytes behind the 32nd", there.lacking)
        for it in corrupted_traces():
            report = program.run(["serial", sums_option(it.trace)], it.trace).output
            differing = [int(b" data-sum=" in report), 0, 0, 0]
            for mode in MODES:
                got = player.played(program, it.trace, report, mode, there.mount)
                found, sums = against(program, report, got), sums_of(got.output)
                counts = [found.counts[section][1] for section in SECTIONS]
                wrong = it.right[:-1] + bytes([it.right[-1] ^ 1])
                fault = None if sums.get(it.place) == sha256(wrong).hexdigest() and counts == differing else "{} {}".format(counts, shown(got))
                outcomes.append(Outcome("the player: wrong bytes behind the 32nd of {} in {}".format(it.name, mode), fault, found.untried))
    return outcomes


def jobs(player: Player, program: Program) -> List[Job]:
    each: List[Job] = [partial(told, player, program, it) for it in (lengths, silent, read_over)]
    return [*each, partial(told, player, program, great), partial(told, player, program, greater, ("chains", "flight")), partial(as_it_stands, player), partial(left_out, player, program),
            partial(corrupted, player, program)]
