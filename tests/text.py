"""Traces as text: `show` gives the text that model_text.py gives, and by model_make.py the text means the trace, byte for byte. The traces are
the examples, recorded ones, and drawn ones of each form; half of them with any values in the fields of entries, and half of version 3."""
import random
from functools import partial
from typing import Iterator, List, Optional, Tuple

import days
import examples
import model_make
import model_text
import record_traces
import traces
from drawing import LAST, Draw
from harness import Answer, Job, Outcome, Program, difference, first, read, spoken

# How many traces are drawn, in how many lots.
DRAWN, LOTS = 3_000, 6
OPCODES = (*range(64), 64, 255)
NUMBERS = (0, 0, 0, 1, 2, 7, 63, 100, (1 << 31) - 1, 1 << 31, (1 << 32) - 100, (1 << 32) - 1, 1 << 32, (1 << 63) + 5, (1 << 64) - 1)
# Flags that openat takes, whichever of them they are.
OPEN_FLAGS = 0x1EDFC2
# Of some texts the lines, from 1, before which `--places` puts a line; and those that `--first N` gives otherwise.
PLACES = (
    ("bytes_of_a_file_are_told_before_those_of_a_buffer", {7: "# 0", 9: "  # 1", 10: "  # 2"}),
    ("version_3/fill_of_zeros", {4: "# 0", 7: "# 1", 8: "# 2", 10: "  # 3", 12: "  # 4"}),
    ("version_3/copies_of_nothing", {5: "# 0", 7: "# 1", 9: "# 2", 10: "# 3", 11: "# 4", 12: "# 5", 13: "# 6", 15: "  # 7", 16: "  # 8", 17: "# 9", 19: "  # 10", 20: "  # 11", 21: "  # 12"}),
)
FIRST = (
    ("bytes_of_a_file_are_told_before_those_of_a_buffer", 10, {}),
    ("bytes_of_a_file_are_told_before_those_of_a_buffer", 3, {2: 'file /a "012" ...', 7: 'fill 0 buffer=0 "wxy" ...'}),
    ("version_3/texts_of_ranges_and_zeros", 1, {4: 'file /a "a" ... at=2 "c" at=7 "d" ...'}),
    ("version_3/fill_of_zeros", 3, {2: 'file /a "012" ...', 7: 'fill 0 buffer=0 "abc" ...'}),
)
PATHS = (b"/a", b"a/b c", b"", b"/\xff\\\n", b"/" + b"n" * 90, b"#", b'"')


class Fields:
    """Draws a trace of entries with any values in their fields."""

    def __init__(self, seed: int) -> None:
        self.source = random.Random(seed)

    def number(self, bits: int) -> int:
        return (self.source.choice(NUMBERS) if self.source.randrange(3) else self.source.getrandbits(bits)) % (1 << bits)

    def data(self) -> bytes:
        parts = [self.source.randbytes(self.source.randrange(30)), bytes([self.source.randrange(256)]) * self.source.randrange(80), b"text\tand\n\r\0\"\\more",
                 b"x" * self.source.randrange(14, 18), b"abc" * self.source.randrange(40)]
        return b"".join(self.source.sample(parts, self.source.randrange(len(parts) + 1)))

    def entry(self) -> bytes:
        opcode = self.source.choice(OPCODES)
        length, side = self.number(32), b""
        if opcode in (traces.READV, traces.WRITEV):
            sizes = [self.source.randrange(9) for _ in range(self.source.randrange(4))]
            data = self.source.randbytes(sum(sizes)) if opcode == traces.WRITEV else b""
            length, side = len(sizes), b"".join(it.to_bytes(8, "little") for it in sizes) + data
        elif opcode == traces.WRITE:
            side = self.data()
            length = len(side)
        elif opcode in (traces.OPENAT, traces.UNLINKAT, traces.MKDIRAT):
            side = self.source.choice(PATHS)
        elif opcode in (traces.RENAMEAT, traces.LINKAT):
            side = traces.two_paths(self.source.choice(PATHS), self.source.choice(PATHS))
        descriptor = self.number(32) - (1 << 31) if self.source.randrange(2) else self.source.choice((0, 3, -1, traces.AT_FDCWD))
        return traces.entry(opcode, self.number(8), descriptor, self.number(64), length, side, self.number(64), self.number(32), self.number(64), self.number(16),
                            self.number(16), self.number(32), self.number(16), self.number(64), self.number(64))

    def slots(self, most: int) -> List[int]:
        return [self.source.choice((0, 0, 1, 2)) for _ in range(self.source.randrange(most))]

    def trace(self) -> bytes:
        long, data = b"/" + b"n" * 70, self.data()
        items = [traces.directory(b"/d"), traces.file(long, len(data) + self.source.randrange(2), data), traces.name(b"/\xff", 2), traces.file(b"/f")]
        described = [traces.description(self.source.choice((2, 4)), self.source.randrange(3), self.source.randrange(2), self.number(63)), traces.description(0, 0)]
        table, slots = self.slots(30), self.slots(30)
        ring = traces.ring(slots, [(1 << 40, 1_000), (0, 0)][: self.source.randrange(3)])
        records = [traces.enter(0, [self.entry() for _ in range(self.source.randrange(6))]) for _ in range(self.source.randrange(4))]
        front = traces.head(len(items), len(described), 1, len(records), len(table), 2)
        return b"".join([front, *items, *described, traces.descriptor_table(table), ring, *records])


def of_trace(program: Program, trace: bytes, most: int) -> Optional[str]:
    """How what the program shows of a trace differs from the model, or from the trace, if it does."""
    for words, has_places, part in ((["show"], False, None), (["show", "--places"], True, None), (["show", "--first", str(most)], False, most)):
        text = model_text.show(trace, has_places, part)
        told = difference(program.run(words, trace), Answer(0, text, b""))
        if told or part is None and model_make.make(text) != trace:
            return told or "the text means another trace"
    return None


class FieldsOfRecords(Fields):
    """The same of version 3: rings that continue queues and get slots of each kind, entries of both forms, and sets and seeks."""

    def written(self) -> bytes:
        """An entry, with zeros where it may have some, or with a result that is given."""
        made = self.entry()
        if self.source.randrange(4) == 0:
            made = bytes([self.source.randrange(256)]) + made[1:64]
            error, result = -self.source.randrange(1, 4_096), self.number(32) - (1 << 31)
            return record_traces.given(made, result, bool(self.source.randrange(2))) if self.source.randrange(3) else record_traces.given_refused(made, error)
        return record_traces.zeros(made) if made[0] in (traces.WRITE, traces.WRITEV) and self.source.randrange(2) else record_traces.stored(made)

    def ranges(self) -> List[Tuple[int, bytes]]:
        found, end = [], 0
        for _ in range(self.source.randrange(4)):
            offset, data = end + self.source.choice((0, 0, 5, 1 << 30)), self.data() or b"x"
            found.append((offset, data))
            end = offset + len(data)
        return found

    def holder(self, table: int, rings: int) -> record_traces.Holder:
        what = self.source.randrange(3)
        if what == record_traces.SLOT and rings:
            return what, self.source.randrange(rings), self.source.randrange(30)
        return (record_traces.DESCRIPTOR, 0, self.source.randrange(table)) if what and table else (record_traces.DESCRIPTION, 0, self.source.randrange(2))

    def held(self, table: int, rings: int) -> record_traces.Holder:
        found = self.holder(table, rings)
        return (record_traces.SLOT, 0, 0) if found[0] == record_traces.DESCRIPTION else found

    def call(self, table: int, rings: int) -> bytes:
        """A set or a seek, with any position, and flags that openat takes."""
        held, path = self.held(table, rings), self.source.choice(PATHS) or b"a"
        return self.source.choice((
            record_traces.set_nothing(held), record_traces.set_taken(held), record_traces.set_copy(held, self.held(table, rings)),
            record_traces.seek(held, self.number(63)), record_traces.set_path(held, path, self.number(32) & OPEN_FLAGS, self.number(63)),
        ))

    def trace(self) -> bytes:
        ranges, table = self.ranges(), self.source.randrange(30)
        size = ranges[-1][0] + len(ranges[-1][1]) if ranges else 0
        items = [traces.directory(b"/d"), record_traces.file(b"/" + b"n" * 70, size + self.source.randrange(2), ranges), traces.name(b"/\xff", 2)]
        described = [traces.description(2, self.source.randrange(3), self.source.randrange(2), self.number(63)), traces.description(0, 0)]
        full = [record_traces.descriptor(it, self.source.randrange(2)) for it in range(table) if self.source.randrange(3)]
        records: List[bytes] = []
        for number in range(self.source.randrange(1, 4)):
            slots = [(it, self.holder(table, number)) for it in range(30) if self.source.randrange(3)]
            queue = self.source.randrange(number) if number and self.source.randrange(2) else LAST
            records.append(record_traces.ring(30 + self.source.randrange(2), slots, [(1 << 40, 1_000), (0, 0)], queue))
        ring = self.source.randrange(len(records))
        for _ in range(self.source.randrange(4)):
            data = self.data()[:1_000]
            records.append(record_traces.enter(ring, [self.written() for _ in range(self.source.randrange(6))]))
            records += [record_traces.fill(ring, 0, 0, data), record_traces.fill_of_zeros(ring, 0, self.source.randrange(9), len(data) // 2)]
            records.append(self.call(table, ring + 1))
        front = record_traces.head(len(items), len(described), table, len(full))
        return b"".join([front, *items, *described, *full, *records, record_traces.ring_ends(ring), record_traces.END])


# What a drawn trace is, by its seed.
DRAWS = (lambda seed: Draw(seed).trace(), lambda seed: Fields(seed).trace(), lambda seed: record_traces.Records(seed).trace(),
         lambda seed: FieldsOfRecords(seed).trace())


def of_drawn(program: Program, seed: int) -> Optional[str]:
    trace = DRAWS[seed % len(DRAWS)](seed)
    checked = program.run(["check"], trace)
    return of_trace(program, trace, 1 + seed % 40) if checked.status == 0 else difference(program.run(["show"], trace), checked)


def lot(program: Program, seeds: range) -> List[Outcome]:
    faults = ["seed {}: {}".format(seed, told) for seed in seeds for told in [of_drawn(program, seed)] if told]
    day = " of {}".format(days.written()) if seeds[0] >= days.SEEDS_A_DAY else ""
    return [Outcome("texts of {} to {}{} by {}".format(seeds[0], seeds[-1], day, program.compiler), first(faults))]


def by_hand() -> Iterator[Tuple[str, bool, Optional[int], bytes]]:
    """Examples with `--places`, or with `--first` and a number, and their texts."""
    for name, places in PLACES:
        lines = read(name + ".text").decode().splitlines()
        yield name, True, None, "".join("{}\n".format(it) for number, line in enumerate(lines, 1) for it in ([places[number]] if number in places else []) + [line]).encode()
    for name, most, others in FIRST:
        lines = read(name + ".text").decode().splitlines()
        yield name, False, most, "".join(others.get(number, line) + "\n" for number, line in enumerate(lines, 1)).encode()


def of_hand(program: Program) -> List[Outcome]:
    outcomes = []
    for name, has_places, most, text in by_hand():
        words = ["show", *(["--places"] if has_places else []), *([] if most is None else ["--first", str(most)])]
        told = difference(program.run(words, read(name + ".trace")), Answer(0, text, b""))
        outcomes.append(Outcome("the text of {} by hand, {}, by {}".format(name, spoken(words), program.compiler), told))
    return outcomes


def of_examples(program: Program) -> List[Outcome]:
    """The examples and recorded traces: those that are accepted are shown, the others refused in the same words."""
    outcomes = []
    for at, names in examples.walked(()):
        for name in sorted(it for it in names if it.endswith(".trace")):
            trace = read(at, name)
            told = name[: -len("trace")] + "refused"
            if told in names:
                fault = difference(program.run(["show"], trace), Answer(1, b"", read(at, told)))
            else:
                fault = of_trace(program, trace, 20)
            outcomes.append(Outcome("the text of {} by {}".format(name, program.compiler), fault))
    return outcomes


def of_long_paths(program: Program) -> List[Outcome]:
    """Paths beside entries that are longer than two bytes count. The first one of two is not."""
    long = b"/" + b"n" * 65_535
    sides = ((traces.OPENAT, long), (traces.RENAMEAT, traces.two_paths(long[1:], long)))
    entries = [traces.entry(opcode, 0, traces.AT_FDCWD, 0, 0, side) for opcode, side in sides]
    trace = b"".join([traces.head(0, 0, 1, 1, 0, 2), traces.ring([], []), traces.enter(0, entries)])
    return [Outcome("the text of long paths by {}".format(program.compiler), of_trace(program, trace, 20))]


def jobs(programs: List[Program]) -> List[Job]:
    size = DRAWN // LOTS
    starts = [at + back for back in (0, days.first_seed()) for at in range(0, DRAWN // 2, size)]
    lots = [range(at, at + size) for at in starts]
    found: List[Job] = [partial(of, it) for it in programs for of in (of_examples, of_hand, of_long_paths)]
    return found + [partial(lot, program, it) for program in programs for it in (lots if program is programs[0] else lots[:1])]
