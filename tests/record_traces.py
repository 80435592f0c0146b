"""Puts the bytes of traces of version 3 together, by docs/FORMAT.md, and draws such traces: the same of one seed each time. Directories, names and
descriptions are those of traces.py. What is of version 2 becomes a part of version 3 here, and so does its report."""
import random
import re
import struct
from typing import Any, Dict, Iterator, List, Sequence, Tuple

import traces
from drawing import ADDRESSES, LAST, WEIGHTS, Second, altered
from model import READS, WRITES, is_call_path
from traces import AT_FDCWD, ENTRY, FADVISE, STATX, SYNC_FILE_RANGE, WRITE, WRITEV

END = b"\7"
# Opcodes that are given, and results of an entry that is given, and of one that is refused on submission.
POLL_ADD, TIMEOUT, LINK_TIMEOUT, EPOLL_CTL = 6, 11, 15, 29
RESULTS, REFUSALS = (0, 0, 1, 5, -4, -125, -125, -(1 << 31), (1 << 31) - 1), (-1, -22, -22, -125, -4_095)
# What a new ring gets in a slot; a set and a seek are about the first two of these.
SLOT, DESCRIPTOR, DESCRIPTION = 0, 1, 2

Holder = Tuple[int, int, int]
Buffers = Sequence[Tuple[int, int]]


def head(items: int = 0, descriptions: int = 0, table: int = 0, full: int = 0) -> bytes:
    return struct.pack("<8s6I", b"URINGTRC", 3, items, descriptions, table, full, 0)


def file(path: bytes, size: int, ranges: Sequence[Tuple[int, bytes]] = ()) -> bytes:
    each = (struct.pack("<QI", offset, len(data)) + data for offset, data in ranges)
    return traces.file_head(path, size, len(ranges)) + b"".join(each)


def descriptor(number: int, description: int) -> bytes:
    return struct.pack("<II", number, description)


def ring(slots: int = 0, full: Sequence[Tuple[int, Holder]] = (), buffers: Buffers = (), queue: int = LAST) -> bytes:
    parts = [struct.pack("<B3I", 5, queue, slots, len(full)), *(struct.pack("<IBII", number, *holder) for number, holder in full)]
    return b"".join([*parts, struct.pack("<H", len(buffers)), *(struct.pack("<QI", *buffer) for buffer in buffers)])


def ring_ends(number: int) -> bytes:
    return struct.pack("<BI", 6, number)


def enter(number: int, entries: Sequence[bytes]) -> bytes:
    return struct.pack("<BIH", 1, number, len(entries)) + b"".join(entries)


def fill(number: int, buffer: int, offset: int, data: bytes) -> bytes:
    return struct.pack("<BIHBII", 2, number, buffer, 0, offset, len(data)) + data


def fill_of_zeros(number: int, buffer: int, offset: int, count: int) -> bytes:
    return struct.pack("<BIHBII", 2, number, buffer, 1, offset, count)


def set_nothing(held: Holder) -> bytes:
    """A slot or a descriptor holds nothing from there on."""
    return struct.pack("<BBIIB", 3, *held, 0)


def set_path(held: Holder, path: bytes, flags: int = 0, position: int = 0) -> bytes:
    """It holds a new description of a path."""
    return struct.pack("<BBIIBIQH", 3, *held, 1, flags, position, len(path)) + path


def set_copy(held: Holder, other: Holder) -> bytes:
    """It holds what another one does."""
    return struct.pack("<BBIIBBII", 3, *held, 2, *other)


def set_taken(held: Holder) -> bytes:
    """It holds what is no file of the tree."""
    return struct.pack("<BBIIB", 3, *held, 3)


def seek(held: Holder, position: int) -> bytes:
    """The position of what it holds."""
    return struct.pack("<BBIIQ", 4, *held, position)


def stored(entry: bytes) -> bytes:
    """An entry of traces.py with its side bytes."""
    return entry[:64] + b"\0" + entry[64:]


def zeros(entry: bytes) -> bytes:
    """A WRITE or a WRITEV of zeros, whose lengths alone stand there."""
    length = ENTRY.unpack(entry[:64])[6]
    lengths = 8 * length if entry[0] == WRITEV and length <= 1024 else 0
    return entry[:64] + b"\1" + entry[64 : 68 + lengths]


def given(entry: bytes, result: int, fails: bool = False) -> bytes:
    """An entry of which the result stands in the trace."""
    return entry[:64] + struct.pack("<BiB", 2, result, fails)


def given_refused(entry: bytes, result: int) -> bytes:
    """The same of one that was refused on submission."""
    return entry[:64] + struct.pack("<Bi", 3, result)


def table_of(handles: Sequence[int]) -> List[bytes]:
    """The full descriptors of a table of version 2."""
    return [descriptor(number, it - 1) for number, it in enumerate(handles) if it]


def file_of(path: bytes, size: int, data: bytes) -> bytes:
    """A file of version 2, of which the first bytes are stored."""
    return file(path, size, [(0, data)] if data else [])


def ring_of(slots: Sequence[int], buffers: Buffers) -> bytes:
    """A ring of version 2, whose full slots get what they have there: descriptions of the start."""
    return ring(len(slots), [(number, (DESCRIPTION, 0, it - 1)) for number, it in enumerate(slots) if it], buffers)


def of_one_file(size: int, data: bytes = b"") -> bytes:
    """What a trace begins with of a file `/a` that is open in slot 0 of ring 0: place 0 is the ring."""
    return head(1, 1) + file_of(b"/a", size, data) + traces.description(1) + ring(1, [(0, (DESCRIPTION, 0, 0))])


def behind_rings(report: bytes, trace: bytes) -> bytes:
    """The report of a trace of version 2, which may be cut behind its header, as that of the one that is carried over: entries in the order of their
    places, and all that is numbered by places behind those of the rings."""
    items, described, rings = struct.unpack_from("<3I", trace, 12)
    front, end = report.decode().split("\ntree\n")
    lines, ring = [], ""
    for line in front.split("\n")[1:]:
        if line.startswith("ring "):
            ring = line[len("ring ") :]
        else:
            place, facts = line.split(" ", 1)
            lines.append((int(place) + rings, ring, facts))
    starts = {"node": items + 1, "desc": described}

    def moved(found: "re.Match[str]") -> str:
        return "{}={}".format(found[1], int(found[2]) + (rings if int(found[2]) >= starts[found[1]] else 0))

    told = ["{} ring={} {}".format(*it) for it in sorted(lines)]
    return "\n".join(["uring-report 2", *told, "tree", re.sub(r"(?<= )(node|desc)=(\d+)", moved, end)]).encode()


class Carried(Second):
    """Draws the trace of version 2 that Second draws of a seed, carried over to version 3: its rings are the first records."""

    def whole(self, items: List[bytes], described: List[bytes], table: List[int], rings: List[bytes], records: List[bytes]) -> bytes:
        full = table_of(table)
        return b"".join([head(len(items), len(described), len(table), len(full)), *items, *described, *full, *rings, *records, END])

    def file(self, path: bytes, size: int) -> bytes:
        return file_of(path, size, self.data()[:size])

    def registered(self, slots: List[int], buffers: Buffers) -> bytes:
        return ring_of(slots, buffers)

    def entered(self, number: int, entries: List[bytes]) -> bytes:
        return enter(number, [stored(it) for it in entries])

    def filled(self, number: int, index: int, offset: int, data: bytes) -> bytes:
        return fill(number, index, offset, data)


class Records(Second):
    """Draws a trace of version 3."""

    tables, fewest, records = (0, 1, 3, 5, 40), 0, 14
    weights = {**WEIGHTS, SYNC_FILE_RANGE: 3, FADVISE: 3, STATX: 7}
    # Of how many entries one is given, and of how many transfers one has flags of its own. Of how many records one is a ring, and of the others the
    # end of one, and of these a set or a seek.
    each_given, each_flagged, each_ring, each_end, each_set = 7, 6, 5, 12, 4

    def __init__(self, seed: int) -> None:
        super().__init__(seed)
        # The rings that are there.
        self.there: List[int] = []

    def trace(self) -> bytes:
        items, nodes = self.items()
        described = [self.described(nodes) for _ in range(self.source.randrange(1, self.most_described + 1))]
        self.table, self.handles_end = self.one(self.tables), len(described)
        full = table_of(self.handles(len(described), self.table))
        records = [self.next_record() for _ in range(self.source.randrange(self.fewest, self.records))]
        return b"".join([head(len(items), len(described), self.table, len(full)), *items, *described, *full, *records, END])

    def file(self, path: bytes, size: int) -> bytes:
        ranges, end = [], 0
        for _ in range(self.source.randrange(4)):
            offset = end + (0 if self.rarely(3) else self.source.randrange(max(size // 3, 1)))
            data = self.data()[: max(size - offset, 0)]
            if data:
                ranges.append((offset, data))
                end = offset + len(data)
        return file(path, size, ranges)

    def next_record(self) -> bytes:
        if (self.there or self.table) and self.rarely(self.each_set):
            made = self.setting()
            if made:
                return made
        if not self.there or self.rarely(self.each_ring):
            return self.new_ring()
        number = self.one(self.there)
        if self.rarely(self.each_end):
            self.there.remove(number)
            return ring_ends(number)
        return self.record(number)

    def new_ring(self) -> bytes:
        slots = self.source.randrange(self.most_slots)
        full = [(number, self.holder()) for number in range(slots) if not self.rarely(3)]
        queue = self.source.randrange(len(self.slots)) if self.slots and self.rarely(3) else LAST
        buffers = [(address, self.one(self.buffer_sizes)) for address in ADDRESSES[: self.source.randrange(4)]]
        self.there.append(len(self.slots))
        self.slots.append(slots)
        self.buffers.append(buffers)
        return ring(slots, full, buffers, queue)

    def setting(self) -> bytes:
        """A set or a seek, where there is a slot or a descriptor."""
        held, other = self.held(), self.held()
        if not held:
            return b""
        what = self.source.randrange(7)
        if what == 0:
            return set_nothing(held[0])
        if what == 1:
            return set_copy(held[0], other[0])
        if what == 2:
            return set_taken(held[0])
        position = self.one((*self.offsets, (1 << 63) - 1)) if self.rarely(2) else 0
        if what == 3:
            return seek(held[0], position)
        flags = self.one((0, 1, 2, 2)) | self.some(((0x40, 2), (0x80, 6), (0x200, 4), (0x400, 5)))
        flags |= 0x10000 * (not flags & 0x40 and self.rarely(8)) | 0x80000 * self.rarely(4)
        path = self.path()
        return set_path(held[0], path if is_call_path(path) else b"/z", flags, position)

    def held(self) -> List[Holder]:
        """A slot of a ring that is there, or a descriptor; none where there is neither."""
        with_slots = [it for it in self.there if self.slots[it]]
        if self.table and (not with_slots or self.rarely(2)):
            return [(DESCRIPTOR, 0, self.source.randrange(self.table))]
        if not with_slots:
            return []
        number = self.one(with_slots)
        return [(SLOT, number, self.source.randrange(self.slots[number]))]

    def holder(self) -> Holder:
        with_slots = [it for it in self.there if self.slots[it]]
        if with_slots and self.rarely(3):
            number = self.one(with_slots)
            return SLOT, number, self.source.randrange(self.slots[number])
        if self.table and self.rarely(2):
            return DESCRIPTOR, 0, self.source.randrange(self.table)
        return DESCRIPTION, 0, self.source.randrange(self.handles_end)

    def entered(self, number: int, entries: List[bytes]) -> bytes:
        return enter(number, entries)

    def filled(self, number: int, index: int, offset: int, data: bytes) -> bytes:
        return fill_of_zeros(number, index, offset, len(data)) if self.rarely(2) else fill(number, index, offset, data)

    def fields(self, opcode: int, number: int) -> Dict[str, Any]:
        if opcode != STATX:
            return super().fields(opcode, number)
        own = self.one((0, 0, 0, 0x100, 0x800, 0x2000, 0x4000, 0x6000, 0x400)) if self.rarely(3) else 0
        mask = 1 << 31 if self.rarely(25) else self.one((0, 0x7FF, 0xFFF))
        if self.rarely(2):
            return {"fd": self.start(), "length": mask, "own_flags": own | 0x1000 * self.rarely(5), "side": self.path()}
        is_root = self.rarely(8)
        fd = AT_FDCWD if is_root else self.source.randrange(-1, self.table + 1)
        return {"fd": fd, "length": mask, "own_flags": own | 0x1000 * (not self.rarely(8))}

    def moved(self, opcode: int, number: int) -> Dict[str, Any]:
        if opcode == SYNC_FILE_RANGE:
            return {"length": self.one((0, 1, 4096, LAST)), "own_flags": self.one((0, 7, 7, 8)), "address": self.source.randrange(2)}
        if opcode == FADVISE:
            return {"length": self.one((0, 9, LAST)), "address": self.one((0, 0, 9, (1 << 63) - 1, 1 << 63)), "own_flags": self.one((0, 4, 5, 6))}
        own = {"own_flags": self.one((2, 4, 6, 8, 0x20))} if opcode in (*READS, *WRITES) and self.rarely(self.each_flagged) else {}
        return {**super().moved(opcode, number), **own}

    def given(self, made: bytes) -> bytes:
        """An entry, or one of an opcode that is not served, with a result."""
        front = made[:64] if self.rarely(3) else bytes([self.one((POLL_ADD, TIMEOUT, LINK_TIMEOUT, EPOLL_CTL, 255))]) + made[1:64]
        return given_refused(front, self.one(REFUSALS)) if self.rarely(6) else given(front, self.one(RESULTS), self.rarely(3))

    def entry(self, number: int) -> bytes:
        made = super().entry(number)
        if self.rarely(self.each_given):
            return self.given(made)
        return zeros(made) if made[0] in (WRITE, WRITEV) and self.rarely(2) else stored(made)


def past_limits() -> List[Tuple[str, bytes]]:
    """Traces that are one past a limit of version 3, by what they have too much of; they go no further."""
    start, last = head(0, 0, 3), LAST - 1
    full = [(0, (SLOT, 0, 0))]
    return [
        ("items", head(items=(1 << 24) + 1)), ("descriptions", head(descriptions=(1 << 20) + 1)), ("descriptors", head(table=(1 << 20) + 1)),
        ("full descriptors", head(table=3, full=4)), ("bytes of a file", head(items=1) + file(b"/a", (1 << 40) + 1)),
        ("a range", head(items=1) + file(b"/a", 3, [(2, b"ab")])), ("slots", start + ring((1 << 20) + 1)), ("full slots", start + ring(0, full)),
        ("the sources of a slot", start + ring(1, [(0, (3, 0, 0))])), ("the ring of a descriptor", start + ring(1, [(0, (DESCRIPTOR, 1, 0))])),
        ("a descriptor", start + ring(1, [(0, (DESCRIPTOR, 0, 3))])), ("a queue", start + ring(queue=0)), ("buffers", start + ring(buffers=[(0, 0)] * 16_385)),
        ("bytes of a buffer", start + ring(buffers=[(0, (1 << 30) + 1)])), ("the end of a buffer", start + ring(buffers=[((1 << 64) - 4, 4)])),
        ("entries", start + ring() + struct.pack("<BIH", 1, 0, 32_769)), ("a buffer", start + ring() + fill(0, 0, 0, b"")),
        ("rings", start + ring() + enter(1, [])), ("forms of an entry", start + ring() + enter(0, [bytes(64) + b"\4"])),
        ("whether it fails", start + ring() + enter(0, [bytes(64) + struct.pack("<BiB", 2, 0, 2)])),
        ("a refusal", start + ring() + enter(0, [given_refused(bytes(64), -4_096)])),
        ("a refusal without an error", start + ring() + enter(0, [given_refused(bytes(64), 0)])),
        ("bytes of a record", start + ring() + enter(0, [bytes(64) + struct.pack("<BI", 0, last)])), ("zeros", start + ring() + enter(0, [bytes(64) + b"\1"])),
        ("forms of a fill", start + ring(buffers=[(0, 9)]) + struct.pack("<BIHB", 2, 0, 0, 2)), ("kinds", start + b"\x08"), *past_limits_of_calls(start),
    ]


def past_limits_of_calls(start: bytes) -> Iterator[Tuple[str, bytes]]:
    """The same of sets and seeks, behind the start of a trace with three descriptors."""
    last = (DESCRIPTOR, 0, 2)
    for what, made in (("a set", set_nothing), ("a copy", lambda it: set_copy(last, it)), ("a seek", lambda it: seek(it, 0))):
        for word, held in (("thing", (DESCRIPTION, 0, 0)), ("descriptor", (DESCRIPTOR, 0, 3)), ("ring of a descriptor", (DESCRIPTOR, 1, 0)), ("ring", (SLOT, 1, 0)), ("slot", (SLOT, 0, 2))):
            yield "the {} of {}".format(word, what), start + ring(2) + made(held)
    yield "what a set has", start + set_nothing(last)[:-1] + b"\4"
    yield from (("flags {:#x} of a set".format(it), start + set_path(last, b"/a", it)) for it in (3, 0x10040, 0x200000))
    yield "the position of a set", start + set_path(last, b"/a", 0, 1 << 63)
    yield from (("the path {!r} of a set".format(it[:8]), start + set_path(last, it)) for it in (b"", b"/" * 4_096, b"/a/", b"/../a", b"./a", b"/a/.", b"a\0"))
    yield "the position of a seek", start + seek(last, 1 << 63)


def changed(seed: int) -> bytes:
    """A drawn trace of version 3 with some bytes changed, taken out or put in, or cut short."""
    return altered(Records(seed).trace(), random.Random("changed records {}".format(seed)))
