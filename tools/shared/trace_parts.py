"""A trace (docs/FORMAT.md) as its parts, for tools that change it. The parts are read from a trace that `uring_replay check` accepts."""
import struct
from typing import Iterator, List, NamedTuple, Optional, Tuple, Union

import record_traces
import traces
from record_traces import DESCRIPTION, Holder
from traces import WRITE, WRITEV

DIRECTORY, FILE, NAME = 1, 2, 3
# The forms of an entry of version 3; what begins a record.
STORED, ZEROS, GIVEN, REFUSED = range(4)
ENTER, FILL, SET, SEEK, RING, RING_ENDS, END = range(1, 8)
# What a slot or a descriptor holds once a set said so.
NOTHING, OF_PATH, COPY, TAKEN = range(4)
# The queue of a ring that continues no other, and the most bytes that a write moves.
OWN, MOST_MOVED = (1 << 32) - 1, 0x7FFFF000


class Item(NamedTuple):
    """A name. Bytes of a file that are in no range are zeros; in versions 1 and 2 a range begins at 0, and there is one at most."""

    kind: int
    path: bytes
    size: int = 0
    ranges: Tuple[Tuple[int, bytes], ...] = ()
    of: int = 0  # of a name: the number of its file

    def text(self, version: int) -> bytes:
        if self.kind == DIRECTORY:
            return traces.directory(self.path)
        if self.kind == NAME:
            return traces.name(self.path, self.of)
        if version == 3:
            return record_traces.file(self.path, self.size, self.ranges)
        return traces.file(self.path, self.size, self.ranges[0][1] if self.ranges else b"")


class Description(NamedTuple):
    node: int
    access: int
    append: int
    position: int


class Entry(NamedTuple):
    """The fields of struct io_uring_sqe in order, and the side bytes; of a write of zeros the lengths of its vectors alone; of an entry whose result is
    given none, and its form and what stands behind it."""

    opcode: int
    flags: int
    priority: int
    fd: int
    offset: int
    address: int
    length: int
    own_flags: int
    user_data: int
    buffer: int
    personality: int
    file_index: int
    third: int
    last: int
    side: bytes
    is_zeros: bool = False
    given: bytes = b""

    def zeros(self) -> int:
        """How many zeros a write of zeros writes."""
        if self.opcode == WRITE:
            return min(self.length, MOST_MOVED)
        total = sum(struct.unpack("<{}Q".format(len(self.side) // 8), self.side))
        return min(total, MOST_MOVED) if total < 1 << 63 else 0

    def text(self, version: int) -> bytes:
        fields = traces.ENTRY.pack(*self[:14])
        if self.given:
            return fields + self.given
        if self.is_zeros:
            return fields + struct.pack("<BI", 1, len(self.side) + self.zeros()) + self.side
        whole = traces.with_side(fields, self.side)
        return record_traces.stored(whole) if version == 3 else whole


class Enter(NamedTuple):
    ring: int
    entries: Tuple[Entry, ...]

    def text(self, version: int) -> bytes:
        each = [it.text(version) for it in self.entries]
        return record_traces.enter(self.ring, each) if version == 3 else traces.enter(self.ring, each)


class Fill(NamedTuple):
    """Bytes that are put into a buffer, or none: zeros."""

    ring: int
    buffer: int
    offset: int
    count: int
    data: Optional[bytes]

    def text(self, version: int) -> bytes:
        if self.data is None:
            return record_traces.fill_of_zeros(self.ring, self.buffer, self.offset, self.count)
        return (record_traces if version == 3 else traces).fill(self.ring, self.buffer, self.offset, self.data)


class NewRing(NamedTuple):
    """A ring: how many slots it has, what the full ones get, its buffers, and the ring whose queue it continues. In versions 1 and 2 it is no record
    of the text, and its slots get descriptions of the start."""

    slots: int
    full: Tuple[Tuple[int, Holder], ...]
    buffers: Tuple[Tuple[int, int], ...]
    queue: int = OWN

    def text(self, version: int) -> bytes:
        if version == 3:
            return record_traces.ring(self.slots, self.full, self.buffers, self.queue)
        held = {slot: number + 1 for slot, (_, _, number) in self.full}
        return traces.ring([held.get(it, 0) for it in range(self.slots)], self.buffers)


class RingEnds(NamedTuple):
    ring: int

    def text(self, _: int) -> bytes:
        return record_traces.ring_ends(self.ring)


class Setting(NamedTuple):
    """What a slot or a descriptor holds from there on: nothing, a path that is opened, what another one holds, or what is no file of the tree."""

    file: Holder
    what: int
    source: Optional[Holder] = None
    flags: int = 0
    position: int = 0
    path: bytes = b""

    def text(self, _: int) -> bytes:
        if self.what == OF_PATH:
            return record_traces.set_path(self.file, self.path, self.flags, self.position)
        if self.source:
            return record_traces.set_copy(self.file, self.source)
        return (record_traces.set_taken if self.what == TAKEN else record_traces.set_nothing)(self.file)


class Seek(NamedTuple):
    """The position of what a slot or a descriptor holds."""

    file: Holder
    position: int

    def text(self, _: int) -> bytes:
        return record_traces.seek(self.file, self.position)


Record = Union[Enter, Fill, NewRing, RingEnds, Setting, Seek]


class Trace(NamedTuple):
    """In versions 1 and 2 the rings are the first records."""

    version: int
    items: Tuple[Item, ...]
    descriptions: Tuple[Description, ...]
    table: Tuple[int, ...]
    records: Tuple[Record, ...]

    def text(self) -> bytes:
        items, descriptions = [it.text(self.version) for it in self.items], [traces.description(*it) for it in self.descriptions]
        records, rings = [it.text(self.version) for it in self.records], len(self.rings())
        if self.version == 3:
            full = record_traces.table_of(self.table)
            front = record_traces.head(len(items), len(descriptions), len(self.table), len(full))
            return b"".join([front, *items, *descriptions, *full, *records, record_traces.END])
        front = traces.head(len(items), len(descriptions), rings, len(records) - rings, len(self.table), self.version)
        return b"".join([front, *items, *descriptions, traces.descriptor_table(self.table), *records])

    def rings(self) -> List[NewRing]:
        return [it for it in self.records if isinstance(it, NewRing)]

    def places_of(self, record: Record) -> int:
        """How many places a record has."""
        if isinstance(record, Enter):
            return len(record.entries)
        return int(isinstance(record, (Fill, Setting, Seek)) or isinstance(record, NewRing) and self.version == 3)

    def entries(self) -> Iterator[Tuple[int, int, int, Entry]]:
        """Each entry, behind the number of its record, its number there, and its place."""
        place = 0
        for number, record in enumerate(self.records):
            for at, entry in enumerate(record.entries if isinstance(record, Enter) else ()):
                yield number, at, place + at, entry
            place += self.places_of(record)

    def places(self) -> int:
        return sum(map(self.places_of, self.records))


class Source:
    """The bytes of a trace, field by field."""

    def __init__(self, text: bytes) -> None:
        self.text, self.at = text, 0

    def take(self, count: int) -> bytes:
        self.at += count
        return self.text[self.at - count : self.at]

    def fields(self, form: str) -> Tuple[int, ...]:
        return struct.unpack("<" + form, self.take(struct.calcsize("<" + form)))

    def number(self, form: str) -> int:
        return self.fields(form)[0]

    def numbers(self, count: int) -> Tuple[int, ...]:
        return self.fields("{}I".format(count))

    def buffers(self) -> Tuple[Tuple[int, int], ...]:
        return tuple(self.fields("QI") for _ in range(self.number("H")))


def range_of(source: Source) -> Tuple[int, bytes]:
    offset, length = source.fields("QI")
    return offset, source.take(length)


def item_of(source: Source, version: int) -> Item:
    kind, length = source.fields("BH")
    path = source.take(length)
    if kind == DIRECTORY:
        return Item(kind, path)
    if kind == NAME:
        return Item(kind, path, of=source.number("I"))
    size, count = source.fields("QI")
    if version == 3:
        return Item(kind, path, size, tuple(range_of(source) for _ in range(count)))
    return Item(kind, path, size, ((0, source.take(count)),) if count else ())


def ring_of(source: Source) -> NewRing:
    """A ring of version 1 or 2."""
    slots = source.numbers(source.number("H"))
    return NewRing(len(slots), tuple((slot, (DESCRIPTION, 0, it - 1)) for slot, it in enumerate(slots) if it), source.buffers())


def record_of(source: Source) -> Record:
    """A record of version 1 or 2."""
    kind, ring = source.fields("BB")
    if kind != ENTER:
        buffer, offset, length = source.fields("HII")
        return Fill(ring, buffer, offset, length, source.take(length))
    entries: List[Entry] = []
    for _ in range(source.number("H")):
        fields = traces.ENTRY.unpack(source.take(traces.ENTRY.size))
        entries.append(Entry(*fields, source.take(source.number("I"))))
    return Enter(ring, tuple(entries))


# --- Version 3 ------------------------------------------------------------------------------------------------------------

def entry_of(source: Source) -> Entry:
    fields = traces.ENTRY.unpack(source.take(traces.ENTRY.size))
    form = source.number("B")
    if form in (GIVEN, REFUSED):
        return Entry(*fields, b"", given=bytes([form]) + source.take(5 if form == GIVEN else 4))
    count, opcode, length = source.number("I"), fields[0], fields[6]
    if form == ZEROS:
        count = 8 * length if opcode == WRITEV and length <= 1024 else 0
    return Entry(*fields, source.take(count), form == ZEROS)


def new_ring_of(source: Source) -> NewRing:
    queue, slots, count = source.fields("3I")
    full = tuple((source.number("I"), source.fields("BII")) for _ in range(count))
    return NewRing(slots, full, source.buffers(), queue)


def fill_of(source: Source, ring: int) -> Fill:
    buffer, form, offset, count = source.fields("HBII")
    return Fill(ring, buffer, offset, count, None if form else source.take(count))


def set_of(source: Source) -> Setting:
    file, what = source.fields("BII"), source.number("B")
    if what == COPY:
        return Setting(file, what, source.fields("BII"))
    if what != OF_PATH:
        return Setting(file, what)
    flags, position, length = source.fields("IQH")
    return Setting(file, what, None, flags, position, source.take(length))


def records_of(source: Source) -> Iterator[Record]:
    kind = source.number("B")
    while kind != END:
        if kind == RING:
            yield new_ring_of(source)
        elif kind == SET:
            yield set_of(source)
        elif kind == SEEK:
            yield Seek(source.fields("BII"), source.number("Q"))
        else:
            ring = source.number("I")
            if kind == ENTER:
                yield Enter(ring, tuple(entry_of(source) for _ in range(source.number("H"))))
            else:
                yield fill_of(source, ring) if kind == FILL else RingEnds(ring)
        kind = source.number("B")


def table_of(source: Source, size: int, full: int) -> Tuple[int, ...]:
    """A table as version 2 has it, of its full descriptors."""
    held = dict(source.numbers(2) for _ in range(full))
    return tuple(held[it] + 1 if it in held else 0 for it in range(size))


def start_of(source: Source, version: int, items: int, descriptions: int) -> Tuple[Tuple[Item, ...], Tuple[Description, ...]]:
    return tuple(item_of(source, version) for _ in range(items)), tuple(Description(*source.fields("IBBQ")) for _ in range(descriptions))


def parts_of(text: bytes) -> Trace:
    source = Source(text)
    source.take(8)
    version, items, descriptions, *counts = source.fields("6I")
    start = start_of(source, version, items, descriptions)
    if version == 3:
        return Trace(version, *start, table_of(source, counts[0], counts[1]), tuple(records_of(source)))
    rings, records, table = counts
    held = source.numbers(table)
    each = [*(ring_of(source) for _ in range(rings)), *(record_of(source) for _ in range(records))]
    return Trace(version, *start, held, tuple(each))
