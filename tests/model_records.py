"""What a trace of version 3 gives, or why it is none: the second replayer (model.py) with a reader by docs/FORMAT.md alone.
Traces of other versions are model.py's."""
from typing import List, Optional, Tuple

import model
from model import COPY, DESCRIPTION, DESCRIPTOR, HALF, LAST, OF_PATH, SLOT, TAKEN, Bytes, Chain, Entry, Fill, Given, Holder, NewRing, Reader, Refused, Seek, Setting, World, entry_of, within
from traces import GREATEST_SIZE, WRITE, WRITEV

MOST_ITEMS, MOST_NUMBERS, MOST_BUFFERS, MOST_OF_RECORD, MOST_PLACES = 1 << 24, 1 << 20, 16_384, 32_768, 1 << 31
BEGINNING = b"URINGTRC\3\0\0\0"
# The forms of an entry. What begins a record.
STORED, ZEROS, GIVEN, REFUSED = range(4)
ENTRIES, FILL, SET, SEEK, RING, RING_ENDS, END = range(1, 8)


class Records(World):
    """A trace that begins as one of version 3. Its rings are there from the start on, with empty slots, and are used from their places on."""

    def __init__(self, text: bytes) -> None:
        self.source = source = Reader(text)
        source.take(len(BEGINNING))
        self.version = 3
        self.items, self.described = self.number(MOST_ITEMS), self.number(MOST_NUMBERS)
        size = self.number(MOST_NUMBERS)
        full = self.number(size)
        self.number(0)
        self.read_start(source)
        self.table: List[Optional[int]] = [None] * size
        for number, description in self.rising(full, size, self.of_start):
            self.table[number] = description
        # Of each ring the one whose queue it continues, or itself.
        self.queues: List[int] = []
        # Where the start ends, and each record but that of the end; and how many places are before.
        self.ends = [(source.next, 0)]
        self.read_records()

    def read_records(self) -> None:
        while self.next_record():
            self.ends.append((self.source.next, self.places))
        within(self.source.next == len(self.source.text), "Trailing", self.source.next)

    def number(self, most: int, least: int = 0, kind: str = "Limit") -> int:
        return self.source.number("I", most, least, kind)

    def of_start(self) -> int:
        """The number of a description."""
        return self.number(self.described - 1, 0, "Reference")

    def rising(self, count: int, end: int, each) -> list:
        """Numbers that rise, below an end, and what stands behind each."""
        found, low = [], 0
        for _ in range(count):
            low = self.number(end - 1, low) + 1
            found.append((low - 1, each()))
        return found

    def file(self, source: Reader) -> Bytes:
        """A file by ranges of its bytes."""
        size, end = source.number("Q", GREATEST_SIZE), 0
        made = Bytes(size)
        for _ in range(source.field("I")):
            offset = source.number("Q", size, end)
            end = offset + self.number(size - offset, 1)
            made.put(offset, source.take(end - offset))
        return made

    def next_record(self) -> bool:
        """Reads the next record, if it is not the end."""
        source, begin = self.source, self.source.next
        kind = source.field("B")
        within(ENTRIES <= kind <= END, "Limit", begin)
        within(kind not in (FILL, SET, SEEK, RING) or self.places < MOST_PLACES, "Limit", begin)
        within(kind != RING or len(self.slots) < MOST_NUMBERS, "Limit", begin)
        if kind == ENTRIES:
            ring, count = self.ring(), source.number("H", MOST_OF_RECORD)
            within(self.places + count <= MOST_PLACES, "Limit", source.at)
            self.add_chains(ring, (self.next_entry(begin) for _ in range(count)), count, self.queues[ring])
        elif kind == FILL:
            ring = self.ring()
            self.add_step(ring, self.next_fill(ring))
        elif kind == SET:
            file = self.holder(DESCRIPTOR)
            self.add_step(file.ring if file.what == SLOT else LAST, self.next_setting(file))
        elif kind == SEEK:
            file = self.holder(DESCRIPTOR)
            self.add_step(file.ring if file.what == SLOT else LAST, Seek(file, source.number("Q", HALF - 1)))
        elif kind == RING:
            made = self.new_ring()
            self.add_step(len(self.slots) - 1, made)
        elif kind == RING_ENDS:
            self.ended.add(self.ring())
        return kind != END

    def add_step(self, ring: int, step: model.Step) -> None:
        """A step that is a chain of its own. One on a descriptor has a queue that no entry has."""
        queue = LAST if ring == LAST else self.queues[ring]
        self.chains.append(Chain(len(self.chains), self.places, ring, [step], queue=queue))
        self.places += 1

    def ring(self) -> int:
        """The number of a ring that is there."""
        number = self.source.field("I")
        within(number < len(self.slots) and number not in self.ended, "Reference", self.source.at)
        return number

    def next_entry(self, begin: int) -> Entry:
        source = self.source
        fields, form = source.take(64), source.number("B", REFUSED)
        within(form != ZEROS or fields[0] in (WRITE, WRITEV), "Limit", source.at)
        if form in (GIVEN, REFUSED):
            return entry_of(fields, b"")._replace(given=self.given(form))
        count, at = source.field("I"), source.at
        within(form == ZEROS or source.next + count - begin <= LAST, "Limit", at)
        side = source.take(count if form == STORED else min(count, entry_of(fields, b"").lengths()))
        entry = entry_of(fields, side, form == ZEROS)
        within(entry.has_side(3) if form == STORED else entry.has_count(count), "Side", at)
        return entry

    def given(self, form: int) -> Given:
        if form == REFUSED:
            return Given(self.source.number("i", -1, -4095), True, True)
        result = self.source.field("i")
        return Given(result, self.source.number("B", 1) == 1)

    def next_fill(self, ring: int) -> Fill:
        buffers, source = self.buffers[ring], self.source
        buffer = source.number("H", len(buffers) - 1, 0, "Reference")
        form, offset = source.number("B", 1), source.field("I")
        at = source.at
        count = source.field("I")
        within(offset + count <= buffers[buffer][1].size, "Reference", at)
        return Fill(buffer, offset, Bytes(count, source.take(count if form == 0 else 0)))

    def next_setting(self, file: Holder) -> Setting:
        source = self.source
        what = source.number("B", TAKEN)
        if what == COPY:
            return Setting(file, what, self.holder(DESCRIPTOR))
        if what != OF_PATH:
            return Setting(file, what)
        flags = source.field("I")
        within(model.are_open_flags(flags, 0), "Limit", source.at)
        position = source.number("Q", HALF - 1)
        path = source.take(source.field("H"))
        within(model.is_call_path(path), "Path", source.at)
        return Setting(file, what, None, flags, position, path)

    def new_ring(self) -> NewRing:
        queue = self.source.field("I")
        within(queue == LAST or queue < len(self.slots), "Reference", self.source.at)
        size = self.number(MOST_NUMBERS)
        full: List[Tuple[int, Holder]] = self.rising(self.number(size), size, self.holder)
        self.buffers.append([])
        for _ in range(self.source.number("H", MOST_BUFFERS)):
            self.add_buffer(self.source)
        self.queues.append(len(self.slots) if queue == LAST else self.queues[queue])
        self.slots.append([None] * size)
        return NewRing(full)

    def holder(self, most: int = DESCRIPTION) -> Holder:
        what = self.source.number("B", most)
        ring = self.ring() if what == SLOT else self.number(0)
        count = len(self.slots[ring]) if what == SLOT else len(self.table) if what == DESCRIPTOR else self.described
        return Holder(what, ring, self.number(count - 1, 0, "Reference"))


class Begun(Records):
    """What a trace of version 3 begins with whose start is whole: a fault behind that, which is told, ends it behind the records before."""

    fault: Optional[Refused] = None

    def read_records(self) -> None:
        try:
            super().read_records()
        except Refused as fault:
            self.fault = fault
            self.places = self.ends[-1][1]
            self.chains = [it for it in self.chains if it.first < self.places]


def world_of(text: bytes) -> World:
    """The world of a trace of any version before its places run; or it is Refused."""
    return Records(text) if text.startswith(BEGINNING) else World(text)


def answer(text: bytes) -> str:
    """The line of `check` for a trace of any version."""
    world = world_of(text)
    return "ok {} places {} rings\n".format(world.places, len(world.slots))


def report(text: bytes, has_sums: bool = True) -> bytes:
    """The report of a trace of any version."""
    return model.report_by_turns(world_of(text), has_sums)


def lines_before(text: bytes) -> bytes:
    """What is written before the fault of a trace that is refused: of version 3 and behind a whole start, the first line and those of the entries in
    whole records; of any other nothing. Of a trace that is accepted these are the lines of all entries."""
    if not text.startswith(BEGINNING):
        return b""
    try:
        world = Begun(text)
    except Refused:
        return b""
    return "\n".join([*model.lines_in_order(world, model.replies_by_turns(world)), ""]).encode()


def cut_off(text: bytes, has_sums: bool) -> Tuple[bytes, int]:
    """The report of a trace of version 3 that ends too early behind its start, taken as one that ends behind its last whole record; and where that ends."""
    at, _ = Begun(text).ends[-1]
    return report(text[:at] + bytes([END]), has_sums), at


def beginnings(text: bytes) -> List[bytes]:
    """What may be written before more of a trace is read: nothing, or the lines so far, behind the start and behind each whole record."""
    try:
        ends = Begun(text).ends if text.startswith(BEGINNING) else []
    except Refused:
        ends = []
    return [b"", *(lines_before(text[:end]) for end, _ in ends)]
