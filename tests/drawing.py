"""Draws traces of few steps in which rules meet, such traces with bytes changed, and pairs of reports that differ a little: the same of
one seed each time."""
import random
import struct
from typing import Any, Dict, List, Sequence, Tuple

import model
from model import A_DIRECTORY, APPEND, CLOEXEC, CREAT, EXCL, MOST_MOVED, TRUNC
from traces import AT_FDCWD, BUFFER_SELECT, CLOSE, DRAIN, FALLOCATE, FIXED_FILE, FSYNC, FTRUNCATE, GREATEST_SIZE, HARDLINK, LINK, LINKAT, MKDIRAT
from traces import FADVISE, NOP, OPENAT, READ, READ_FIXED, READV, RENAMEAT, SKIP, SYNC_FILE_RANGE, UNLINKAT, WRITE, WRITE_FIXED, WRITEV
from traces import description, directory, descriptor_table, enter, entry, file, fill, head, name, ring, two_paths

NAMES = (b"a", b"b", b"c", b"dd", b"\xff\n", b"n" * 255)
ODD_NAMES = (b"", b".", b"..", b"n" * 256, b"n" * 4_095)
SIZES, GREAT_SIZES = (0, 1, 10, 4095, 4096, 5000, 9000), ((1 << 24) + 1, GREATEST_SIZE - 3, GREATEST_SIZE)
OFFSETS, GREAT_OFFSETS = (0, 0, 1, 5, 4090, 4096, 8000), (GREATEST_SIZE - 3, GREATEST_SIZE, GREATEST_SIZE + 1, (1 << 63) - 1, 1 << 63, (1 << 64) - 2)
POSITION, LAST = (1 << 64) - 1, (1 << 32) - 1
ADDRESSES, LENGTHS = (4096, 1 << 20, (1 << 64) - 20_000), (0, 1, 16, 4097, 9_000)
# Flags, each with how rarely it is set; ASYNC and O_NONBLOCK have no effect, and bit 7 is none.
FLAGS = ((LINK, 4), (HARDLINK, 12), (DRAIN, 20), (SKIP, 5), (16, 30), (BUFFER_SELECT, 200), (128, 300))
OPEN_FLAGS = ((CREAT, 2), (EXCL, 5), (TRUNC, 5), (APPEND, 5), (A_DIRECTORY, 10), (CLOEXEC, 30), (0x800, 20))
# Opcodes, each with how often it is drawn; 6 is outside the table.
WEIGHTS = {READ: 8, WRITE: 8, READV: 3, WRITEV: 3, READ_FIXED: 5, WRITE_FIXED: 5, FSYNC: 1, NOP: 2, FALLOCATE: 5, FTRUNCATE: 4,
           OPENAT: 12, CLOSE: 6, UNLINKAT: 6, MKDIRAT: 6, LINKAT: 5, RENAMEAT: 12, 6: 1}
OF_FILES = (READ, WRITE, READV, WRITEV, READ_FIXED, WRITE_FIXED, FSYNC, FALLOCATE, FTRUNCATE, SYNC_FILE_RANGE, FADVISE)
# Words that a line of a report may be given, the first ones of lines, and whole lines.
FACTS = (b"unchecked=x", b"op=22", b"posted", b"silent", b"", b"=", b"res=1", b"size=0", b"unchecked", b"a=b=c", b"a=b", b"sum=large", b"tree-sum=ab", b"submitted=5",
         b"completed=9", b"completed", b"given=1", b"given=0", b"completion=unseen", b"completion=seen", b"sum=ab", b"data-sum=ab", b"data=31", b"data=31+", b"data", b"data=")
FIRST_WORDS = (b"dir", b"file", b"link", b"slot", b"descriptor", b"buffer", b"tree", b"ring", b"0", b"1")
LINES = (b"", b" ", b"tree", b"slots", b"buffers x", b"dir", b"slot 1", b"descriptor 0 desc=1", b"7 user=1")


class Draw:
    """Draws a trace from a source of random numbers."""

    names, weights, flags, fewest, records, most_slots, longest, most_described = NAMES, WEIGHTS, FLAGS, 1, 9, 6, 6_000, 6
    tables, accesses, buffer_sizes, counts = range(5), (0, 1, 2, 2, 2), LENGTHS, (0, 1, 7, 33, 5_000, LAST)
    offsets, great_offsets, each_great, each_at_position, each_fill = OFFSETS, GREAT_OFFSETS, 12, 3, 5
    ranges, great_ranges = (1, 100, 5_000), (0, 1, 100, 5_000, GREATEST_SIZE, 1 << 63)
    # Where there is a table of descriptors: of how many transfers one goes through it, and of how many OPENATs and CLOSEs one is of it.
    each_through_table, each_of_table = 4, 3

    def __init__(self, seed: int) -> None:
        self.source = random.Random(seed)
        self.version = 1 if self.rarely(3) else 2
        self.paths: List[bytes] = []
        self.table = 0
        # Of each ring how many slots it has, and its buffers.
        self.slots: List[int] = []
        self.buffers: List[List[Tuple[int, int]]] = []

    def rarely(self, each: int) -> bool:
        """True in one of so many cases."""
        return self.source.randrange(each) == 0

    def one(self, choices: Sequence[Any]) -> Any:
        return choices[self.source.randrange(len(choices))]

    def some(self, flags: Sequence[Tuple[int, int]]) -> int:
        return sum(flag for flag, each in flags if self.rarely(each))

    def data(self) -> bytes:
        count = self.source.randrange(self.longest if self.rarely(4) else 12)
        return bytes(count) if self.rarely(4) else self.source.randbytes(count)

    def trace(self) -> bytes:
        items, nodes = self.items()
        described = [self.described(nodes) for _ in range(self.source.randrange(1, self.most_described + 1))]
        self.table = self.one(self.tables) if self.version == 2 else 0
        table = self.handles(len(described), self.table)
        rings = [self.ring(len(described)) for _ in range(self.source.randrange(1, 4))]
        records = [self.record(self.source.randrange(len(rings))) for _ in range(self.source.randrange(self.fewest, self.records))]
        return self.whole(items, described, table, rings, records)

    def whole(self, items: List[bytes], described: List[bytes], table: List[int], rings: List[bytes], records: List[bytes]) -> bytes:
        front = head(len(items), len(described), len(rings), len(records), self.table, self.version)
        return b"".join([front, *items, *described, descriptor_table(table), *rings, *records])

    def items(self) -> Tuple[List[bytes], List[Tuple[int, bool]]]:
        """Items, and the nodes that there are then, each with whether it is a file."""
        items, nodes, directories = [], [(0, False)], [b""]
        for number in range(1, self.source.randrange(1, 12)):
            path = self.one(directories) + b"/" + self.one(self.names)
            path = b"/z%d" % number if path in self.paths else path
            files = [it for it, is_file in nodes if is_file]
            self.paths.append(path)
            if files and self.rarely(5):
                items.append(name(path, self.one(files)))
            elif self.rarely(3):
                items.append(self.file(path, self.one(GREAT_SIZES if self.rarely(8) else SIZES)))
                nodes.append((number, True))
            else:
                items.append(directory(path))
                directories.append(path)
                nodes.append((number, False))
        return items, nodes

    def file(self, path: bytes, size: int) -> bytes:
        return file(path, size, self.data()[:size])

    def described(self, nodes: List[Tuple[int, bool]]) -> bytes:
        files = [it for it in nodes if it[1]]
        node, is_file = self.one(nodes if self.rarely(5) or not files else files)
        position = self.one((*self.offsets, GREATEST_SIZE, (1 << 63) - 1)) if self.rarely(3) else 0
        return description(node, self.one(self.accesses) if is_file else 0, int(self.rarely(5)), position)

    def handles(self, described: int, count: int) -> List[int]:
        return [0 if self.rarely(4) else self.source.randrange(described) + 1 for _ in range(count)]

    def ring(self, described: int) -> bytes:
        self.slots.append(self.source.randrange(self.most_slots))
        self.buffers.append([(address, self.one(self.buffer_sizes)) for address in ADDRESSES[: self.source.randrange(4)]])
        return self.registered(self.handles(described, self.slots[-1]), self.buffers[-1])

    def registered(self, slots: List[int], buffers: List[Tuple[int, int]]) -> bytes:
        return ring(slots, buffers)

    def record(self, number: int) -> bytes:
        buffers = self.buffers[number]
        if not buffers or not self.rarely(self.each_fill):
            return self.entered(number, [self.entry(number) for _ in range(self.source.randrange(9))])
        index = self.source.randrange(len(buffers))
        offset = self.source.randrange(buffers[index][1] + 1)
        return self.filled(number, index, offset, self.data()[: buffers[index][1] - offset])

    def entered(self, number: int, entries: List[bytes]) -> bytes:
        return enter(number, entries)

    def filled(self, number: int, index: int, offset: int, data: bytes) -> bytes:
        return fill(number, index, offset, data)

    def entry(self, number: int) -> bytes:
        (opcode,) = self.source.choices(list(self.weights), list(self.weights.values()))
        fields = self.fields(opcode, number)
        flags = self.some(self.flags)
        if opcode in OF_FILES:
            is_slot = not self.table or not self.rarely(self.each_through_table)
            flags |= FIXED_FILE * is_slot
            there = self.slots[number] if is_slot else self.table
            fields["fd"] = self.source.randrange(-1, 6) if self.rarely(20) or not there else self.source.randrange(there)
        elif self.rarely(100):
            flags |= FIXED_FILE
        if self.rarely(60):
            fields["own_flags"] = self.one((1, 2, 3, TRUNC, APPEND, 1 << 22))
        return entry(opcode, flags, user_data=self.source.randrange(1 << 64), personality=int(self.rarely(300)), **fields)

    def fields(self, opcode: int, number: int) -> Dict[str, Any]:
        """What the row of an opcode looks at, and its side bytes."""
        if opcode in OF_FILES:
            offset = POSITION if self.rarely(self.each_at_position) else self.one(self.great_offsets if self.rarely(self.each_great) else self.offsets)
            return {"offset": offset, **self.moved(opcode, number)}
        if opcode == OPENAT:
            return {"fd": self.start(), "own_flags": self.one((0, 1, 2, 2)) | self.some(OPEN_FLAGS), "file_index": self.index(number), "side": self.path()}
        if opcode == CLOSE:
            index = self.index(number)
            return {"fd": self.source.randrange(5) if not index or self.rarely(20) else 0, "file_index": index}
        if opcode in (UNLINKAT, MKDIRAT):
            return {"fd": self.start(), "own_flags": self.one((0, 0x200)) if opcode == UNLINKAT else 0, "side": self.path()}
        if opcode in (RENAMEAT, LINKAT):
            own, old = self.one((0, 0, 0, 1, 2) if opcode == RENAMEAT else (0, 0x400)), self.path()
            return {"fd": self.start(), "length": self.start() & LAST, "own_flags": own, "side": two_paths(old, self.path())}
        return {}

    def moved(self, opcode: int, number: int) -> Dict[str, Any]:
        """What a transfer, or another operation on a file, asks for."""
        if opcode == READ:
            return {"length": self.one(self.counts)}
        if opcode == WRITE:
            side = self.data()
            return {"length": len(side), "side": side}
        if opcode in (READV, WRITEV):
            return self.vectors(opcode)
        if opcode in (READ_FIXED, WRITE_FIXED):
            index = self.source.randrange(len(self.buffers[number]) + 1)
            address, size = self.buffers[number][index] if index < len(self.buffers[number]) else (0, 0)
            behind = self.source.randrange(size + 2)
            return {"address": max(address + behind - self.rarely(20), 0), "length": self.source.randrange(size + 2 - behind), "buffer": index}
        if opcode == FALLOCATE:
            return {"address": self.one(self.great_ranges if self.rarely(4) else self.ranges), "length": self.one((0, 1, 3, 0x10, 0x11, 2))}
        return {}

    def vectors(self, opcode: int) -> Dict[str, Any]:
        if self.rarely(40):
            return {"length": 1_025}
        lengths = [self.source.randrange(40) for _ in range(self.source.randrange(4))]
        if self.rarely(20):
            lengths.append(1 << 63)
        elif opcode == READV and self.rarely(10):
            lengths += [(1 << 63) - 200, self.source.randrange(10)]
        side = struct.pack("<{}Q".format(len(lengths)), *lengths)
        is_written = opcode == WRITEV and sum(lengths) < 1 << 63
        return {"length": len(lengths), "side": side + (self.source.randbytes(sum(lengths)) if is_written else b"")}

    def index(self, number: int) -> int:
        """A file index: most often of a slot, or none where there are descriptors."""
        if self.table and self.rarely(self.each_of_table):
            return 0
        return LAST if self.rarely(100) else 6 if self.rarely(20) else self.source.randrange(1, max(self.slots[number], 1) + 1)

    def start(self) -> int:
        return self.one((0, 3, -1)) if self.rarely(12) else AT_FDCWD

    def path(self) -> bytes:
        """Most often that of an item, as long as this keeps its name, or of something in it."""
        parts = [self.one(self.names) for _ in range(self.one((1, 1, 1, 2, 2, 3)))]
        if self.paths and not self.rarely(3):
            parts = self.one(self.paths)[1:].split(b"/") + (parts[:1] if self.rarely(3) else [])
        if self.rarely(25):
            parts[self.source.randrange(len(parts))] = self.one(ODD_NAMES)
        front = self.one((b"", b"//")) if self.rarely(6) else b"/"
        return front + b"/".join(parts) + (b"/" if self.rarely(60) else b"")


class Near(Draw):
    """Draws a trace whose steps use the same things more often: two files, few bytes of each, and the greatest sizes."""

    names, records, most_slots, longest = NAMES[:3], 7, 4, 12
    weights = {**WEIGHTS, READ: 16, WRITE: 16, READ_FIXED: 9, FALLOCATE: 10, FTRUNCATE: 8, OPENAT: 18, RENAMEAT: 18}
    flags = ((LINK, 12), (HARDLINK, 60), (DRAIN, 100), *FLAGS[3:])
    tables, accesses, buffer_sizes, counts = (1, 2, 3, 4), (0, 1, 2), (0, 1, 16, 16), (0, 1, 4, 9, LAST)
    offsets, great_offsets = (0, 1, 4, 5, 8), (MOST_MOVED, *(3 * [GREATEST_SIZE - 3]), GREATEST_SIZE + 1, 1 << 63)
    each_great, each_at_position, each_fill = 2, 6, 3
    ranges, great_ranges = (1, 3, 5), (0, GREATEST_SIZE - 4, GREATEST_SIZE, GREATEST_SIZE, 1 << 63)

    def items(self) -> Tuple[List[bytes], List[Tuple[int, bool]]]:
        sizes = [self.one((0, 20, 20, 20, GREATEST_SIZE - 3, GREATEST_SIZE, GREATEST_SIZE)) for _ in range(2)]
        self.paths = [b"/a", b"/b", b"/a/c"]
        return [directory(b"/a"), *(file(path, size) for path, size in zip(self.paths[1:], sizes))], [(0, False), (1, False), (2, True), (3, True)]


class Second(Draw):
    """Draws a trace of version 2."""

    def __init__(self, seed: int) -> None:
        super().__init__(seed)
        self.version = 2


class Opens(Near):
    """Draws a trace whose steps take, close and use ordinary descriptors."""

    records, tables, each_through_table, each_of_table = 14, (2, 3, 4, 6), 1, 1
    weights = {READ: 8, WRITE: 4, FSYNC: 4, OPENAT: 24, CLOSE: 16, UNLINKAT: 2}

    def __init__(self, seed: int) -> None:
        super().__init__(seed)
        self.version = 2


def changed(seed: int) -> bytes:
    """A drawn trace with some bytes changed, taken out or put in, or cut short."""
    return altered(Draw(seed).trace(), random.Random("changed {}".format(seed)))


def altered(trace: bytes, source: random.Random) -> bytes:
    text = bytearray(trace)
    for _ in range(source.randrange(1, 4)):
        at = source.randrange(len(text) if source.randrange(3) else min(len(text), 400))
        kind = source.randrange(20)
        if kind < 5:
            text[at] ^= 1 << source.randrange(8)
        elif kind < 10:
            text[at] = source.choice((0, 1, 2, 3, ord("."), ord("/"), 255))
        elif kind < 13:
            text[at] = (text[at] + source.choice((1, 255))) % 256
        elif kind < 16:
            del text[at]
        elif kind < 19:
            text.insert(at, source.randrange(256))
        elif at:
            del text[at:]
    return bytes(text)


def report_changed(source: random.Random, report: bytes) -> bytes:
    """A report with some lines changed, put in, or taken out."""
    lines = report.split(b"\n")[:-1]
    for _ in range(source.randrange(6)):
        at, kind = source.randrange(len(lines)), source.randrange(6)
        words = lines[at].split(b" ")
        if kind == 0 and len(lines) > 1:
            del lines[at]
        elif kind == 1:
            lines.insert(at, source.choice((*LINES, *lines)))
        elif kind == 2:
            words[source.randrange(len(words))] = source.choice((*FACTS, *FIRST_WORDS))
        elif kind == 3:
            words.insert(source.randrange(len(words) + 1), source.choice(FACTS))
        elif kind == 4:
            del words[source.randrange(len(words))]
        lines[at : at + 1] = [b" ".join(words)] if kind in (2, 3, 4) else lines[at : at + 1]
    return b"\n".join(lines) + (b"\n" if source.randrange(30) else b"")


def two_reports(seed: int) -> bytes:
    """The report of a drawn trace, with sums or without, and behind it that of the same or of another one, both changed."""
    source = random.Random("reports {}".format(seed))
    seeds = (seed, seed if source.randrange(4) else seed + 1)
    return b"".join(report_changed(source, model.report(Draw(it).trace(), source.randrange(2) > 0)) for it in seeds)


def by_places(source: random.Random, report: bytes) -> bytes:
    """A report of version 1 as one of version 2: its entries in the order of their places, each with its ring, and perhaps links in the tree."""
    entries, others, ring_line = [], [], b""
    for line in report.split(b"\n")[1:-1]:
        words = line.split(b" ")
        if words[0] == b"ring":
            ring_line = b"ring=" + words[1]
        elif words[0].isdigit():
            entries.append(b" ".join([words[0], ring_line, *words[1:]]))
        else:
            others.append(line)
    links = [b"link /l%d node=%d to=%s" % (it, 90 + it, source.choice((b"a", b"../b"))) for it in range(source.randrange(3))]
    entries.sort(key=lambda line: int(line.split(b" ")[0]))
    return b"\n".join([b"uring-report 2", *entries, others[0], *links, *others[1:], b""])


def risen(report: bytes) -> bytes:
    """A report in which each entry that does not rise is left out."""
    lines, last = [], -1
    for line in report.split(b"\n"):
        word = line.split(b" ")[0]
        if not word.isdigit() or int(word) > last:
            last = int(word) if word.isdigit() else last
            lines.append(line)
    return b"\n".join(lines)


def two_reports_by_places(seed: int) -> bytes:
    """The same in version 2, mostly with places that rise. One in eight pairs has its first report in version 1."""
    source = random.Random("reports by places {}".format(seed))
    seeds, texts = (seed, seed if source.randrange(4) else seed + 1), []
    for it in seeds:
        report = model.report(Draw(it).trace(), source.randrange(2) > 0)
        made = report if not texts and source.randrange(8) == 0 else by_places(source, report)
        made = report_changed(source, made)
        texts.append(made if source.randrange(4) == 0 else risen(made))
    return b"".join(texts)
