"""What a trace gives, by docs/PROFILE.md and docs/FORMAT.md alone: a second replayer, that runs one step after another."""
import hashlib
import struct
from typing import Dict, Iterator, List, NamedTuple, Optional, Sequence, Set, Tuple, Union

from traces import AT_FDCWD, CLOSE, FALLOCATE, FIXED_FILE, FSYNC, FTRUNCATE, GREATEST_SIZE, HARDLINK, LINK, LINKAT, MKDIRAT, NOP, OPENAT, READ
from traces import BUFFER_SELECT, DRAIN, FADVISE, GREATEST_BUFFER, READ_FIXED, READV, RENAMEAT, SKIP, STATX, SYNC_FILE_RANGE, UNLINKAT, WRITE, WRITE_FIXED, WRITEV

EPERM, ENOENT, EBADF, EFAULT, EEXIST, ENOTDIR, EISDIR = 1, 2, 9, 14, 17, 20, 21
EINVAL, EMFILE, EFBIG, ENAMETOOLONG, ENOTEMPTY, EOPNOTSUPP, ECANCELED = 22, 24, 27, 36, 39, 95, 125
CREAT, EXCL, TRUNC, APPEND, A_DIRECTORY, CLOEXEC, KNOWN = 0x40, 0x80, 0x200, 0x400, 0x10000, 0x80000, 0x1FDFC3
READS, WRITES = (READV, READ_FIXED, READ), (WRITEV, WRITE_FIXED, WRITE)
ADVICE = (SYNC_FILE_RANGE, FADVISE)
OF_VERSION_3 = (*ADVICE, STATX)
EMPTY_PATH, STATX_FLAGS, BOTH_SYNCS = 0x1000, 0x7900, 0x6000
MOST_MOVED, AT_POSITION, HALF, LAST = 0x7FFFF000, (1 << 64) - 1, 1 << 63, (1 << 32) - 1
PAGE, SHOWN, MOST_SUMMED = 4096, 32, 1 << 24
MOST_ITEMS, MOST_RINGS, MOST_PLACES, MOST_OF_TABLE, MOST_OF_RECORD = 65_535, 64, 1_048_576, 1_024, 32_768


class Failed(Exception):
    """An operation that gives an error number."""

    def __init__(self, errno: int) -> None:
        super().__init__(errno)
        self.errno = errno


class Refused(Exception):
    """A trace that is none: the kind of the fault, and the byte at which it is."""

    def __init__(self, kind: str, at: int) -> None:
        super().__init__("{} at {}".format(kind, at))


def need(holds: bool, errno: int) -> None:
    if not holds:
        raise Failed(errno)


def within(holds: bool, kind: str, at: int) -> None:
    if not holds:
        raise Refused(kind, at)


class Bytes:
    """A list of bytes, of which pages that were never written are zeros."""

    def __init__(self, size: int, stored: bytes = b"") -> None:
        self.size = size
        self.pages: Dict[int, bytearray] = {}
        self.put(0, stored)

    def get(self, at: int, count: int) -> bytes:
        out = bytearray(count)
        for number in range(at // PAGE, -(-(at + count) // PAGE)):
            if number in self.pages:
                low, high = max(at, number * PAGE), min(at + count, number * PAGE + PAGE)
                out[low - at : high - at] = self.pages[number][low - number * PAGE : high - number * PAGE]
        return bytes(out)

    def put(self, at: int, data: bytes) -> None:
        self.size = max(self.size, at + len(data))
        for number in range(at // PAGE, -(-(at + len(data)) // PAGE)):
            low, high = max(at, number * PAGE), min(at + len(data), number * PAGE + PAGE)
            self.pages.setdefault(number, bytearray(PAGE))[low - number * PAGE : high - number * PAGE] = data[low - at : high - at]

    def zero(self, low: int, high: int) -> None:
        for number in [it for it in self.pages if low < high and it * PAGE < high and low < it * PAGE + PAGE]:
            first, end = max(low - number * PAGE, 0), min(high - number * PAGE, PAGE)
            self.pages[number][first:end] = bytes(end - first)

    def resize(self, size: int) -> None:
        self.zero(size, self.size)
        self.size = size

    def copy(self, at: int, other: "Bytes", low: int, count: int) -> None:
        """Puts bytes of another list, of which only the pages that it has are looked at."""
        pieces = [(max(low, it * PAGE), min(low + count, it * PAGE + PAGE)) for it in other.pages if it * PAGE < low + count and low < it * PAGE + PAGE]
        taken = [(first - low, other.get(first, end - first)) for first, end in pieces]
        self.zero(at, min(at + count, self.size))
        self.size = max(self.size, at + count)
        for behind, data in taken:
            self.put(at + behind, data)

    def sum(self) -> str:
        return hashlib.sha256(self.get(0, self.size)).hexdigest()


Node = Union[Bytes, Dict[bytes, int]]


class Description:
    def __init__(self, node: int, access: int, append: int, position: int) -> None:
        self.node, self.access, self.append, self.position = node, access, bool(append), position


class Given(NamedTuple):
    """A result that stands in the trace, whether it fails, and whether it is the answer of the entry's tests by itself."""

    result: int
    fails: bool
    is_refused: bool = False


class Entry(NamedTuple):
    """The fields of an entry and its side bytes, without those that are written where `is_zeros` says that they are zeros."""

    opcode: int
    flags: int
    fd: int
    offset: int
    address: int
    length: int
    own_flags: int
    user_data: int
    buffer: int
    personality: int
    file_index: int
    side: bytes
    is_zeros: bool
    given: Optional[Given] = None

    def vectors(self) -> List[int]:
        return list(struct.unpack_from("<{}Q".format(self.length), self.side))

    def paths(self) -> List[bytes]:
        if self.opcode not in (RENAMEAT, LINKAT):
            return [self.side]
        end = 2 + struct.unpack_from("<H", self.side)[0]
        return [self.side[2:end], self.side[end:]]

    def has_no_path(self) -> bool:
        """Whether it is of what is open at its descriptor, as a STATX with an empty path may be."""
        return self.opcode == STATX and not self.side and bool(self.own_flags & EMPTY_PATH)

    def has_side(self, version: int) -> bool:
        """Whether its side bytes are such as it has in a version."""
        count = len(self.side)
        if self.opcode in (RENAMEAT, LINKAT):
            return count >= 2 and count >= 2 + struct.unpack_from("<H", self.side)[0] and 0 not in self.side[2:]
        if self.opcode in (OPENAT, UNLINKAT, MKDIRAT) or version == 3 and self.opcode == STATX:
            return 0 not in self.side
        return self.has_count(count)

    def has_count(self, count: int) -> bool:
        """Whether a transfer has so many side bytes, of which all behind the lengths of its vectors may be left out."""
        if self.opcode in (READV, WRITEV):
            vectors = self.lengths()
            total = sum(self.vectors()) if vectors and vectors <= len(self.side) else 0
            return count == vectors + (min(total, MOST_MOVED) if self.opcode == WRITEV and total < HALF else 0)
        return count == (min(self.length, MOST_MOVED) if self.opcode == WRITE else 0)

    def lengths(self) -> int:
        """How many bytes the lengths of its vectors have."""
        return 8 * self.length if self.opcode in (READV, WRITEV) and self.length <= 1024 else 0

    def asked(self) -> int:
        """How many bytes a transfer asks for."""
        return min(sum(self.vectors()) if self.opcode in (READV, WRITEV) else self.length, MOST_MOVED)

    def written(self) -> bytes:
        return self.side[8 * self.length :] if self.opcode == WRITEV else self.side


def entry_of(fields: bytes, side: bytes, is_zeros: bool = False) -> Entry:
    opcode, flags, _, fd, offset, address, length, own, user, buffer, personality, index, _, _ = struct.unpack("<BBHiQQIIQHHIQQ", fields)
    return Entry(opcode, flags, fd, offset, address, length, own, user, buffer, personality, index, side, is_zeros)


class Fill(NamedTuple):
    buffer: int
    offset: int
    data: Bytes


class Holder(NamedTuple):
    """What a slot of a new ring gets: what a slot of a ring holds, or a descriptor, or a description of the start."""

    what: int
    ring: int
    number: int


SLOT, DESCRIPTOR, DESCRIPTION = 0, 1, 2


class NewRing(NamedTuple):
    """What the full slots of a new ring get."""

    full: Sequence[Tuple[int, Holder]]


# What a slot or a descriptor holds once a record said so.
NOTHING, OF_PATH, COPY, TAKEN = range(4)


class Setting(NamedTuple):
    """What a slot or a descriptor holds from there on: nothing, a new description of a path at a position, what another one holds, or what is no file."""

    file: Holder
    what: int
    source: Optional[Holder] = None
    flags: int = 0
    position: int = 0
    path: bytes = b""


class Seek(NamedTuple):
    """The position of what a slot or a descriptor holds."""

    file: Holder
    position: int


class Reply(NamedTuple):
    result: int
    posted: bool
    data: Optional[bytes] = None
    moved: int = 0


Answer = Tuple[int, Optional[bytes]]
Step = Union[Entry, Fill, NewRing, Setting, Seek]


class Chain:
    """Steps of a ring that are linked, by its number; the place of the first of them, the errors of their tests by themselves, and the
    queue of the ring."""

    def __init__(self, number: int, first: int, ring: int, steps: Sequence[Step], faults: Sequence[int] = (), queue: Optional[int] = None) -> None:
        self.number, self.first, self.ring, self.steps, self.faults = number, first, ring, steps, faults
        self.queue = ring if queue is None else queue
        self.is_doomed = any(faults)
        self.is_drained = any(it.flags & DRAIN for it in steps if isinstance(it, Entry))
        # The member that broke it.
        self.broken: Optional[Entry] = None


class Reader:
    """A trace's bytes, field by field. A field is at the byte `at` once it has been read."""

    def __init__(self, text: bytes) -> None:
        self.text, self.at, self.next = text, 0, 0

    def take(self, count: int) -> bytes:
        within(self.next + count <= len(self.text), "Short", len(self.text))
        self.at, self.next = self.next, self.next + count
        return self.text[self.at : self.next]

    def field(self, form: str) -> int:
        return struct.unpack("<" + form, self.take(struct.calcsize("<" + form)))[0]

    def number(self, form: str, most: int, least: int = 0, kind: str = "Limit") -> int:
        """A number that lies between two others."""
        number = self.field(form)
        within(least <= number <= most, kind, self.at)
        return number


class World:
    """What a trace of version 1 or 2 starts with, and its chains; and what becomes of it as they run."""

    def __init__(self, text: bytes) -> None:
        source = Reader(text)
        within(source.take(8) == b"URINGTRC", "Magic", 0)
        self.version = source.number("I", 2, 1, "Version")
        self.items, self.described = source.number("I", MOST_ITEMS), source.number("I", MOST_ITEMS)
        rings, records = source.number("I", MOST_RINGS), source.number("I", MOST_PLACES)
        table = source.number("I", MOST_OF_TABLE if self.version == 2 else 0)
        self.read_start(source)
        self.table = self.handles(source, table)
        for _ in range(rings):
            self.slots.append(self.handles(source, source.number("H", 1024)))
            self.buffers.append([])
            for _ in range(source.number("H", 1024)):
                self.add_buffer(source)
        for _ in range(records):
            self.add_record(source)
        within(source.next == len(text), "Trailing", source.next)

    def read_start(self, source: Reader) -> None:
        """Items and descriptions, of which there are `items` and `described`."""
        self.nodes: Dict[int, Node] = {0: {}}
        self.item_paths = {0: b"/"}
        for item in range(1, self.items + 1):
            self.add_item(source, item)
        self.descriptions = {it: self.description(source) for it in range(self.described)}
        self.slots: List[List[Optional[int]]] = []
        self.buffers: List[List[Tuple[int, Bytes]]] = []
        # Rings that end in the trace.
        self.ended: Set[int] = set()
        self.places = 0
        self.chains: List[Chain] = []

    def handles(self, source: Reader, count: int) -> List[Optional[int]]:
        numbers = (source.number("I", self.described, 0, "Reference") for _ in range(count))
        return [number - 1 if number else None for number in numbers]

    def add_item(self, source: Reader, item: int) -> None:
        kind = source.number("B", 3, 1)
        path, at = source.take(source.field("H")), source.at
        names = path.split(b"/")
        is_spelled = names[0] == b"" and len(names) > 1 and len(path) <= 4095 and 0 not in path
        within(is_spelled and all(0 < len(it) <= 255 and it not in (b".", b"..") for it in names[1:]), "Path", at)
        try:
            parent, name, found = self.walk(path)
        except Failed:
            raise Refused("NoParent", at) from None
        within(found is None, "Exists", at)
        number = item
        self.item_paths[item] = path
        if kind == 1:
            self.nodes[item] = {}
        elif kind == 2:
            self.nodes[item] = self.file(source)
        else:
            number = source.field("I")
            within(isinstance(self.nodes.get(number), Bytes), "Reference", source.at)
        parent[name] = number

    def file(self, source: Reader) -> Bytes:
        size = source.number("Q", GREATEST_SIZE)
        return Bytes(size, source.take(source.number("I", size)))

    def description(self, source: Reader) -> Description:
        node = source.field("I")
        within(node in self.nodes, "Reference", source.at)
        access = source.number("B", 0 if self.is_directory(node) else 2)
        append = source.number("B", 1)
        return Description(node, access, append, source.number("Q", HALF - 1))

    def add_buffer(self, source: Reader) -> None:
        address = source.field("Q")
        at = source.at
        length = source.number("I", GREATEST_BUFFER)
        within(address + length <= AT_POSITION, "Limit", source.at)
        apart = (held.size == 0 or address + length <= other or other + held.size <= address for other, held in self.buffers[-1])
        within(length == 0 or all(apart), "Overlap", at)
        self.buffers[-1].append((address, Bytes(length)))

    def add_record(self, source: Reader) -> None:
        """The chains of a record; a fill is one of its own."""
        kind = source.number("B", 2, 1)
        within(kind == 1 or self.places < MOST_PLACES, "Limit", source.at)
        ring = source.field("B")
        within(ring < len(self.slots), "Reference", source.at)
        if kind == 2:
            self.chains.append(Chain(len(self.chains), self.places, ring, [self.fill(source, ring)]))
            self.places += 1
            return
        count = source.number("H", MOST_OF_RECORD)
        within(self.places + count <= MOST_PLACES, "Limit", source.at)
        self.add_chains(ring, (self.entry(source) for _ in range(count)), count)

    def add_chains(self, ring: int, entries: Iterator[Entry], count: int, queue: Optional[int] = None) -> None:
        """The chains of a record of so many entries."""
        members: List[Entry] = []
        for number, entry in enumerate(entries, 1):
            members.append(entry)
            if number == count or not entry.flags & (LINK | HARDLINK):
                self.chains.append(Chain(len(self.chains), self.places, ring, members, [fault(self.version, it) for it in members], queue))
                self.places += len(members)
                members = []

    def fill(self, source: Reader, ring: int) -> Fill:
        buffer = source.field("H")
        within(buffer < len(self.buffers[ring]), "Reference", source.at)
        offset = source.field("I")
        at = source.at
        count = source.field("I")
        within(offset + count <= self.buffers[ring][buffer][1].size, "Reference", at)
        return Fill(buffer, offset, Bytes(count, source.take(count)))

    @staticmethod
    def entry(source: Reader) -> Entry:
        fields, count = source.take(64), source.field("I")
        at = source.at
        entry = entry_of(fields, source.take(count))
        within(entry.has_side(2), "Side", at)
        return entry

    # Names.

    def walk(self, path: bytes) -> Tuple[Dict[bytes, int], bytes, Optional[int]]:
        """The directory of a path's last name, that name, and the node that it names."""
        *above, last = [it for it in path.split(b"/") if it]
        at = 0
        for name in above:
            need(len(name) <= 255, ENAMETOOLONG)
            need(name in self.directory(at), ENOENT)
            at = self.directory(at)[name]
            need(isinstance(self.nodes[at], dict), ENOTDIR)
        need(len(last) <= 255, ENAMETOOLONG)
        return self.directory(at), last, self.directory(at).get(last)

    def walk_from(self, fd: int, path: bytes) -> Tuple[Dict[bytes, int], bytes, Optional[int]]:
        need(path.startswith(b"/") or fd == AT_FDCWD, EBADF)
        return self.walk(path)

    def directory(self, number: int) -> Dict[bytes, int]:
        node = self.nodes[number]
        assert isinstance(node, dict)
        return node

    def is_directory(self, number: int) -> bool:
        return isinstance(self.nodes[number], dict)

    def is_above(self, number: int, directory: Dict[bytes, int]) -> bool:
        """Whether a node is this directory, or one above it."""
        node = self.nodes[number]
        return node is directory or isinstance(node, dict) and any(self.is_above(it, directory) for it in node.values())

    # Open files.

    def held_by(self, holder: Holder) -> Optional[int]:
        """The number of the description that a slot, a descriptor or the start has."""
        if holder.what == DESCRIPTION:
            return holder.number
        return self.handles_with(holder)[holder.number]

    def handles_with(self, holder: Holder) -> List[Optional[int]]:
        """The slots of a ring, or the descriptors, of which one is meant."""
        return self.slots[holder.ring] if holder.what == SLOT else self.table

    def set_held(self, place: int, step: Setting) -> None:
        """A slot or a descriptor holds something else."""
        handles, number = self.handles_with(step.file), step.file.number
        made = self.described + place
        if step.what == COPY:
            handles[number] = self.held_by(step.source)
        elif step.what == TAKEN:
            self.descriptions[made] = Description(0, 0, 0, 0)
            handles[number] = made
        else:
            handles[number] = None
        if step.what == OF_PATH:
            going = self.opening(place, handles, number, AT_FDCWD, step.path, step.flags)
            try:
                next(going)
            except Failed:
                return
            next(going, None)
            self.descriptions[made].position = step.position

    def seek(self, step: Seek) -> None:
        """What a slot or a descriptor holds gets a position, where it holds something."""
        number = self.held_by(step.file)
        if number is not None:
            self.descriptions[number].position = step.position

    def held(self, ring: int, entry: Entry) -> Optional[int]:
        """The number of the description to which `fd` leads."""
        handles = self.slots[ring] if entry.flags & FIXED_FILE else self.table
        number = entry.fd & LAST
        return handles[number] if number < len(handles) else None

    def open_file(self, ring: int, entry: Entry) -> Description:
        number = self.held(ring, entry)
        need(number is not None, EBADF)
        return self.descriptions[number]

    def buffer_of(self, ring: int, entry: Entry) -> Tuple[Bytes, int]:
        """The buffer of a fixed transfer, and where in it the transfer is."""
        need(entry.buffer < len(self.buffers[ring]), EFAULT)
        address, held = self.buffers[ring][entry.buffer]
        need(held.size > 0 and address <= entry.address and entry.address + entry.length <= address + held.size, EFAULT)
        return held, entry.address - address

    # Operations: each is Failed, or gives its result and its data, and changes the world only where it is asked to go on.

    def run(self, place: int, ring: int, entry: Entry) -> Answer:
        going = self.operation(place, ring, entry)
        answer = next(going)
        next(going, None)
        return answer

    def fails(self, place: int, ring: int, entry: Entry) -> bool:
        """Whether an operation would give an error; the world stays as it is."""
        try:
            next(self.operation(place, ring, entry))
        except Failed:
            return True
        return False

    def operation(self, place: int, ring: int, entry: Entry) -> Iterator[Answer]:
        operations = {NOP: self.nothing, FSYNC: self.sync, SYNC_FILE_RANGE: self.sync_range, FADVISE: self.advise, FALLOCATE: self.allocate, FTRUNCATE: self.truncate, OPENAT: self.open_at, CLOSE: self.close,
                      UNLINKAT: self.unlink, STATX: self.stat, MKDIRAT: self.make_directory, LINKAT: self.link, RENAMEAT: self.rename,
                      **dict.fromkeys(READS, self.read), **dict.fromkeys(WRITES, self.write)}
        return operations[entry.opcode](place, ring, entry)

    def nothing(self, place: int, ring: int, entry: Entry) -> Iterator[Answer]:
        yield 0, None

    def sync(self, place: int, ring: int, entry: Entry) -> Iterator[Answer]:
        self.open_file(ring, entry)
        yield 0, None

    def sync_range(self, place: int, ring: int, entry: Entry) -> Iterator[Answer]:
        self.open_file(ring, entry)
        need(entry.own_flags <= 7, EINVAL)
        need(entry.offset < HALF and entry.offset + entry.length < HALF, EINVAL)
        yield 0, None

    def advise(self, place: int, ring: int, entry: Entry) -> Iterator[Answer]:
        self.open_file(ring, entry)
        need((entry.address or entry.length) < HALF, EINVAL)
        need(entry.own_flags <= 5, EINVAL)
        yield 0, None

    def stat(self, place: int, ring: int, entry: Entry) -> Iterator[Answer]:
        if entry.has_no_path():
            found = 0 if entry.fd == AT_FDCWD else self.open_file(ring, entry).node
        else:
            found = self.walk_from(entry.fd, entry.side)[2]
            need(found is not None, ENOENT)
        node = self.nodes[found]
        yield 0, struct.pack("<BQ", 2, node.size) if isinstance(node, Bytes) else struct.pack("<BQ", 1, 0)

    def read(self, place: int, ring: int, entry: Entry) -> Iterator[Answer]:
        description = self.open_file(ring, entry)
        need(description.access != 1, EBADF)
        node = self.nodes[description.node]
        need(not isinstance(node, dict), EISDIR)
        target = self.buffer_of(ring, entry) if entry.opcode == READ_FIXED else None
        need(entry.offset < HALF or entry.offset == AT_POSITION, EINVAL)
        start = description.position if entry.offset == AT_POSITION else entry.offset
        moved = max(0, min(entry.asked(), node.size - start))
        yield moved, None if target else node.get(start, min(moved, SHOWN))
        if entry.offset == AT_POSITION and moved:
            description.position = start + moved
        if target:
            target[0].copy(target[1], node, start, moved)

    def write(self, place: int, ring: int, entry: Entry) -> Iterator[Answer]:
        description = self.open_file(ring, entry)
        need(description.access != 0, EBADF)
        node = self.nodes[description.node]
        source = self.buffer_of(ring, entry) if entry.opcode == WRITE_FIXED else (Bytes(entry.asked()), 0) if entry.is_zeros else None
        need(entry.offset < HALF or entry.offset == AT_POSITION, EINVAL)
        start = node.size if description.append else description.position if entry.offset == AT_POSITION else entry.offset
        need(start < GREATEST_SIZE or not entry.asked(), EFBIG)
        moved = max(0, min(entry.asked(), GREATEST_SIZE - start))
        yield moved, None
        if not moved:
            return
        if source:
            node.copy(start, source[0], source[1], moved)
        else:
            node.put(start, entry.written()[:moved])
        if entry.offset == AT_POSITION:
            description.position = start + moved

    def allocate(self, place: int, ring: int, entry: Entry) -> Iterator[Answer]:
        description = self.open_file(ring, entry)
        offset, length, mode = entry.offset, entry.address, entry.length
        need(offset < HALF and 0 < length < HALF, EINVAL)
        need(mode in (0, 1, 3, 0x10, 0x11), EOPNOTSUPP)
        need(description.access != 0, EBADF)
        need(offset + length <= GREATEST_SIZE, EFBIG)
        node = self.nodes[description.node]
        yield 0, None
        if mode in (3, 0x10, 0x11):
            node.zero(offset, min(offset + length, node.size))
        if mode in (0, 0x10):
            node.resize(max(node.size, offset + length))

    def truncate(self, place: int, ring: int, entry: Entry) -> Iterator[Answer]:
        description = self.open_file(ring, entry)
        need(entry.offset < HALF, EINVAL)
        need(description.access != 0, EINVAL)
        need(entry.offset <= GREATEST_SIZE, EFBIG)
        yield 0, None
        self.nodes[description.node].resize(entry.offset)

    def open_at(self, place: int, ring: int, entry: Entry) -> Iterator[Answer]:
        handles, number = self.room(ring, entry)
        going = self.opening(place, handles, number, entry.fd, entry.side, entry.own_flags)
        next(going)
        yield 0 if entry.file_index else number, None
        next(going, None)

    def opening(self, place: int, handles: List[Optional[int]], number: int, fd: int, path: bytes, flags: int) -> Iterator[None]:
        """Opens a path where a description of it is to be held: is Failed, or changes the world only where it is asked to go on."""
        access = flags & 3
        parent, name, found = self.walk_from(fd, path)
        node = self.items + 1 + place if found is None else found
        is_directory = found is not None and self.is_directory(found)
        need(found is not None or bool(flags & CREAT), ENOENT)
        need(found is None or not (flags & CREAT and flags & EXCL), EEXIST)
        need(not is_directory or not flags & (CREAT | TRUNC) and access == 0, EISDIR)
        need(found is None or is_directory or not flags & A_DIRECTORY, ENOTDIR)
        yield
        if found is None:
            self.nodes[node] = Bytes(0)
            parent[name] = node
        elif flags & TRUNC:
            self.nodes[node].resize(0)
        self.descriptions[self.described + place] = Description(node, access, flags & APPEND, 0)
        handles[number] = self.described + place

    def room(self, ring: int, entry: Entry) -> Tuple[List[Optional[int]], int]:
        """The slot that is asked for, or the lowest free descriptor."""
        if entry.file_index:
            need(entry.file_index <= len(self.slots[ring]), EINVAL)
            return self.slots[ring], entry.file_index - 1
        need(None in self.table, EMFILE)
        return self.table, self.table.index(None)

    def close(self, place: int, ring: int, entry: Entry) -> Iterator[Answer]:
        handles, number = self.table, entry.fd & LAST
        if entry.file_index:
            need(entry.file_index <= len(self.slots[ring]), EINVAL)
            handles, number = self.slots[ring], entry.file_index - 1
        need(number < len(handles) and handles[number] is not None, EBADF)
        yield 0, None
        handles[number] = None

    def unlink(self, place: int, ring: int, entry: Entry) -> Iterator[Answer]:
        parent, name, found = self.walk_from(entry.fd, entry.side)
        need(found is not None, ENOENT)
        if entry.own_flags:
            need(self.is_directory(found), ENOTDIR)
            need(not self.nodes[found], ENOTEMPTY)
        else:
            need(not self.is_directory(found), EISDIR)
        yield 0, None
        del parent[name]

    def make_directory(self, place: int, ring: int, entry: Entry) -> Iterator[Answer]:
        parent, name, found = self.walk_from(entry.fd, entry.side)
        need(found is None, EEXIST)
        yield 0, None
        self.nodes[self.items + 1 + place] = {}
        parent[name] = self.items + 1 + place

    def link(self, place: int, ring: int, entry: Entry) -> Iterator[Answer]:
        (_, _, old), (parent, name, new) = self.both_walks(entry)
        need(old is not None, ENOENT)
        need(new is None, EEXIST)
        need(not self.is_directory(old), EPERM)
        yield 0, None
        parent[name] = old

    def both_walks(self, entry: Entry) -> List[Tuple[Dict[bytes, int], bytes, Optional[int]]]:
        new_directory = entry.length - (1 << 32) if entry.length >> 31 else entry.length
        return [self.walk_from(fd, path) for fd, path in zip((entry.fd, new_directory), entry.paths())]

    def rename(self, place: int, ring: int, entry: Entry) -> Iterator[Answer]:
        (from_parent, from_name, old), (parent, name, new) = self.both_walks(entry)
        need(old is not None, ENOENT)
        if entry.own_flags == 2:
            need(new is not None, ENOENT)
            need(not self.is_above(old, parent) and not self.is_above(new, from_parent), EINVAL)
            yield 0, None
            from_parent[from_name], parent[name] = new, old
            return
        need(new is None or entry.own_flags != 1, EEXIST)
        need(not self.is_above(old, parent), EINVAL)
        if new is not None and new != old:
            need(not self.is_directory(old) or self.is_directory(new), ENOTDIR)
            need(self.is_directory(old) or not self.is_directory(new), EISDIR)
            need(not self.is_directory(old) or not self.nodes[new], ENOTEMPTY)
        yield 0, None
        if old != new:
            del from_parent[from_name]
            parent[name] = old

    # The report.

    def paths(self, number: int = 0, above: bytes = b"") -> Iterator[Tuple[bytes, int]]:
        for name, node in self.directory(number).items():
            yield above + b"/" + name, node
            if self.is_directory(node):
                yield from self.paths(node, above + b"/" + name)

    def tree_line(self, path: bytes, number: int, has_sums: bool) -> str:
        shown, node = visible(path), self.nodes[number]
        if isinstance(node, dict):
            return "dir {}".format(shown)
        line = "file {} node={} size={}".format(shown, number, node.size)
        return "{} sum={}".format(line, node.sum() if node.size <= MOST_SUMMED else "large") if has_sums else line

    def handle_lines(self, what: str, handles: List[Optional[int]]) -> Iterator[str]:
        for number, description in enumerate(handles):
            if description is not None:
                held = self.descriptions[description]
                yield "{} {} desc={} node={} pos={}".format(what, number, description, held.node, held.position)

    def buffer_lines(self, has_sums: bool) -> Iterator[str]:
        for ring, buffers in enumerate(self.buffers):
            for index, (_, held) in enumerate(buffers):
                if held.size and ring not in self.ended:
                    line = "buffer {} {} len={}".format(ring, index, held.size)
                    yield "{} sum={}".format(line, held.sum()) if has_sums else line


def fault(version: int, entry: Entry) -> int:
    """The error of an entry's tests by itself, or 0."""
    if entry.given:
        return -entry.given.result if entry.given.is_refused else 0
    try:
        test(version, entry)
    except Failed as failed:
        return failed.errno
    return 0


def test(version: int, entry: Entry) -> None:
    opcode, own = entry.opcode, entry.own_flags
    names, named = (OPENAT, RENAMEAT, UNLINKAT, MKDIRAT, LINKAT), (NOP, FSYNC, FALLOCATE, FTRUNCATE, CLOSE)
    need(opcode in (*READS, *WRITES, *names, *named) or version == 3 and opcode in OF_VERSION_3, EINVAL)
    need(not entry.flags & 128 and entry.personality == 0, EINVAL)
    need(not entry.flags & BUFFER_SELECT, EOPNOTSUPP)
    if opcode in (*READS, *WRITES):
        need(not own & ~(6 if version == 3 else 0), EOPNOTSUPP)
        if opcode in (READV, WRITEV):
            need(entry.length <= 1024 and sum(entry.vectors()) < HALF, EINVAL)
    need(opcode != FSYNC or own in (0, 1), EINVAL)
    need(opcode not in (*names, STATX, CLOSE) or not entry.flags & FIXED_FILE, EBADF)
    if opcode == STATX:
        need(entry.length < 1 << 31 and not own & ~STATX_FLAGS and own & BOTH_SYNCS != BOTH_SYNCS, EINVAL)
    if opcode == OPENAT:
        need(are_open_flags(own, entry.file_index), EINVAL)
    if opcode == CLOSE:
        need(not (entry.file_index and entry.fd) and entry.file_index != LAST, EINVAL)
    allowed = {RENAMEAT: (0, 1) if version == 1 else (0, 1, 2), UNLINKAT: (0, 0x200), LINKAT: (0, 0x400)}
    need(opcode not in allowed or own in allowed[opcode], EINVAL)
    for path in entry.paths() if opcode in (*names, STATX) and not entry.has_no_path() else ():
        test_path(path)


def are_open_flags(flags: int, index: int) -> bool:
    """Whether OPENAT takes these flags with this file index."""
    is_known = flags & 3 != 3 and not flags & ~KNOWN and not (flags & CREAT and flags & A_DIRECTORY)
    return is_known and not (flags & CLOEXEC and index) and index != LAST


def test_path(path: bytes) -> None:
    """The tests of a path of a call."""
    need(path != b"", ENOENT)
    need(len(path) <= 4095, ENAMETOOLONG)
    need(not path.endswith(b"/") and not {b".", b".."} & set(path.split(b"/")), EINVAL)


def is_call_path(path: bytes) -> bool:
    """Whether a path passes these, and has no zero byte."""
    try:
        test_path(path)
    except Failed:
        return False
    return 0 not in path


def run_step(world: World, chain: Chain, at: int) -> Reply:
    """Runs a step of a chain of which those before it have run."""
    step = chain.steps[at]
    if isinstance(step, Fill):
        world.buffers[chain.ring][step.buffer][1].copy(step.offset, step.data, 0, step.data.size)
        return Reply(0, False)
    if isinstance(step, NewRing):
        for number, holder in step.full:
            world.slots[chain.ring][number] = world.held_by(holder)
        return Reply(0, False)
    if isinstance(step, (Setting, Seek)):
        world.set_held(chain.first + at, step) if isinstance(step, Setting) else world.seek(step)
        return Reply(0, False)
    if chain.is_doomed:
        return Reply(-(chain.faults[at] or ECANCELED), at == 0 or not chain.steps[0].flags & SKIP)
    if chain.broken:
        return Reply(-ECANCELED, not chain.broken.flags & SKIP)
    result, data, has_failed = run_entry(world, chain.first + at, chain.ring, step)
    if has_failed and not step.flags & HARDLINK and at + 1 < len(chain.steps):
        chain.broken = step
    return Reply(result, has_failed or not step.flags & SKIP, data, max(result, 0))


def run_entry(world: World, place: int, ring: int, entry: Entry) -> Tuple[int, Optional[bytes], bool]:
    """Runs an entry, and gives its result, its data and whether it fails."""
    if entry.given:
        return entry.given.result, None, entry.given.fails
    try:
        result, data = world.run(place, ring, entry)
    except Failed as failed:
        result, data = -failed.errno, None
    return result, data, result != entry.asked() if entry.opcode in (*READS, *WRITES) else result < 0


def visible(text: bytes) -> str:
    """The bytes of a path or a name, with others than visible characters as numbers."""
    return "".join(chr(it) if 0x21 <= it <= 0x7E and it != 0x5C else "\\x{:02x}".format(it) for it in text)


def report(text: bytes, has_sums: bool = True) -> bytes:
    """The report of a trace of version 1 or 2; or it is Refused."""
    return report_by_turns(World(text), has_sums)


def replies_by_turns(world: World) -> Dict[int, Reply]:
    """The replies of a world where no place has run, which run now one after another."""
    return {chain.first + at: run_step(world, chain, at) for chain in world.chains for at in range(len(chain.steps))}


def report_by_turns(world: World, has_sums: bool) -> bytes:
    """The report of a world where no place has run."""
    return report_of(world, replies_by_turns(world), has_sums)


def report_of(world: World, replies: Dict[int, Reply], has_sums: bool) -> bytes:
    """The report of a world in which every place has run, and of their replies."""
    whole = lines_in_order(world, replies) if world.version == 3 else lines_by_ring(world, replies)
    whole += ["tree", *(world.tree_line(path, node, has_sums) for path, node in sorted(world.paths()))]
    slots = ((ring, handles) for ring, handles in enumerate(world.slots) if ring not in world.ended)
    whole += ["slots", *(line for ring, handles in slots for line in world.handle_lines("slot {}".format(ring), handles))]
    whole += [*world.handle_lines("descriptor", world.table), "buffers", *world.buffer_lines(has_sums), "end", ""]
    return "\n".join(whole).encode()


def facts_of(entry: Entry, reply: Reply) -> str:
    """What is told of an entry behind its place, and the ring where that is told."""
    shown = " data={}{}".format(reply.data.hex(), "+" if reply.moved > SHOWN else "") if reply.data else ""
    return "user={} res={} {}{}{}".format(entry.user_data, reply.result, "posted" if reply.posted else "silent", shown, " given=1" if entry.given else "")


def entries_of(world: World) -> Iterator[Tuple[int, int, Entry]]:
    """Each entry, behind its place and its ring."""
    for chain in world.chains:
        yield from ((place, chain.ring, step) for place, step in enumerate(chain.steps, chain.first) if isinstance(step, Entry))


def lines_by_ring(world: World, replies: Dict[int, Reply]) -> List[str]:
    lines = [["ring {}".format(ring)] for ring in range(len(world.slots))]
    for place, ring, entry in entries_of(world):
        lines[ring].append("{} {}".format(place, facts_of(entry, replies[place])))
    return ["uring-report 1", *(line for its in lines for line in its)]


def lines_in_order(world: World, replies: Dict[int, Reply]) -> List[str]:
    lines = ("{} ring={} {}".format(place, ring, facts_of(entry, replies[place])) for place, ring, entry in entries_of(world))
    return ["uring-report 2", *lines]
