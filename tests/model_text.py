"""The text of a trace by docs/TEXT.md alone: a second `show`. model_make.py is the way back."""
import re
import struct
from typing import Callable, Dict, Iterator, List, NamedTuple, Optional, Sequence, Tuple

from traces import ENTRY, LINKAT, MKDIRAT, OPENAT, READV, RENAMEAT, UNLINKAT, WRITE, WRITEV

# The names of the operations by their numbers.
OPERATIONS = """NOP READV WRITEV FSYNC READ_FIXED WRITE_FIXED POLL_ADD POLL_REMOVE SYNC_FILE_RANGE SENDMSG RECVMSG TIMEOUT TIMEOUT_REMOVE ACCEPT
ASYNC_CANCEL LINK_TIMEOUT CONNECT FALLOCATE OPENAT CLOSE FILES_UPDATE STATX READ WRITE FADVISE MADVISE SEND RECV OPENAT2 EPOLL_CTL SPLICE
PROVIDE_BUFFERS REMOVE_BUFFERS TEE SHUTDOWN RENAMEAT UNLINKAT MKDIRAT SYMLINKAT LINKAT MSG_RING FSETXATTR SETXATTR FGETXATTR GETXATTR SOCKET
URING_CMD SEND_ZC SENDMSG_ZC READ_MULTISHOT WAITID FUTEX_WAIT FUTEX_WAKE FUTEX_WAITV FIXED_FD_INSTALL FTRUNCATE BIND LISTEN RECV_ZC EPOLL_WAIT
READV_FIXED WRITEV_FIXED PIPE""".split()
ENTRY_FLAGS = "FIXED_FILE IO_DRAIN IO_LINK IO_HARDLINK ASYNC BUFFER_SELECT CQE_SKIP_SUCCESS 0x80".split()
# The fields of an entry in the order of its bytes, and how many bits each has; and the order of their words.
KEYS = "opcode flags ioprio fd off addr len op_flags user_data buf_index personality file_index addr3 pad".split()
BITS = dict(zip(KEYS, (8, 8, 16, 32, 64, 64, 32, 32, 64, 16, 16, 32, 64, 64)))
ORDER = "fd off addr len op_flags buf_index file_index ioprio personality addr3 pad user_data".split()

Table = Dict[str, int]
OPEN = {"O_WRONLY": 1, "O_RDWR": 2, "O_CREAT": 0x40, "O_EXCL": 0x80, "O_NOCTTY": 0x100, "O_TRUNC": 0x200, "O_APPEND": 0x400, "O_NONBLOCK": 0x800,
        "O_DSYNC": 0x1000, "O_DIRECT": 0x4000, "O_LARGEFILE": 0x8000, "O_DIRECTORY": 0x10000, "O_NOFOLLOW": 0x20000, "O_NOATIME": 0x40000,
        "O_CLOEXEC": 0x80000, "O_PATH": 0x200000}
TRANSFER = {"RWF_HIPRI": 1, "RWF_DSYNC": 2, "RWF_SYNC": 4, "RWF_NOWAIT": 8, "RWF_APPEND": 16}
RENAME = {"RENAME_NOREPLACE": 1, "RENAME_EXCHANGE": 2, "RENAME_WHITEOUT": 4}
LINK = {"AT_SYMLINK_FOLLOW": 0x400, "AT_EMPTY_PATH": 0x1000}
ALLOCATE = {"FALLOC_FL_KEEP_SIZE": 1, "FALLOC_FL_PUNCH_HOLE": 2, "FALLOC_FL_COLLAPSE_RANGE": 8, "FALLOC_FL_ZERO_RANGE": 16, "FALLOC_FL_INSERT_RANGE": 32}
ACCESSES = ("O_RDONLY", "O_WRONLY", "O_RDWR")


class Style(NamedTuple):
    """The name that a field has in an operation, and how its number is written."""

    name: str
    how: str
    flags: Table = {}


PLAIN = {"fd": "descriptor", "off": "offset", "addr": "hexadecimal", "op_flags": "hexadecimal", "addr3": "hexadecimal", "pad": "hexadecimal", "user_data": "wide"}
OWN: Dict[str, Dict[str, Style]] = {
    "FSYNC": {"op_flags": Style("fsync_flags", "flags", {"IORING_FSYNC_DATASYNC": 1})},
    "FALLOCATE": {"len": Style("mode", "flags", ALLOCATE), "addr": Style("length", "decimal")},
    "FTRUNCATE": {"off": Style("length", "offset")},
    "OPENAT": {"fd": Style("dfd", "descriptor"), "len": Style("mode", "octal"), "op_flags": Style("open_flags", "flags", OPEN)},
    "MKDIRAT": {"fd": Style("dfd", "descriptor"), "len": Style("mode", "octal")},
    "UNLINKAT": {"fd": Style("dfd", "descriptor"), "op_flags": Style("unlink_flags", "flags", {"AT_REMOVEDIR": 0x200})},
}
for operation in ("READ", "WRITE", "READV", "WRITEV", "READ_FIXED", "WRITE_FIXED"):
    OWN[operation] = {"op_flags": Style("rw_flags", "flags", TRANSFER)}
for operation, own, bits in (("RENAMEAT", "rename_flags", RENAME), ("LINKAT", "hardlink_flags", LINK)):
    OWN[operation] = {"fd": Style("old_dfd", "descriptor"), "off": Style("addr2", "hexadecimal"), "len": Style("new_dfd", "descriptor"), "op_flags": Style(own, "flags", bits)}

# How many bytes a run has at least, a piece and a short text at most, and the longest path that stands for its item.
LEAST_RUN, PIECE, LONGEST_PATH = 16, 64, 64
ESCAPES = {10: "n", 9: "t", 13: "r", 0: "0", 34: '"', 92: "\\"}


def operation_of(opcode: int) -> str:
    return OPERATIONS[opcode] if opcode < len(OPERATIONS) else "OP_{}".format(opcode)


def style_of(opcode: int, key: str) -> Style:
    return OWN.get(operation_of(opcode), {}).get(key) or Style(key, PLAIN.get(key, "decimal"))


# Words.


def path_text(path: bytes) -> str:
    return "".join(chr(it) if 0x21 <= it <= 0x7E and it != 0x5C else "\\x{:02x}".format(it) for it in path)


def flags_text(number: int, table: Table) -> str:
    names = {bit: it for it, bit in table.items()}
    return "|".join(names.get(1 << it) or hex(1 << it) for it in range(32) if number >> it & 1)


def number_text(number: int, style: Style) -> str:
    signed = number - (1 << 32) if number >> 31 else number
    if style.how == "flags":
        return flags_text(number, style.flags)
    if style.how == "octal":
        return "0{:o}".format(number)
    if style.how == "descriptor":
        return "AT_FDCWD" if signed == -100 else str(signed)
    if style.how == "offset" and number == (1 << 64) - 1:
        return "-1"
    return hex(number) if style.how == "hexadecimal" or style.how == "wide" and number >> 32 else str(number)


def string_text(data: bytes) -> str:
    letters = ("\\" + ESCAPES[it] if it in ESCAPES else chr(it) if 0x20 <= it <= 0x7E else "\\x{:02x}".format(it) for it in data)
    return '"{}"'.format("".join(letters))


def piece_text(data: bytes) -> str:
    """A string, or digits where more than one byte of four is hidden."""
    hidden = sum(not (0x20 <= it <= 0x7E or it in (9, 10, 13)) for it in data)
    return string_text(data) if hidden <= len(data) // 4 else 'x"{}"'.format(data.hex())


def pieces(data: bytes) -> Iterator[str]:
    """Long runs of one byte with their count, and what is between them."""
    start = 0
    for run in re.finditer(rb"(.)\1*", data, re.S):
        if run.end() - run.start() >= LEAST_RUN:
            yield from plain(data[start : run.start()])
            yield string_text(run[1]) + "*{}".format(len(run[0]))
            start = run.end()
    yield from plain(data[start:])


def plain(data: bytes) -> Iterator[str]:
    return (piece_text(data[at : at + PIECE]) for at in range(0, len(data), PIECE))


def data_text(data: bytes, indent: str, most: Optional[int]) -> str:
    front = data if most is None else data[:most]
    gap = " " if len(front) <= PIECE else " \\\n" + indent
    return "".join(gap + it for it in pieces(front)) + (" ..." if len(front) < len(data) else "")


def slots_text(slots: Sequence[int]) -> str:
    words, empty = [], 0
    for slot in [*slots, None]:
        if slot == 0:
            empty += 1
            continue
        words += [] if not empty else ["-"] if empty == 1 else ["-*{}".format(empty)]
        words += [] if slot is None else [str(slot - 1)]
        empty = 0
    return "".join(" " + it for it in words)


# A trace as text.


class Source:
    """The bytes of a trace, from the front on."""

    def __init__(self, trace: bytes) -> None:
        self.left = trace

    def bytes(self, count: int) -> bytes:
        front, self.left = self.left[:count], self.left[count:]
        return front

    def numbers(self, form: str) -> Tuple[int, ...]:
        return struct.unpack("<" + form, self.bytes(struct.calcsize("<" + form)))


def node_text(paths: List[bytes], number: int) -> str:
    return path_text(paths[number]) if len(paths[number]) <= LONGEST_PATH else "@{}".format(number)


def side_of(fields: Dict[str, int], side: bytes) -> Tuple[str, bytes, int]:
    """The words for what stands beside an entry, the bytes that are strings, and the length that is left out."""
    opcode = fields["opcode"]
    if opcode in (READV, WRITEV):
        count = fields["len"] if fields["len"] <= 1024 else 0
        lengths = struct.unpack("<{}Q".format(count), side[: 8 * count])
        return " [{}]".format(",".join(map(str, lengths))) if count else "", side[8 * count :], count
    if opcode in (OPENAT, UNLINKAT, MKDIRAT):
        return " path=" + path_text(side), b"", 0
    if opcode in (RENAMEAT, LINKAT):
        (first,) = struct.unpack("<H", side[:2])
        return " old={} new={}".format(path_text(side[2 : 2 + first]), path_text(side[2 + first :])), b"", 0
    return "", side, len(side) if opcode == WRITE else 0


def fields_of(packed: bytes) -> Dict[str, int]:
    fields = dict(zip(KEYS, ENTRY.unpack(packed)))
    fields["fd"] %= 1 << 32
    return fields


def entry_text(packed: bytes, side: bytes, most: Optional[int]) -> str:
    fields = fields_of(packed)
    beside, data, length = side_of(fields, side)
    return entry_line(fields, beside, length, data_text(data, "    ", most))


def entry_line(fields: Dict[str, int], beside: str, length: int, data: str) -> str:
    """The line of an entry, whose length is left out where it is this one."""
    words = [operation_of(fields["opcode"]), *(it for bit, it in enumerate(ENTRY_FLAGS) if fields["flags"] >> bit & 1)]
    text = "  " + " ".join(words)
    for key in ORDER:
        if fields[key] != (length if key == "len" else 0):
            style = style_of(fields["opcode"], key)
            text += " {}={}".format(style.name, number_text(fields[key], style))
        text += beside if key == "fd" else ""
    return text + data + "\n"


def show(trace: bytes, has_places: bool = False, most: Optional[int] = None) -> bytes:
    """The text of a trace that is accepted."""
    source = Source(trace)
    source.bytes(8)
    (version,) = source.numbers("I")
    lines = whole_text(source, has_places, most) if version < 3 else Records(source, has_places, most).text()
    return "".join(["uring-trace {}\n".format(version), *lines]).encode("latin1")


def whole_text(source: Source, has_places: bool, most: Optional[int]) -> Iterator[str]:
    """The lines of a trace of version 1 or 2 behind the first."""
    items, descriptions, rings, records, table = source.numbers("5I")
    paths = [b"/"]
    yield from (item_text(source, paths, most, file_text) for _ in range(items))
    yield from (description_text(source, paths, number) for number in range(descriptions))
    if table:
        yield "descriptors{}\n".format(slots_text(source.numbers("{}I".format(table))))
    yield from (ring_text(source, number) for number in range(rings))
    place = 0
    for _ in range(records):
        lines, place = record_text(source, place, has_places, most)
        yield lines


def item_text(source: Source, paths: List[bytes], most: Optional[int], file: Callable[[Source, Optional[int]], str]) -> str:
    kind, length = source.numbers("BH")
    path = source.bytes(length)
    paths.append(path)
    if kind == 1:
        return "dir {}\n".format(path_text(path))
    if kind == 3:
        return "name {} of={}\n".format(path_text(path), node_text(paths, source.numbers("I")[0]))
    return "file {}{}\n".format(path_text(path), file(source, most))


def file_text(source: Source, most: Optional[int]) -> str:
    size, stored = source.numbers("QI")
    return (" size={}".format(size) if size != stored else "") + data_text(source.bytes(stored), "  ", most)


def description_text(source: Source, paths: List[bytes], number: int) -> str:
    node, access, append, position = source.numbers("IBBQ")
    words = [ACCESSES[access] + ("|O_APPEND" if append else ""), *(["pos={}".format(position)] if position else [])]
    return "open {} {} {}\n".format(number, node_text(paths, node), " ".join(words))


def ring_text(source: Source, number: int) -> str:
    slots = source.numbers("{}I".format(*source.numbers("H")))
    lines = ["ring {}\n".format(number), *(["  slots{}\n".format(slots_text(slots))] if slots else [])]
    return "".join([*lines, *buffer_lines(source)])


def buffer_lines(source: Source) -> List[str]:
    return ["  buffer {} 0x{:x} {}\n".format(buffer, *source.numbers("QI")) for buffer in range(*source.numbers("H"))]


def record_text(source: Source, place: int, has_places: bool, most: Optional[int]) -> Tuple[str, int]:
    """The lines of a record, and the place behind it."""
    kind, number = source.numbers("BB")
    if kind == 1:
        lines = ["enter {}\n".format(number)]
        for _ in range(*source.numbers("H")):
            lines += ["  # {}\n".format(place)] if has_places else []
            packed = source.bytes(ENTRY.size)
            lines.append(entry_text(packed, source.bytes(*source.numbers("I")), most))
            place += 1
        return "".join(lines), place
    buffer, offset, length = source.numbers("HII")
    comment = "# {}\n".format(place) if has_places else ""
    return comment + fill_text(number, buffer, offset, data_text(source.bytes(length), "  ", most)), place + 1


def fill_text(number: int, buffer: int, offset: int, data: str) -> str:
    return "fill {} buffer={}{}{}\n".format(number, buffer, " at={}".format(offset) if offset else "", data)


# Version 3.


def ranges_text(source: Source, most: Optional[int]) -> str:
    """The size of a file, where it ends elsewhere than its last range, and its ranges."""
    size, count = source.numbers("QI")
    end, text = 0, ""
    for number in range(count):
        offset, length = source.numbers("QI")
        text += (" at={}".format(offset) if number or offset else "") + data_text(source.bytes(length), "  ", most)
        end = offset + length
    return (" size={}".format(size) if size != end else "") + text


def table_text(size: int, full: Sequence[Tuple[int, str]]) -> str:
    """So many slots, of which these are full."""
    words, low = [], 0
    for number, word in [*full, (size, "")]:
        words += [] if number == low else ["-"] if number == low + 1 else ["-*{}".format(number - low)]
        words += [word] if word else []
        low = number + 1
    return "".join(" " + it for it in words)


class Records:
    """The lines of a trace of version 3 behind the first."""

    def __init__(self, source: Source, has_places: bool, most: Optional[int]) -> None:
        self.source, self.has_places, self.most = source, has_places, most
        self.place = self.rings = 0

    def text(self) -> Iterator[str]:
        items, descriptions, table, full, _ = self.source.numbers("5I")
        paths = [b"/"]
        yield from (item_text(self.source, paths, self.most, ranges_text) for _ in range(items))
        yield from (description_text(self.source, paths, number) for number in range(descriptions))
        held = [self.source.numbers("II") for _ in range(full)]
        if table:
            yield "descriptors{}\n".format(table_text(table, [(number, str(it)) for number, it in held]))
        while True:
            (kind,) = self.source.numbers("B")
            if kind == 7:
                return
            yield from {1: self.enter, 2: self.fill, 3: self.set, 4: self.seek, 5: self.ring, 6: self.ring_ends}[kind]()

    def comment(self, indent: str) -> str:
        """What stands before the next place."""
        self.place += 1
        return "{}# {}\n".format(indent, self.place - 1) if self.has_places else ""

    def enter(self) -> Iterator[str]:
        ring, count = self.source.numbers("IH")
        yield "enter {}\n".format(ring)
        for _ in range(count):
            yield self.comment("  ") + self.entry()

    def entry(self) -> str:
        packed = self.source.bytes(ENTRY.size)
        (form,) = self.source.numbers("B")
        fields = fields_of(packed)
        if form in (2, 3):
            return entry_line(fields, "", 0, self.given(form))
        (count,) = self.source.numbers("I")
        if form == 0:
            return entry_text(packed, self.source.bytes(count), self.most)
        lengths = self.source.bytes(8 * fields["len"] if fields["opcode"] == WRITEV and fields["len"] <= 1024 else 0)
        beside, _, length = side_of(fields, lengths)
        return entry_line(fields, beside, count if fields["opcode"] == WRITE else length, " zeros={}".format(count))

    def given(self, form: int) -> str:
        if form == 3:
            return " refused={}".format(*self.source.numbers("i"))
        result, fails = self.source.numbers("iB")
        return " {}={}".format("failed" if fails else "given", result)

    def fill(self) -> Iterator[str]:
        ring, buffer, form, offset, length = self.source.numbers("IHBII")
        data = data_text(self.source.bytes(length), "  ", self.most) if form == 0 else " zeros={}".format(length)
        yield self.comment("") + fill_text(ring, buffer, offset, data)

    def holder(self) -> str:
        """A slot or a descriptor."""
        return holder_text(*self.source.numbers("BII"))

    def set(self) -> Iterator[str]:
        yield "{}set {}{}\n".format(self.comment(""), self.holder(), self.content(*self.source.numbers("B")))

    def content(self, what: int) -> str:
        """What it holds from there on."""
        if what == 2:
            return " of={}".format(self.holder())
        if what != 1:
            return " nothing" if what == 0 else " taken"
        flags, position, length = self.source.numbers("IQH")
        own = " open_flags={}".format(flags_text(flags, OPEN)) if flags else ""
        return " path={}{}{}".format(path_text(self.source.bytes(length)), own, " pos={}".format(position) if position else "")

    def seek(self) -> Iterator[str]:
        yield "{}seek {} pos={}\n".format(self.comment(""), self.holder(), *self.source.numbers("Q"))

    def ring(self) -> Iterator[str]:
        queue, slots, full = self.source.numbers("3I")
        yield "{}ring {}{}\n".format(self.comment(""), self.rings, " queue={}".format(queue) if queue != (1 << 32) - 1 else "")
        held = [self.source.numbers("IBII") for _ in range(full)]
        if slots:
            yield "  slots{}\n".format(table_text(slots, [(it[0], holder_text(*it[1:])) for it in held]))
        yield from buffer_lines(self.source)
        self.rings += 1

    def ring_ends(self) -> Iterator[str]:
        yield "ring {} ends\n".format(*self.source.numbers("I"))


def holder_text(what: int, ring: int, number: int) -> str:
    return ("{}:{}".format(ring, number), "fd:{}".format(number), str(number))[what]
