"""Puts the bytes of traces together: the one encoder of docs/FORMAT.md, for the tests, the examples and the benches."""
import struct
from typing import Sequence, Tuple

NOP, READV, WRITEV, FSYNC, READ_FIXED, WRITE_FIXED, FALLOCATE, OPENAT, CLOSE = 0, 1, 2, 3, 4, 5, 17, 18, 19
READ, WRITE, RENAMEAT, UNLINKAT, MKDIRAT, LINKAT, FTRUNCATE = 22, 23, 35, 36, 37, 39, 55
# Those that version 3 alone serves.
SYNC_FILE_RANGE, STATX, FADVISE = 8, 21, 24
FIXED_FILE, DRAIN, LINK, HARDLINK, BUFFER_SELECT, SKIP = 1, 2, 4, 8, 32, 64
AT_FDCWD = -100
GREATEST_SIZE = 1 << 40
GREATEST_BUFFER = 1 << 30

# The 64 bytes of a submission queue entry, in the order of struct io_uring_sqe.
ENTRY = struct.Struct("<BBHiQQIIQHHIQQ")


def head(items: int = 0, descriptions: int = 0, rings: int = 0, records: int = 0, table: int = 0, version: int = 1) -> bytes:
    return struct.pack("<8s6I", b"URINGTRC", version, items, descriptions, rings, records, table)


def sums_option(trace: bytes) -> str:
    """The option of `serial` and `run` with which a report has the sums of reads: of version 3 of the trace --sums has them."""
    return "--sums" if trace[8:12] == struct.pack("<I", 3) else "--all-sums"


def directory(path: bytes) -> bytes:
    return struct.pack("<BH", 1, len(path)) + path


def file_head(path: bytes, size: int, stored: int) -> bytes:
    """A file but for its stored bytes, of which there are so many."""
    return struct.pack("<BH", 2, len(path)) + path + struct.pack("<QI", size, stored)


def file(path: bytes, size: int = 0, stored: bytes = b"") -> bytes:
    return file_head(path, size, len(stored)) + stored


def name(path: bytes, item: int) -> bytes:
    """Another name of a file."""
    return struct.pack("<BH", 3, len(path)) + path + struct.pack("<I", item)


def description(node: int, access: int = 2, append: int = 0, position: int = 0) -> bytes:
    return struct.pack("<IBBQ", node, access, append, position)


def descriptor_table(descriptors: Sequence[int]) -> bytes:
    """The table of descriptors of version 2: the number of a description each, from 1 on, or 0 for none."""
    return struct.pack("<{}I".format(len(descriptors)), *descriptors)


def ring(slots: Sequence[int] = (), buffers: Sequence[Tuple[int, int]] = ()) -> bytes:
    parts = [struct.pack("<H", len(slots)), descriptor_table(slots)]
    parts += [struct.pack("<H", len(buffers)), *(struct.pack("<QI", *buffer) for buffer in buffers)]
    return b"".join(parts)


def enter(number: int, entries: Sequence[bytes]) -> bytes:
    """A record of entries of a ring."""
    return struct.pack("<BBH", 1, number, len(entries)) + b"".join(entries)


def fill(number: int, buffer: int, offset: int, data: bytes) -> bytes:
    return struct.pack("<BBHII", 2, number, buffer, offset, len(data)) + data


def entry(opcode: int, flags: int = 0, fd: int = 0, offset: int = 0, length: int = 0, side: bytes = b"", address: int = 0, own_flags: int = 0,
          user_data: int = 0, buffer: int = 0, personality: int = 0, file_index: int = 0, priority: int = 0, third: int = 0, last: int = 0) -> bytes:
    """An entry with its side bytes."""
    fields = (opcode, flags, priority, fd, offset, address, length, own_flags, user_data, buffer, personality, file_index, third, last)
    return with_side(ENTRY.pack(*fields), side)


def two_paths(old: bytes, new: bytes) -> bytes:
    """The side bytes of a RENAMEAT or a LINKAT."""
    return struct.pack("<H", len(old)) + old + new


def fixed(opcode: int, length: int) -> bytes:
    """An entry of a transfer between the file in slot 0 and the registered buffer at address 4096."""
    return entry(opcode, FIXED_FILE, length=length, address=4096)


def hole(offset: int, length: int) -> bytes:
    """An entry that makes a range of the file in slot 0 zeros: FALLOCATE with FALLOC_FL_PUNCH_HOLE and FALLOC_FL_KEEP_SIZE."""
    return entry(FALLOCATE, FIXED_FILE, offset=offset, address=length, length=3)


def opened_in_slot(path: bytes, slot: int) -> bytes:
    """An entry that opens a file to read and write it, in a slot."""
    return entry(OPENAT, fd=AT_FDCWD, own_flags=2, file_index=slot + 1, side=path)


def removed(path: bytes) -> bytes:
    """An entry that removes the name of a file."""
    return entry(UNLINKAT, fd=AT_FDCWD, side=path)


def with_side(fields: bytes, side: bytes = b"") -> bytes:
    return fields + struct.pack("<I", len(side)) + side


def takes_no_side(fields: bytes) -> bool:
    """Whether an entry may have no side bytes."""
    opcode, length = fields[0], struct.unpack_from("<I", fields, 24)[0]
    if opcode in (READV, WRITEV):
        return length == 0 or length > 1024
    return not (opcode == WRITE and length > 0 or opcode in (RENAMEAT, LINKAT))
