"""Draws traces for playing: as drawing.Draw does, but the operations whose failure Linux does not count (docs/LINUX.md) are hard-linked where
they would be soft-linked, and mostly post, so that few chains have to be cut and few entries left out."""
from typing import List, Tuple

import drawing
import record_traces
from traces import CLOSE, DRAIN, FALLOCATE, FSYNC, FTRUNCATE, HARDLINK, LINK, LINKAT, MKDIRAT, NOP, OPENAT, READ, READ_FIXED, READV, RENAMEAT, SKIP
from traces import FADVISE, STATX, SYNC_FILE_RANGE, UNLINKAT, WRITE, WRITE_FIXED, WRITEV, directory

# The opcodes whose failure breaks no chain in Linux, and is silent with CQE_SKIP_SUCCESS; but for STATX, of which the player can make up for none.
UNCOUNTED = (FSYNC, SYNC_FILE_RANGE, FALLOCATE, FTRUNCATE, RENAMEAT, UNLINKAT, MKDIRAT, LINKAT)


class Played(drawing.Draw):
    """Draws a trace that is mostly inside what Linux and the profile have in common."""

    def entry(self, number: int) -> bytes:
        drawn = super().entry(number)
        opcode, flags = drawn[0], drawn[1]
        if opcode in (*UNCOUNTED, STATX):
            flags = flags & ~LINK | HARDLINK if flags & LINK else flags
            flags &= ~SKIP if not self.rarely(4) else ~0
        return bytes([opcode, flags]) + drawn[2:]


class PlayedRecords(record_traces.Records, Played):
    """Draws such a trace of version 3."""

    each_given, each_flagged = 60, 20


class Wide(Played):
    """Draws a trace of many steps that mostly use different things, so that much of it may be in flight at once."""

    names, flags = tuple(b"n%d" % it for it in range(24)), ((LINK, 8), (HARDLINK, 20), (DRAIN, 80), (SKIP, 9))
    records, most_slots, longest, most_described = 60, 60, 20_000, 40
    each_great, each_at_position, each_fill, tables = 10_000, 12, 9, (0, 8, 64)
    ranges = great_ranges = (1, 100, 5_000)
    weights = {READ: 8, WRITE: 10, READV: 3, WRITEV: 3, READ_FIXED: 5, WRITE_FIXED: 5, FSYNC: 1, NOP: 1, FALLOCATE: 3, FTRUNCATE: 3,
               OPENAT: 14, CLOSE: 5, UNLINKAT: 8, MKDIRAT: 10, LINKAT: 7, RENAMEAT: 12}
    folders, files = 12, 4

    def items(self) -> Tuple[List[bytes], List[Tuple[int, bool]]]:
        items, nodes = [], [(0, False)]
        for folder in range(self.folders):
            for path in [b"/d%d" % folder, *(b"/d%d/" % folder + it for it in self.names[: self.files])]:
                size, is_file = self.one(drawing.SIZES), path.count(b"/") > 1
                items.append(self.file(path, size) if is_file else directory(path))
                nodes.append((len(items), is_file))
                self.paths.append(path)
        return items, nodes

    def path(self) -> bytes:
        return self.one(self.paths) if self.rarely(2) else b"/d%d/" % self.source.randrange(self.folders) + self.one(self.names)


class WideRecords(record_traces.Records, Wide):
    """Draws such a trace of version 3, with rings that come and go."""

    records, tables, each_given, each_flagged = Wide.records, Wide.tables, 100, 20
    weights = {**Wide.weights, SYNC_FILE_RANGE: 2, FADVISE: 2, STATX: 4}
