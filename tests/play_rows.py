"""Plays each row of docs/LINUX.md as it stands: a kernel of the version that the page names does otherwise than the profile there."""
import ctypes
import os
import re
import struct
from typing import Callable, Dict, List, NamedTuple, Optional, Sequence, Tuple

import record_traces
from harness import TOP, Outcome, Program, first, shown
from player import SOURCES, UNTRIED, Player
from traces import AT_FDCWD, BUFFER_SELECT, CLOSE, DRAIN, FALLOCATE, FIXED_FILE, FTRUNCATE, GREATEST_SIZE, LINK, LINKAT, MKDIRAT, NOP, OPENAT
from traces import FSYNC, READ, READ_FIXED, READV, RENAMEAT, SKIP, STATX, SYNC_FILE_RANGE, UNLINKAT, WRITE, WRITE_FIXED
from traces import description, directory, enter, entry, file, head, ring, descriptor_table, two_paths

POSITION, NOWHERE = (1 << 64) - 1, AT_FDCWD & 0xffffffff
# Words of the play itself, which are no row: docs/PLAYING.md.
OF_THE_PLAY = {"space", "unsupported", "stuck"}
# How often a race is tried.
TRIES = 10


class Play(NamedTuple):
    """A trace to be played as it stands, and of some places what stands in their lines here and in the kernel's (nothing: any that is not what
    stands here)."""

    trace: bytes
    differ: Sequence[Tuple[int, bytes, bytes]]


class Row(NamedTuple):
    """What a row of the page says, as it is found there; plays that show it, in at least one directory where it is the file system's matter."""

    what: str
    plays: Sequence[Play]
    is_of_files: bool = False


def on_names(opcode: int, side: bytes, flags: int = 0, own_flags: int = 0, **fields: int) -> bytes:
    length = NOWHERE if opcode in (RENAMEAT, LINKAT) else 0
    return entry(opcode, flags, **{"fd": AT_FDCWD, "length": length, **fields}, own_flags=own_flags, side=side)


def world(*entries: bytes, version: int = 2, table: Sequence[int] = (1, 0), slots: Sequence[int] = (1, 2, 0), buffers=((4096, 16),), size: int = 10) -> bytes:
    """A file /a, a directory /d with a file /d/f; open in slots 0 and 1 and as descriptor 0; entries in one record each, but for chains."""
    items = file(b"/a", size, b"0123456789"[:size]) + directory(b"/d") + file(b"/d/f")
    opened = description(1, 2, 0, max(size - 3, 0)) + description(2, 0)
    records, chain = [], []
    for it in entries:
        chain.append(it)
        if not it[1] & LINK:
            records.append(enter(0, chain))
            chain = []
    numbers = descriptor_table(table) if version == 2 else b""
    return head(3, 2, 1, len(records), len(table) if version == 2 else 0, version) + items + opened + numbers + ring(slots, buffers) + b"".join(records)


def world_3(*entries: bytes) -> bytes:
    """The same in version 3, with one record of entries without side bytes, or of given ones. The ring is place 0."""
    items = [record_traces.file_of(b"/a", 10, b"0123456789"), directory(b"/d")]
    made = [it if len(it) > 68 else record_traces.stored(it) for it in entries]
    front = [record_traces.head(2, 1), *items, description(1), record_traces.ring_of([1], [(4096, 16)])]
    return b"".join([*front, record_traces.enter(0, made), record_traces.END])


def failing() -> List[bytes]:
    """The operations, each so that it fails, and not for its descriptor; an FSYNC does only where a disk fails."""
    return [entry(FALLOCATE, FIXED_FILE), entry(FTRUNCATE, FIXED_FILE, offset=1 << 63), on_names(RENAMEAT, two_paths(b"/no", b"/b")),
            on_names(UNLINKAT, b"/no"), on_names(MKDIRAT, b"/a"), on_names(LINKAT, two_paths(b"/no", b"/b"))]


def with_flags(drawn: bytes, flags: int) -> bytes:
    return drawn[:1] + bytes([drawn[1] | flags]) + drawn[2:]


def in_another_order() -> List[Tuple[bytes, bytes, bytes]]:
    """Entries of which several tests fail, each with the error here and in Linux."""
    long_name, long_path = b"/" + b"n" * 256, b"/" * 4096
    bad, directory_, large = (1 << 32) - 1, 1, 1 << 63
    return [
        *((entry(it, FIXED_FILE, directory_, address=4096), b"res=-21", b"res=0") for it in (READ, READV, READ_FIXED)),
        *((entry(it, FIXED_FILE, directory_, large, 1, address=4096), b"res=-21", b"res=-22") for it in (READ, READ_FIXED)),
        (entry(READ_FIXED, FIXED_FILE, directory_, length=4), b"res=-21", b"res=-14"),
        (entry(WRITE_FIXED, FIXED_FILE, directory_, length=4), b"res=-9", b"res=-14"),
        (on_names(LINKAT, two_paths(b"/no", b"/a/b")), b"res=-20", b"res=-2"),
        (on_names(LINKAT, two_paths(b"/no", b"b"), length=bad), b"res=-9", b"res=-2"),
        (on_names(LINKAT, two_paths(b"/no", long_name)), b"res=-36", b"res=-2"),
        (on_names(RENAMEAT, two_paths(b"/no", long_name)), b"res=-36", b"res=-2"),
        (on_names(RENAMEAT, two_paths(long_name, b"/a/b")), b"res=-36", b"res=-20"),
        (on_names(RENAMEAT, two_paths(long_name, b"b"), length=bad), b"res=-36", b"res=-9"),
        *((on_names(OPENAT, it, own_flags=0x10040, file_index=1), b"res=-22", there) for it, there in ((b"", b"res=-2"), (long_path, b"res=-36"))),
        *((on_names(LINKAT, two_paths(b"/a", it), own_flags=8), b"res=-22", there) for it, there in ((b"", b"res=-2"), (long_path, b"res=-36"))),
        *((on_names(RENAMEAT, two_paths(it, b"/a"), own_flags=8), b"res=-22", there) for it, there in ((b"", b"res=-2"), (long_path, b"res=-36"))),
    ]


def rows() -> List[Row]:
    """Each row that a play can show, but for those below that need more than one play."""
    soft = [Play(world(with_flags(it, LINK), entry(NOP)), [(1, b"res=-125", b"res=0")]) for it in failing()]
    quiet = [Play(world(with_flags(it, SKIP)), [(0, b"posted", b"silent")]) for it in failing()]
    ranges = entry(SYNC_FILE_RANGE, FIXED_FILE, own_flags=8)
    missing, bad = record_traces.stored(on_names(STATX, b"/no", length=0x7ff)), entry(STATX, fd=9, own_flags=0x1000)
    soft += [Play(world_3(with_flags(it, LINK), entry(NOP)), [(2, b"res=-125", b"res=0")]) for it in (ranges, missing, bad)]
    quiet += [Play(world_3(with_flags(it, SKIP)), [(1, b"posted", b"silent")]) for it in (ranges, missing, bad)]
    vectors = struct.pack("<QQ", 4, 1 << 62)
    return [
        Row("A failing FSYNC, SYNC_FILE_RANGE, STATX, FALLOCATE, FTRUNCATE, RENAMEAT, UNLINKAT, MKDIRAT or LINKAT with IO_LINK (for a bad descriptor only STATX)", soft + quiet),
        Row("RENAMEAT of a file onto a directory that is above it", [Play(world(on_names(RENAMEAT, two_paths(b"/d/f", b"/d"))), [(0, b"res=-21", b"res=-39")])]),
        Row("OPENAT into a slot that the ring does not have", [
            Play(world(on_names(OPENAT, b"/no", file_index=9), on_names(OPENAT, b"/new", own_flags=0x41, file_index=9), on_names(UNLINKAT, b"/new")),
                 [(0, b"res=-22", b"res=-2"), (2, b"res=-2", b"res=0")])]),
        Row("OPENAT, CLOSE with file_index on a ring without slots", [
            Play(world(on_names(OPENAT, b"/a", file_index=1), entry(CLOSE, file_index=1), slots=()),
                 [(0, b"res=-22", b"res=-6"), (1, b"res=-22", b"res=-6")])]),
        Row("A write at the position that is cut at the size limit", [
            Play(world(entry(WRITE, FIXED_FILE, offset=POSITION, length=8, side=bytes(8)), size=GREATEST_SIZE), [(-1, b"pos=1099511627776", b"pos=1099511627773")])]),
        Row("READV of several vectors, one of them of 2^47 bytes or more", [
            Play(world(entry(READV, FIXED_FILE, length=2, side=vectors)), [(0, b"res=10", b"res=-14")])]),
        Row("Tests of an entry by itself (flags of CLOSE, OPENAT, STATX, RENAMEAT, LINKAT)", [
            Play(world(entry(NOP, LINK), it), [(0, b"res=-125", b"res=0")])
            for it in (entry(CLOSE, file_index=(1 << 32) - 1), on_names(OPENAT, b"/a", own_flags=0x10040, file_index=1),
                       on_names(RENAMEAT, two_paths(b"/a", b"/b"), own_flags=8), on_names(LINKAT, two_paths(b"/a", b"/b"), own_flags=8))] + [
            Play(world_3(entry(NOP, LINK), record_traces.stored(on_names(STATX, b"/a", own_flags=0x400))), [(1, b"res=-125", b"res=0")])]),
        Row("Order of tests: a read of length 0 on a directory, a bad buffer with a wrong access, both paths of LINKAT and RENAMEAT, flags and a path", [Play(world(it), [(0, here, there)]) for it, here, there in in_another_order()]),
        Row("Offset and length together over 2^63 - 1", [
            Play(world(entry(READ, FIXED_FILE, offset=(1 << 63) - 2, length=4)), [(0, b"res=0", b"res=-22")])]),
        Row("READ with BUFFER_SELECT", [Play(world(entry(READ, FIXED_FILE | BUFFER_SELECT, length=4)), [(0, b"res=-95", b"res=-105")])]),
        Row("CQE_SKIP_SUCCESS and IO_DRAIN on one ring", [Play(world(entry(NOP, SKIP), entry(NOP, DRAIN)), [(1, b"res=0", b"res=-95")])]),
        Row("A relative path with a descriptor of the table (from version 2 on)", [
            Play(world(on_names(OPENAT, b"f", fd=0, file_index=1), table=(2, 0)), [(0, b"res=-9", b"res=0")])]),
        Row("A path with a component `.` or `..`, or with a last slash", [
            Play(world(*(on_names(OPENAT, it, file_index=1) for it in (b"/./a", b"/d/../a", b"/d/"))), [(it, b"res=-22", b"res=0") for it in range(3)])]),
        Row("FSYNC with an offset at or over 2^63", [Play(world(entry(FSYNC, FIXED_FILE, offset=1 << 63)), [(0, b"res=0", b"res=-22")])]),
        Row("FTRUNCATE or SYNC_FILE_RANGE with `addr` other than 0; values in `ioprio` or in fields that an opcode does not use", [
            Play(world_3(entry(SYNC_FILE_RANGE, FIXED_FILE, address=1)), [(1, b"res=0", b"res=-22")]),
            Play(world(entry(FTRUNCATE, FIXED_FILE, offset=4, address=1), on_names(UNLINKAT, b"/d/f", offset=1)), [(0, b"res=0", b"res=-22"), (1, b"res=0", b"res=-22")]),
            Play(world(with_priority(on_names(UNLINKAT, b"/d/f"))), [(0, b"res=0", b"res=-22")])]),
        Row("A read or write with flags of its own, in version 3 with others than RWF_DSYNC and RWF_SYNC", [
            Play(world(entry(READ, FIXED_FILE, length=4, own_flags=4)), [(0, b"res=-95", b"res=4")]),
            Play(world_3(entry(READ, FIXED_FILE, length=4, own_flags=0x10)), [(1, b"res=-95", b"res=4")])]),
        Row("OPENAT with access 3, O_PATH or O_TMPFILE", [
            Play(world(on_names(OPENAT, b"/a", own_flags=3, file_index=1), on_names(OPENAT, b"/a", own_flags=0x200000, file_index=1)),
                 [(0, b"res=-22", b"res=0"), (1, b"res=-22", b"res=0")])]),
        Row("LINKAT with AT_EMPTY_PATH", [Play(world(on_names(LINKAT, two_paths(b"/a", b"/b"), own_flags=0x1000)), [(0, b"res=-22", b"")])]),
        Row("RENAMEAT with RENAME_EXCHANGE in version 1", [
            Play(world(on_names(RENAMEAT, two_paths(b"/a", b"/d/f"), own_flags=2), version=1), [(0, b"res=-22", b"res=0")])]),
        Row("FALLOCATE with COLLAPSE_RANGE, INSERT_RANGE, UNSHARE_RANGE or WRITE_ZEROES", [
            Play(world(entry(FALLOCATE, FIXED_FILE, offset=0, address=4096, length=8), size=1 << 16), [(0, b"res=-95", b"")])], True),
        Row("FALLOCATE over 2^40 bytes with a mode other than 0", [
            Play(world(entry(FALLOCATE, FIXED_FILE, offset=GREATEST_SIZE, address=1, length=3)), [(0, b"res=-27", b"res=0")])]),
    ]


def with_priority(drawn: bytes) -> bytes:
    """With 1 in `ioprio`."""
    return drawn[:2] + b"\1\0" + drawn[4:]


# --- Rows that need more than a play ----------------------------------------------------------------------------------

def other_opcodes(player: Player, program: Program) -> Optional[str]:
    """POLL_ADD is served by the kernel: it says so itself, since no such entry is ever played."""
    libc, parameters, probe = ctypes.CDLL(None, use_errno=True), ctypes.create_string_buffer(120), ctypes.create_string_buffer(16 + 256 * 8)
    ring_number = libc.syscall(425, 8, parameters)
    if ring_number < 0:
        return "there is no ring"
    asked = libc.syscall(427, ring_number, 8, probe, 256)
    os.close(ring_number)
    return None if asked == 0 and probe.raw[16 + 6 * 8 + 2] & 1 else "opcode 6 is not served"


def transient_opens(player: Player, program: Program) -> Optional[str]:
    """Opens of a missing file at once, at a table with one free number: some try shows the other number held. A race: it may not be seen."""
    deep = [b"/d" * it for it in range(1, 1_000)]
    opens = [entry(OPENAT, fd=AT_FDCWD, side=deep[-1] + b"/no") for _ in range(64)]
    items = file(b"/a") + b"".join(map(directory, deep))
    trace = head(len(deep) + 1, 1, 1, 1, 2, 2) + items + description(1) + descriptor_table([1, 0]) + ring() + enter(0, opens)
    report, rounds = program.run(["serial"], trace).output, program.run(["rounds", "--window", "64"], trace).output
    for _ in range(TRIES):
        if b" unchecked=emfile" in player.steered(trace, report, ["--async"], rounds, player.directories()[-1]).output:
            return None
    return "not seen in {} tries".format(TRIES)


def given(player: Player, program: Program) -> Optional[str]:
    """A given entry is left out, whatever it asks for; what it breaks by the answers is not played either, and what it passes is."""
    made = [record_traces.given(with_flags(entry(READ, FIXED_FILE, length=4), LINK), 7, fails) for fails in (False, True)]
    for it, wanted in zip(made, (b"res=0 posted op=0", b"op=0 unchecked=links")):
        trace = world_3(it, entry(NOP))
        report = program.run(["serial"], trace)
        got = player.steered(trace, report.output, [], b"", player.directories()[-1])
        lines = lines_of(got.output)
        if got.status or not lines.get(1, b"").endswith(b"op=22 unchecked=given") or not lines.get(2, b"").endswith(wanted):
            return "fault: {} {}".format(shown(report), shown(got))
    return None


APART: Dict[str, Callable[[Player, Program], Optional[str]]] = {
    "An opcode outside the table": other_opcodes,
    "A given entry (version 3)": given,
    "Two OPENATs to a descriptor that fail at once, where one number is free": transient_opens,
}
# What a race shows or does not is told alone.
RACES = ("Two OPENATs to a descriptor that fail at once, where one number is free",)


# --- The page and the code --------------------------------------------------------------------------------------------

def page() -> Tuple[str, Dict[str, str]]:
    """The version of the kernel that the page names, and of each row what a play does there."""
    with open(os.path.join(TOP, "docs", "LINUX.md")) as opened:
        text = opened.read()
    table = text.split("| In a play |\n", 1)[1].split("\n\n", 1)[0].splitlines()[1:]
    cells = [[it.strip() for it in line.strip("|").split(" | ")] for line in table]
    return re.search(r"\| Linux (\d+\.\d+) \|", text)[1], {it[0]: it[3] for it in cells}


def words_agree(listed: List[str]) -> List[Outcome]:
    """The rows, the words of docs/FORMAT.md and those of the code are the same, and each row is played here."""
    _, found = page()
    with open(os.path.join(SOURCES, "apart.c")) as opened:
        coded = set(re.findall(r'\[APART_\w+\] = "([\w-]+)"', opened.read()))
    of_rows = {it.strip("`") for it in found.values() if it.startswith("`")}
    mine = {it.what for it in rows()} | set(APART)
    faults = ["docs/LINUX.md lacks a row that is played: {}".format(it) for it in mine - set(found)]
    faults += ["no play shows the row: {}".format(it) for it in set(found) - mine]
    faults += ["{} is no row of docs/LINUX.md".format(it) for it in coded - of_rows - OF_THE_PLAY]
    faults += ["{} is no word of the player".format(it) for it in (of_rows | set(listed)) - coded]
    faults += ["{} is not listed in docs/FORMAT.md".format(it) for it in coded - set(listed)]
    return [Outcome("play: docs/LINUX.md, docs/FORMAT.md and the player have the same words", first(faults))]


def lines_of(text: bytes) -> Dict[int, bytes]:
    """The lines of places, and as -1 that of the first slot."""
    found = {int(it.split()[0]): it for it in text.split(b"\n") if it[:1].isdigit()}
    return {**found, -1: next((it for it in text.split(b"\n") if it.startswith(b"slot 0 0 ")), b"")}


def shows(player: Player, program: Program, play: Play, place: str) -> Optional[str]:
    """Why a play in a directory does not show its row, if it does not."""
    report, got = program.run(["serial"], play.trace), player.play(["--raw"], play.trace, place)
    if got.status == UNTRIED:
        return "untried: {}".format(got.errors.decode("utf-8", "replace").strip())
    if report.status or got.status:
        return "fault: {} {}".format(shown(report), shown(got))
    ours, theirs = lines_of(report.output), lines_of(got.output)
    for at, here, there in play.differ:
        if here not in ours[at].split(b" "):
            return "fault: {!r} lacks {!r}".format(ours[at], here)
        words = theirs[at].split(b" ")
        if here in words or (there and there not in words):
            return "{!r}, wanted {!r}".format(theirs[at], there or b"not " + here)
    return None


def told(version: str, is_bound: bool, what: str, why: Optional[str]) -> Outcome:
    """A row that is not shown fails on the kernel that the page names, and is told on another."""
    name = "play: a kernel differs: {}".format(what)
    if why and why.startswith("untried: "):
        return Outcome(name, skipped=why[9:])
    is_named = os.uname().release.startswith(version + ".") and is_bound
    if why and not is_named and not why.startswith("fault: "):
        return Outcome(name, skipped="Linux {}: {}".format(os.uname().release, why))
    return Outcome(name, why)


def outcomes(player: Player, program: Program) -> List[Outcome]:
    """Each row, by its plays in each directory; what is the file system's matter, in one of them."""
    version, _ = page()
    found = []
    for row in rows():
        places = player.directories()
        whys = [[shows(player, program, play, place) for play in row.plays] for place in places]
        faults = [next((why for why in each if why), None) for each in whys]
        why = next((it for it in faults if it), None)
        if row.is_of_files and None in faults:
            why = None
        found.append(told(version, not row.is_of_files, row.what, why))
    return found + [told(version, what not in RACES, what, shows_it(player, program)) for what, shows_it in APART.items()]
