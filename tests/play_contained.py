"""No entry leaves the directory of a play, or reaches what is the player's own: traces that try, in every mode, with bait above and around it."""
import os
import struct
import tempfile
from functools import partial
from typing import Iterator, List, Sequence, Tuple

import record_traces
from harness import Answer, Job, Outcome, Program, first, shown
from player import UNTRIED, Player
from traces import AT_FDCWD, CLOSE, FALLOCATE, FIXED_FILE, FSYNC, FTRUNCATE, LINKAT, MKDIRAT, OPENAT, RENAMEAT, UNLINKAT, WRITE
from traces import description, directory, enter, entry, file, head, ring, descriptor_table, takes_no_side, two_paths

# None climbs higher than the three folders with bait, so that a player that fails here does so in a folder of the test's own.
CLIMBING = (b"/..", b"//..", b"/../bait", b"/../made", b"/../../made", b"../made", b"../bait", b"/d/../../made", b"/d/../../bait", b"/d/./../../bait",
            b"/../bait/", b"..", b"/a/../../bait", b"/../../../bait", b"/../../two/made", b"/../uring_play.1")
PLAIN = (b"/a", b"/new", b"new")
NOWHERE = AT_FDCWD & 0xffffffff
MODES: Sequence[Tuple[str, Sequence[str]]] = (("raw", ["--raw"]), ("as it stands", []), ("chains", ["-e"]), ("strict", ["-e", "--strict"]), ("rounds", ["-e", "-r"]),
                                              ("threads", ["-e", "-r", "--async"]), ("flight", ["-e", "-D", "--async"]))
# Without chroot nothing but the guard on paths, opcodes and numbers holds.
ALONE = (*MODES[1:5], MODES[6])
# The opcodes with a path, or two, or a number, are more than those that the profile serves; none of the others is ever played.
OPCODES = 256


def world(entries: Sequence[bytes]) -> bytes:
    """A tree with a directory that is open as descriptor 0 and in a slot, and entries of a record each."""
    items = file(b"/a", 10, b"0123456789") + directory(b"/d") + file(b"/d/new", 1, b"n")
    opened = description(2, 0) + description(1)
    return head(3, 2, 1, len(entries), 2, 2) + items + opened + descriptor_table([1, 0]) + ring([1, 2, 0, 0]) + b"".join(enter(0, [it]) for it in entries)


def climbing(path: bytes) -> Iterator[bytes]:
    """Every operation on names with a path that climbs, alone or beside a plain one, from the root and from a directory."""
    for fd in (AT_FDCWD, 0):
        for opcode, flags in ((OPENAT, 0x242), (OPENAT, 0), (OPENAT, 0x410041), (UNLINKAT, 0), (UNLINKAT, 0x200), (MKDIRAT, 0)):
            yield entry(opcode, fd=fd, own_flags=flags, file_index=4 if opcode == OPENAT else 0, side=path)
        for plain in PLAIN:
            for side in (two_paths(path, plain), two_paths(plain, path), two_paths(path, path)):
                for new in (NOWHERE, 0):
                    for opcode, flags in ((RENAMEAT, 0), (RENAMEAT, 2), (LINKAT, 0), (LINKAT, 0x400)):
                        yield entry(opcode, fd=fd, length=new, own_flags=flags, side=side)


def numbers() -> Iterator[bytes]:
    """What has a number, with each that may be the player's own: it writes there, cuts, closes and walks from it."""
    for number in (*range(2, 200), 1_024, 1_048_575, (1 << 31) - 1, -1, -2, -99, -101, -(1 << 31)):
        yield entry(WRITE, fd=number, length=4, side=b"LOST")
        yield entry(FTRUNCATE, fd=number)
        yield entry(FALLOCATE, fd=number, address=64, length=3)
        yield entry(UNLINKAT, fd=number, side=b"bait")
        yield entry(OPENAT, fd=number, own_flags=0x242, file_index=4, side=b"made")
        yield entry(MKDIRAT, fd=number, side=b"made")
        yield entry(RENAMEAT, fd=number, length=number & 0xffffffff, side=two_paths(b"bait", b"made"))
        yield entry(CLOSE, fd=number)
        yield entry(FSYNC, FIXED_FILE, number)


def opcodes() -> Iterator[bytes]:
    """Every opcode, with addresses and numbers that might be right."""
    for opcode in range(OPCODES):
        for address in (0, 4096, 1 << 45):
            fields = entry(opcode, fd=0, offset=address, length=2_000, address=address, own_flags=0, file_index=1)[:64]
            if takes_no_side(fields):
                yield fields + struct.pack("<I", 0)


def traces() -> Iterator[Tuple[str, bytes]]:
    for path in CLIMBING:
        each = list(climbing(path))
        for at in range(0, len(each), 50):
            yield "paths {!r} from {}".format(path, at), world(each[at : at + 50])
    yield "numbers", world(list(numbers()))
    yield "opcodes", world(list(opcodes()))


def seen(top: str) -> List[Tuple[str, int]]:
    """All that is below a folder, but in the directories of plays."""
    found = []
    for at, folders, files in os.walk(top):
        folders[:] = [it for it in folders if not it.startswith("uring_play.")]
        found += [(os.path.relpath(os.path.join(at, it), top), os.lstat(os.path.join(at, it)).st_size) for it in files]
        found += [(os.path.relpath(os.path.join(at, it), top), -1) for it in folders]
    return sorted(found)


def baited(top: str) -> str:
    """Bait in a folder, and in two folders below; gives the last."""
    inner = os.path.join(top, "one", "two")
    os.makedirs(inner)
    for folder in (top, os.path.dirname(inner), inner):
        with open(os.path.join(folder, "bait"), "wb") as file_:
            file_.write(b"bait")
    return inner


def played(player: Player, program: Program, trace: bytes, words: Sequence[str], inner: str) -> Answer:
    if "-e" not in words:
        return player.play(words, trace, inner)
    rounds, depends = (program.run([command], trace).output if word in words else b"" for command, word in (("rounds", "-r"), ("depends", "-D")))
    return player.steered(trace, program.run(["serial"], trace).output, [it for it in words if it not in ("-e", "-r", "-D")], rounds, inner, depends)


def contained(player: Player, program: Program, mode: str, words: Sequence[str], place: str) -> List[Outcome]:
    """Plays all of these in a mode, and looks what is around the directory after each."""
    name, faults, count = "play: nothing leaves the directory: {} in {}".format(mode, place), [], 0
    with tempfile.TemporaryDirectory(dir=place) as top:
        inner = baited(top)
        before = seen(top)
        for label, trace in traces():
            got = played(player, program, trace, words, inner)
            if got.status == UNTRIED:
                return [Outcome(name, skipped=got.errors.decode("utf-8", "replace").strip())]
            count += 1
            is_well = got.status == 0 and not got.errors and got.output.endswith(b"\nend\n")
            if not is_well or seen(top) != before:
                faults.append("{}: {} {}".format(label, shown(got), sorted(set(seen(top)) ^ set(before))[:4]))
                before = seen(top)
        faults += [it for it in os.listdir(inner) if it.startswith("uring_play.")]
    return [Outcome(name, first(faults))]


def sets(player: Player) -> List[Outcome]:
    """A set of a path that climbs is refused, and so is one of a number that the table does not have."""
    front, faults = record_traces.head(0, 0, 3), []
    each = [(record_traces.set_path((record_traces.DESCRIPTOR, 0, 0), it, 0x242), b"Path at %d\n" % (len(front) + 25)) for it in CLIMBING]
    each += [(record_traces.set_taken((record_traces.DESCRIPTOR, 0, it)), b"Reference at %d\n" % (len(front) + 6)) for it in (3, 64, (1 << 32) - 1)]
    with tempfile.TemporaryDirectory(dir=player.folder.name) as top:
        inner = baited(top)
        before = seen(top)
        for record, said in each:
            got = player.play(["--raw"], front + record, inner)
            is_well = got == Answer(1, b"", b"uring_play: trace refused: " + said) and seen(top) == before
            faults += [] if is_well else ["{!r}: {}".format(record, shown(got))]
    return [Outcome("play: nothing leaves the directory: sets", first(faults))]


def jobs(player: Player, program: Program) -> List[Job]:
    places, alone = player.directories(), player.with_less(root=1)
    each: List[Job] = [partial(contained, player, program, mode, words, place) for mode, words in MODES for place in places]
    return [*each, partial(sets, player)] + [partial(contained, alone, program, mode + ", without chroot", words, places[-1]) for mode, words in ALONE]
