#!/usr/bin/env python3
"""The player: what this kernel and its file systems give is what is proved, but for what is marked as unchecked.

A part of ./test. By itself it plays more: tests/play.py [--program FILE] [--drawn N] [--directory DIR ..] plays N drawn traces (2,000 if left out) in
each directory in each mode, and counts."""
import argparse
import os
import shutil
import subprocess
import sys
import threading
from collections import Counter
from functools import partial
from typing import Callable, List, Optional, Sequence, Tuple, Type

if __name__ == "__main__":
    sys.dont_write_bytecode = True

import drawing
import hostile_traces
import play_contained
import play_reads
import play_rows
import record_traces
from by_models import MODELS
from examples import VERSION_3
from harness import BUILT, EXAMPLES, TOP, Answer, Job, Outcome, Program, Timed, difference, first, guarded, shown, skipped
from model import AT_POSITION
from play_drawing import UNCOUNTED, Played, PlayedRecords
from player import MODES, UNTRIED, Player, against, answers
from traces import AT_FDCWD, FADVISE, FALLOCATE, FIXED_FILE, FSYNC, FTRUNCATE, HARDLINK, LINK, LINKAT, MKDIRAT, NOP, OPENAT, READ, RENAMEAT, SKIP
from traces import SYNC_FILE_RANGE, UNLINKAT
from traces import description, directory, enter, entry, file, head, ring, two_paths

# Drawn traces in the test command, each played in each mode in one of the directories; how many of them with bytes changed; and how many of both of
# version 3.
DRAWN, CHANGED, EACH, OF_VERSION_3 = 200, 200, 25, 100
# Of a hundred entries of drawn traces, played a chain at a time, so many are compared at least.
COMPARED = 80
TRACE = os.path.join(EXAMPLES, "read_four_bytes.trace")


def read(path: str) -> bytes:
    with open(path, "rb") as file_:
        return file_.read()


def examples(folders: Sequence[str] = ("", "recorded")) -> List[Tuple[str, bytes]]:
    each = ((os.path.join(EXAMPLES, at), it) for at in folders for it in sorted(os.listdir(os.path.join(EXAMPLES, at))))
    return [(it[:-6], read(os.path.join(at, it))) for at, it in each if it.endswith(".trace")]


def listed_words() -> List[str]:
    """The words that docs/FORMAT.md lists for what a play leaves out or does not compare."""
    text = read(os.path.join(TOP, "docs", "FORMAT.md")).decode()
    table = text.split("## The results of a play", 1)[1].split("\n## ", 1)[0]
    return [line.split("`")[1] for line in table.splitlines() if line.startswith("| `")]


# --- Plays that are held against the answers --------------------------------------------------------------------------

def refusal(player: Player, trace: bytes, line: bytes) -> Optional[str]:
    """What is wrong with how a trace is refused by a line, if anything is."""
    got = player.play([], trace)
    return None if got == Answer(1, b"", b"uring_play: " + line) else "{}, wanted {!r}".format(shown(got), line)


def limits(player: Player) -> List[Outcome]:
    """One past each limit of the format."""
    each = ((name, refusal(player, over, "trace refused: {}\n".format(line).encode())) for name, _, over, line in hostile_traces.limits())
    return [Outcome("play: one past the limit {}".format(name), fault) for name, fault in each]


def limits_of_version_3(player: Player, program: Program) -> List[Outcome]:
    """The same of version 3, by `check` and by the second reader."""
    outcomes = []
    for name, trace in record_traces.past_limits():
        checked = program.run(["check"], trace)
        fault = difference(checked, MODELS.run(["check"], trace)) or ("it is accepted" if not checked.status else refusal(player, trace, checked.errors))
        outcomes.append(Outcome("play: one past the limit of version 3 of {}".format(name), fault))
    return outcomes


def played(player: Player, program: Program, label: str, trace: bytes, places: List[str]) -> List[Outcome]:
    """One trace in each mode in some directories; one that the replayer refuses the player refuses by the same line."""
    report = answers(program, trace)
    if report.status:
        return [Outcome("play/{}: refused".format(label), refusal(player, trace, report.errors))]
    outcomes, allowed = [], set(listed_words())
    for place in places:
        for mode in MODES:
            found = player.compared(program, trace, report.output, mode, place)
            fault = found.fault or first(["{} is not listed".format(it) for it in set(found.words) - allowed])
            outcomes.append(Outcome("play/{}: {} in {}".format(label, mode, place), fault, found.untried))
    return outcomes


class Share:
    """How many entries of drawn traces were played a chain at a time, and how many of them are unchecked."""

    def __init__(self, what: str) -> None:
        self.what, self.entries, self.unchecked, self.lock = what, 0, 0, threading.Lock()

    def add(self, counts: List[int]) -> None:
        with self.lock:
            self.entries, self.unchecked = self.entries + sum(counts), self.unchecked + counts[2]

    def outcome(self) -> Outcome:
        fault = None if 100 * (self.entries - self.unchecked) >= COMPARED * self.entries else "of {} entries {} are unchecked".format(self.entries, self.unchecked)
        return Outcome("play: most of {} is compared".format(self.what), fault)


def drawn(player: Player, program: Program, share: Share, kind: Type[drawing.Draw], seeds: range) -> List[Outcome]:
    """Drawn traces: nothing differs."""
    faults, untried = [], []
    for seed in seeds:
        trace = kind(seed).trace()
        report = answers(program, trace).output
        place = player.directories()[seed % len(player.directories())]
        for mode in MODES:
            found = player.compared(program, trace, report, mode, place)
            faults += ["drawn {} {} in {}: {}".format(seed, mode, place, found.fault)] if found.fault else []
            untried += ["drawn {}: {}".format(seed, found.untried)] if found.untried else []
            faults += ["drawn {} {}: {} is not listed".format(seed, mode, it) for it in set(found.words) - set(listed_words())]
            if mode == "chains":
                share.add(found.counts["entries"])
    return [Outcome("play: {} {} to {}".format(share.what, seeds.start, seeds.stop - 1), first(faults), first(untried))]


def changed(player: Player, program: Program, what: str, made: Callable[[int], bytes], seeds: range) -> List[Outcome]:
    """Traces with bytes changed, as they stand: the player refuses those that the replayer refuses, and plays the others or says why it cannot."""
    faults = []
    for seed in seeds:
        trace = made(seed)
        checked, got = program.run(["check"], trace), player.play([], trace)
        if checked.status:
            fault = refusal(player, trace, checked.errors)
        else:
            is_told = got.status in (3, UNTRIED) and got.errors.startswith(b"uring_play: ") or got.status == 0
            fault = None if is_told else shown(got)
        faults += ["changed {}: {}".format(seed, fault)] if fault else []
    return [Outcome("play: {} {} to {}".format(what, seeds.start, seeds.stop - 1), first(faults))]


# --- The player by itself ---------------------------------------------------------------------------------------------

def notices(player: Player, program: Program) -> List[Outcome]:
    """A wrong expectation of each kind is told as a difference."""
    trace, outcomes = read(TRACE), []
    report = answers(program, trace).output
    for old, new in ((b"res=4", b"res=3"), (b"posted", b"silent"), (b"data=32", b"data=33"), (b"size=10", b"size=9"), (b"pos=0", b"pos=1"),
                     (b"node=1 size", b"node=2 size"), (b"sum=8", b"sum=9"), (b"file /a", b"file /b")):
        wrong = report.replace(old, new, 1)
        compared = program.run(["diff"], wrong + player.steered(trace, wrong).output)
        is_well = wrong != report and compared.status == 4
        outcomes.append(Outcome("the player: {!r} for {!r} is noticed".format(new, old), None if is_well else shown(compared)))
    return outcomes


def corrected(player: Player, program: Program) -> List[Outcome]:
    """What a kernel lacks is marked so, corrected, and all else is as it is proved."""
    nowhere = AT_FDCWD & 0xffffffff
    entries = [entry(MKDIRAT, fd=AT_FDCWD, side=b"/d"), entry(RENAMEAT, fd=AT_FDCWD, length=nowhere, side=two_paths(b"/a", b"/d/b")),
               entry(LINKAT, fd=AT_FDCWD, length=nowhere, side=two_paths(b"/d/b", b"/c")), entry(UNLINKAT, fd=AT_FDCWD, side=b"/d/b"),
               entry(FTRUNCATE, FIXED_FILE, offset=7), entry(FALLOCATE, FIXED_FILE, offset=3, address=9), entry(FSYNC, FIXED_FILE),
               entry(SYNC_FILE_RANGE, FIXED_FILE), entry(FADVISE, FIXED_FILE), entry(READ, FIXED_FILE, length=20)]
    front = [record_traces.head(1, 1), record_traces.file_of(b"/a", 10, b"0123456789"), description(1), record_traces.ring_of([1], [])]
    trace = b"".join([*front, record_traces.enter(0, [record_traces.stored(it) for it in entries]), record_traces.END])
    report = answers(program, trace).output
    outcomes = []
    lacked = (*UNCOUNTED, FADVISE)
    for each in (lacked, *([it] for it in lacked)):
        words = [word for it in each for word in ("--lacking", str(it))]
        got = player.steered(trace, report, words)
        compared = program.run(["diff"], report + got.output)
        is_well = got.status == 0 and compared.status == 0 and got.output.count(b"unchecked=unsupported") == len(each)
        outcomes.append(Outcome("the player: a kernel without {} is corrected".format(each), None if is_well else shown(got) + shown(compared)))
    refused = player.play(["--lacking", str(READ), TRACE])
    return [*outcomes, Outcome("the player: a kernel without READ is not played on", None if refused.status == 77 else shown(refused))]


def long_chains(player: Player, program: Program) -> List[Outcome]:
    """Chains of 1,000 and of 32,000 members take time by their length, where each runs in a thread too, and where they are silent."""
    outcomes, plays = [], Program(player.program, "")
    world = head(1, 1, 1, 1) + file(b"/a", 10, b"0123456789") + description(1) + ring([1])
    for label, flags, words in (("", LINK, []), (" in threads", LINK, ["--async"]), (" that are silent", LINK | SKIP, [])):
        timed = []
        for count in (1_000, 32_000):
            trace = world + enter(0, [entry(READ, FIXED_FILE | flags, length=4) for _ in range(count)])
            report = answers(program, trace).output
            found = against(program, report, player.steered(trace, report, words))
            outcomes.append(Outcome("the player: a chain of {}{}".format(count, label), found.fault, found.untried))
            expected = os.path.join(player.folder.name, "chain-{}{}".format(count, len(label)))
            with open(expected, "wb") as file_:
                file_.write(report)
            timed.append(Timed(["--quiet", "--directory", player.folder.name, "--expected", expected, *words], trace))
        # 32 times the members take 32 times as long; a pass over all of them for each would take 1,000 times.
        fault = None if found.untried else plays.outlasts(timed[1], timed[0], 150, counts=False)
        outcomes.append(Outcome("the player: chains{} cost by their length".format(label), fault))
    return outcomes


def silences(player: Player, program: Program) -> List[Outcome]:
    """Chains that end without a word of most members: one that is doomed, where each member fails by itself behind a silent head; and one
    that takes long behind a member that failed and is hard-linked."""
    doomed = [entry(OPENAT, HARDLINK | SKIP, AT_FDCWD, side=b"/" * 4_096, file_index=1), entry(READ, FIXED_FILE | 128, length=4)]
    slow = [entry(OPENAT, HARDLINK | SKIP, AT_FDCWD, side=b"/no", file_index=1), *([entry(READ, FIXED_FILE | HARDLINK | SKIP, length=1 << 30)] * 4),
            entry(NOP, HARDLINK), entry(READ, FIXED_FILE, length=4)]
    outcomes = []
    for label, chain, slots in (("doomed", doomed, ()), ("slow", slow, (1,))):
        trace = head(1, 1, 1, 1) + file(b"/a", 1 << 40, b"0123") + description(1) + ring(slots) + enter(0, chain)
        report = answers(program, trace).output
        outcomes.append(Outcome("the player: a {} chain".format(label), against(program, report, player.steered(trace, report, ["--patience", "100", "--no-read-sums"])).fault))
    return outcomes


def stuck(player: Player, program: Program) -> List[Outcome]:
    """An entry that never ends, since the second submission is dropped, ends the play with what is known; and so does a round."""
    reads = [enter(0, [entry(READ, FIXED_FILE, length=4)]) for _ in range(4)]
    trace = head(1, 1, 1, 4) + file(b"/a", 10, b"0123456789") + description(1) + ring([1]) + b"".join(reads)
    report, rounds = (program.run(it, trace).output for it in (["serial"], ["rounds", "--window", "1"]))
    outcomes = []
    for label, in_rounds in (("chains", b""), ("rounds", rounds)):
        got = player.with_less(stuck_at=2).steered(trace, report, ["--patience", "1"], in_rounds)
        lines = got.output.split(b"\n")
        told = [b" res=4 posted" in lines[2], b" silent " in lines[3], *(b"unchecked=stuck" in it for it in lines[4:6]), lines[6:] == [b"end", b""]]
        is_well = got.status == 3 and all(told) and b" not ended in 1 second" in got.errors
        outcomes.append(Outcome("the player: an entry that never ends, in {}".format(label), None if is_well else shown(got)))
    return outcomes


def on_less(player: Player, program: Program) -> List[Outcome]:
    """Systems that give less: no ring, an older kernel, no root of its own; and one without FTRUNCATE or without a look at slots."""
    trace, outcomes = read(TRACE), []
    report = answers(program, trace).output
    for error, wanted in ((1, UNTRIED), (22, UNTRIED), (38, UNTRIED), (12, UNTRIED), (23, 3)):
        got = player.with_less(rings=error).play([TRACE])
        outcomes.append(Outcome("the player: no ring, by error {}".format(error), None if got.status == wanted and not got.output else shown(got)))
    raw, plain = player.with_less(root=1).play(["--raw", TRACE]), player.with_less(root=1).steered(trace, report)
    outcomes.append(Outcome("the player: --raw without chroot", None if raw.status == UNTRIED and b"chroot" in raw.errors else shown(raw)))
    outcomes.append(Outcome("the player: a play without chroot", against(program, report, plain).fault))
    cut = head(1, 1, 1, 1) + file(b"/a", 10, b"0123456789") + description(1) + ring([1]) + enter(0, [entry(FTRUNCATE, FIXED_FILE, offset=3)])
    for lacking, text, word in ((FTRUNCATE, cut, b"unchecked=unsupported"), (54, trace, b"uring-report 1"), (READ, trace, b"")):
        expected = program.run(["serial", "--sums"], text).output
        got = player.with_less(lacking=lacking).steered(text, expected)
        is_well = got.status == 0 and word in got.output and not against(program, expected, got).fault if word else got.status == UNTRIED
        is_well = is_well and (lacking != 54 or b"\nslots\n" not in got.output)
        outcomes.append(Outcome("the player: a kernel without opcode {}".format(lacking), None if is_well else shown(got)))
    got = player.with_less(lacking=54).play([os.path.join(EXAMPLES, VERSION_3, "rings_of_one_queue.trace")])
    is_well = got.status == UNTRIED and b"slot" in got.errors
    return [*outcomes, Outcome("the player: a slot of another ring, on a kernel without opcode 54", None if is_well else shown(got))]


def unread(player: Player) -> List[Outcome]:
    """A reader who does not read holds the player up for --patience and some seconds; the directory has gone by then."""
    trace = head(0, 0, 1, 1) + ring() + enter(0, [entry(NOP)] * 30_000)
    started = subprocess.Popen([player.program, "-q", "-p", "1", "-d", player.folder.name], stdin=subprocess.PIPE, stdout=subprocess.PIPE, stderr=subprocess.PIPE)
    started.stdin.write(trace)
    started.stdin.close()
    status = started.wait(60)
    said = started.stderr.read()
    started.stderr.close()
    started.stdout.close()
    if status == UNTRIED:
        return skipped("the player: a reader who does not read", said.decode("utf-8", "replace").strip())
    is_well = status == 3 and b"hangs" in said
    return [Outcome("the player: a reader who does not read", None if is_well else "status {}, {!r}".format(status, said))]


def too_small(player: Player) -> List[Outcome]:
    """A system that cannot have the sizes of the tree: the path is told."""
    trace = head(1, 0, 0, 0) + file(b"/a\n", 1 << 40)
    got = Program(player.program, "").run(["-q", "-d", player.folder.name], trace, shell='ulimit -f 100; exec "$@"')
    is_well = got.status == 3 and got.errors.startswith(b"uring_play: /a\\x0a: it cannot have 1099511627776 bytes: ")
    return [Outcome("the player: a tree that is too large", None if is_well else shown(got))]


def rings_in_turn(count: int) -> bytes:
    """A trace of version 3 whose rings come and go, each with a slot of the one before it."""
    records = []
    for number in range(count):
        source = (record_traces.SLOT, number - 1, 0) if number else (record_traces.DESCRIPTION, 0, 0)
        read_one = record_traces.stored(entry(READ, FIXED_FILE, offset=AT_POSITION, length=1))
        records += [record_traces.ring(1, [(0, source)], [(4096, 4096)]), record_traces.enter(number, [read_one])]
        records += [record_traces.ring_ends(number - 1)] if number else []
    front = record_traces.head(1, 1) + record_traces.file(b"/a", 5_000, [(0, b"0123456789"), (4_096, b"abc")]) + description(1)
    return b"".join([front, *records, record_traces.END])


def rings_go(player: Player) -> List[Outcome]:
    """More rings than may be open at once, one after another, in each order."""
    trace, outcomes = rings_in_turn(400), []
    report, *others = (MODELS.run(it, trace).output for it in (["serial", "--sums"], ["rounds", "--window", "4"], ["depends"]))
    paths = [[it, os.path.join(player.folder.name, "in-turn" + it)] for it in ("--expected", "--rounds", "--depends")]
    for (_, path), text in zip(paths, (report, *others)):
        with open(path, "wb") as file_:
            file_.write(text)
    for label, more in (("chains", []), ("rounds", paths[1]), ("flight", paths[2])):
        got = Program(player.program, "").run(["-q", "-d", player.folder.name, *paths[0], *more], trace, shell='ulimit -n 200; exec "$@"')
        found = against(MODELS, report, got)
        outcomes.append(Outcome("the player: rings that come and go, in {}".format(label), found.fault, found.untried))
    return outcomes


def of_calls() -> bytes:
    """A trace of version 3 with sets and seeks of each kind, of slots and at a full table, between reads that move a position. What a slot of the second
    ring gets comes late, but a set of another slot of that ring needs nothing before it."""
    slot, number = (lambda ring, it: (record_traces.SLOT, ring, it)), (lambda it: (record_traces.DESCRIPTOR, 0, it))

    def read_at(where: record_traces.Holder) -> bytes:
        fixed = FIXED_FILE if where[0] == record_traces.SLOT else 0
        return record_traces.enter(min(where[1], 1), [record_traces.stored(entry(READ, fixed, where[2], AT_POSITION, 3))])

    records = [
        record_traces.ring(3, [(0, (record_traces.DESCRIPTION, 0, 0))]), read_at(slot(0, 0)),
        record_traces.set_copy(number(1), slot(0, 0)), record_traces.seek(number(1), 5), read_at(slot(0, 0)), record_traces.set_copy(slot(0, 1), number(1)),
        record_traces.set_nothing(slot(0, 0)), read_at(slot(0, 0)), read_at(slot(0, 1)), record_traces.set_path(number(0), b"/new", 0x42, 1 << 60),
        record_traces.set_path(slot(0, 2), b"d/new", 0x442), read_at(number(0)), record_traces.set_path(number(0), b"/a", 2, 4), read_at(number(0)),
        record_traces.set_taken(slot(0, 1)), read_at(slot(0, 1)), record_traces.set_copy(slot(0, 0), slot(0, 2)), record_traces.seek(slot(0, 0), 7),
        record_traces.set_copy(number(0), number(0)), record_traces.set_path(number(1), b"/no", 0), read_at(number(1)),
        record_traces.ring(2, [(0, number(0))]), record_traces.set_path(slot(1, 1), b"/a", 0, 8), read_at(slot(1, 0)), read_at(slot(1, 1)),
        record_traces.seek(number(1), 1), record_traces.set_taken(number(1)), record_traces.ring_ends(0),
    ]
    front = [record_traces.head(2, 1, 2, 2), record_traces.file_of(b"/a", 10, b"0123456789"), directory(b"/d"), description(1)]
    return b"".join([*front, *(record_traces.descriptor(it, 0) for it in range(2)), *records, record_traces.END])


def calls(player: Player) -> List[Outcome]:
    """Sets and seeks are calls of the player's, in each order. Where a kernel does not show what a slot holds, such a one is not played; where a path
    cannot be opened for a reason that OPENAT does not have, that is told."""
    trace = of_calls()
    outcomes = played(player, MODELS, "sets and seeks", trace, player.directories())
    front, held = record_traces.of_one_file(10, b"0123456789"), (record_traces.SLOT, 0, 0)
    for label, record, wanted in (("a seek", record_traces.seek(held, 4), UNTRIED), ("a copy", record_traces.set_copy(held, held), UNTRIED),
                                  ("a set", record_traces.set_nothing(held), 0), ("a set of a path", record_traces.set_path(held, b"/a"), 0)):
        got = player.with_less(lacking=54).play([], front + record + record_traces.END)
        is_well = got.status == wanted and (b"what a slot of a ring holds" in got.errors) == (wanted == UNTRIED)
        outcomes.append(Outcome("the player: {} of a slot, on a kernel without opcode 54".format(label), None if is_well else shown(got)))
    got = player.with_less(opens=5).play([], front + record_traces.set_path(held, b"/denied", 0x42) + record_traces.END)
    is_well = got.status == 0 and got.errors == b"uring_play: place 1: /denied cannot be opened: Input/output error\n" and b"tree\nfile /a" in got.output
    return [*outcomes, Outcome("the player: a path of a set that cannot be opened", None if is_well else shown(got))]


def sparse(player: Player) -> List[Outcome]:
    """A file by ranges has its bytes, and takes little room."""
    ranges, name = ((0, b"begin"), (1 << 30, b"middle" * 1_000), ((1 << 33) - 3, b"end")), "the player: files by ranges are sparse"
    made = player.play(["--prepare"], record_traces.head(1) + record_traces.file(b"/a", 1 << 34, ranges) + record_traces.END)
    folder = made.output.decode().strip()
    if made.status or not os.path.isdir(folder):
        return [Outcome(name, shown(made))]
    path = os.path.join(folder, "a")
    status = os.stat(path)
    with open(path, "rb") as file_:
        is_well = all(file_.seek(offset) == offset and file_.read(len(data) + 1) == data + b"\0" for offset, data in ranges)
    is_well = is_well and status.st_size == 1 << 34 and status.st_blocks * 512 < 1 << 24
    shutil.rmtree(folder)
    return [Outcome(name, None if is_well else "{} bytes in {} blocks".format(status.st_size, status.st_blocks))]


def statuses(player: Player) -> List[Outcome]:
    """Statuses, help, and what is left behind."""
    missing = head(1, 0, 0, 0) + directory(b"/a/b")
    pinned = head(0, 0, 3, 0) + b"".join(ring([], [(it << 32, 1 << 30)]) for it in range(3))
    cases = (
        (["--bogus"], b"", 2), (["--rounds", TRACE, TRACE], b"", 2), ([TRACE, TRACE], b"", 2), (["--raw", "--expected", TRACE, TRACE], b"", 2),
        (["--patience", "0", TRACE], b"", 2), (["--patience", "x", TRACE], b"", 2), (["--lacking", "256", TRACE], b"", 2),
        (["/nonexistent"], b"", 3), (["--directory", "/nonexistent", TRACE], b"", 3), (["--expected", TRACE, TRACE], b"", 3),
        (["--output", "/nonexistent/a", TRACE], b"", 3), ([], b"", 1), ([], read(TRACE)[:-1], 1), ([], read(TRACE) + b"x", 1),
        ([], missing, 1), ([], pinned, 3), (["--help"], b"", 0), (["--version"], b"", 0), ([TRACE], b"", 0),
    )
    outcomes = []
    for given, text, wanted in cases:
        got = player.play(given, text)
        is_well = got.status == wanted and (got.errors.startswith(b"uring_play: ") or b"unrecognized option" in got.errors if wanted else got.output and not got.errors)
        is_well = is_well and (not wanted or not got.output)
        label = "the player: {} of {} bytes".format(" ".join(os.path.basename(it) for it in given) or "(no words)", len(text))
        outcomes.append(Outcome(label, None if is_well else "{}, wanted status {}".format(shown(got), wanted)))
    return outcomes


def prepared(player: Player, program: Program) -> List[Outcome]:
    """A tree that is laid out first is played in where it lies, and stays; a link in it is refused."""
    trace, name = read(TRACE), "the player: --prepare and --prepared"
    report = answers(program, trace).output
    made = player.play(["--prepare"], trace)
    folder = made.output.decode().strip()
    if made.status or not os.path.isdir(folder):
        return [Outcome(name, shown(made))]
    got = player.steered(trace, report, ["--prepared"], directory=folder)
    compared = program.run(["diff"], report + got.output)
    stays = os.path.exists(os.path.join(folder, "a"))
    os.symlink("/", os.path.join(folder, "link"))
    refused = player.steered(trace, report, ["--prepared"], directory=folder)
    for it in ("link", "a"):
        os.unlink(os.path.join(folder, it))
    os.rmdir(folder)
    outcomes = [Outcome(name, None if compared.status == 0 and stays else shown(got) + shown(compared))]
    return [*outcomes, Outcome("the player: a prepared link is refused", None if refused.status == 3 and b"link: " in refused.errors else shown(refused))]


def interrupted(player: Player) -> List[Outcome]:
    """A signal that comes while it plays ends the player as it would, and the directory has gone."""
    reads = [enter(0, [entry(READ, FIXED_FILE, length=1 << 30)]) for _ in range(20_000)]
    trace = head(1, 1, 1, len(reads)) + file(b"/a", 1 << 40) + description(1) + ring([1]) + b"".join(reads)
    started = subprocess.Popen([player.program, "-d", player.folder.name], stdin=subprocess.PIPE, stdout=subprocess.DEVNULL, stderr=subprocess.PIPE)
    started.stdin.write(trace)
    started.stdin.close()
    try:
        started.wait(2)
    except subprocess.TimeoutExpired:
        started.terminate()
    status = started.wait(60)
    said = started.stderr.read()
    started.stderr.close()
    return [Outcome("the player: a signal ends it as it would", None if status == -15 else "status {}, {!r}".format(status, said))]


def compiles(player: Player, compiler: str) -> List[Outcome]:
    """The player compiles with all warnings as errors."""
    name = "the player: built by {}".format(compiler)
    if not shutil.which("make") or not shutil.which(compiler):
        return skipped(name, "there is no {}".format(compiler if shutil.which("make") else "make"))
    out = os.path.join(player.folder.name, "by-" + compiler)
    words = ["make", "-C", os.path.join(TOP, "tools"), "CC=" + compiler, "OUT=" + out, os.path.join(out, "uring_play")]
    ran = subprocess.run(words, stdin=subprocess.DEVNULL, stdout=subprocess.PIPE, stderr=subprocess.STDOUT)
    return [Outcome(name, ran.stdout.decode("utf-8", "replace")[-500:] if ran.returncode else None)]


class Ending:
    """Jobs that run side by side: behind the last of them to end it is looked at what all of them came to."""

    def __init__(self, player: Player, shares: Sequence[Share], count: int) -> None:
        self.player, self.shares, self.count, self.lock = player, shares, count, threading.Lock()

    def run(self, job: Job) -> List[Outcome]:
        outcomes = guarded(job)
        with self.lock:
            self.count -= 1
            return outcomes if self.count else [*outcomes, self.left_behind(), *(it.outcome() for it in self.shares)]

    def left_behind(self) -> Outcome:
        left = [os.path.join(at, it) for at in self.player.directories() for it in os.listdir(at) if it.startswith("uring_play.")]
        return Outcome("the player: nothing is left behind", first(left))


def jobs(programs: List[Program]) -> List[Job]:
    player = Player()
    lacking = player.lacking() or player.lacking_in_system(TRACE)
    if lacking:
        return [lambda: skipped("the player", lacking), partial(play_rows.words_agree, listed_words())]
    program = programs[0]
    shares = (Share("drawn traces"), Share("drawn traces of version 3"))
    each: List[Job] = [partial(it, player, program) for it in (limits_of_version_3, long_chains, silences, stuck, on_less, notices, corrected, prepared, play_rows.outcomes)]
    each += [partial(it, player) for it in (limits, unread, interrupted, too_small, rings_go, calls, sparse, statuses)]
    each += [partial(compiles, player, it) for it in ("gcc", "clang")]
    each += [partial(play_rows.words_agree, listed_words()), *play_contained.jobs(player, program), *play_reads.jobs(player, program)]
    each += [partial(drawn, player, program, shares[0], Played, range(at, at + EACH)) for at in range(0, DRAWN, EACH)]
    each += [partial(drawn, player, MODELS, shares[1], PlayedRecords, range(at, at + EACH)) for at in range(0, OF_VERSION_3, EACH)]
    each += [partial(changed, player, program, "changed traces", drawing.changed, range(at, at + EACH)) for at in range(0, CHANGED, EACH)]
    kind = "changed traces of version 3"
    each += [partial(changed, player, program, kind, record_traces.changed, range(at, at + EACH)) for at in range(0, OF_VERSION_3, EACH)]
    each += [partial(played, player, program, name, trace, player.directories()) for name, trace in examples()]
    each += [partial(played, player, MODELS, "version 3 " + name, trace, player.directories()) for name, trace in examples([VERSION_3])]
    ending = Ending(player, shares, len(each))
    return [partial(ending.run, it) for it in each]


# --- More, by hand ----------------------------------------------------------------------------------------------------

def more() -> int:
    words = argparse.ArgumentParser(description=__doc__, formatter_class=argparse.RawDescriptionHelpFormatter)
    words.add_argument("--program", default=BUILT, metavar="FILE", help="the replayer (the built one)")
    words.add_argument("--drawn", type=int, default=2_000, metavar="N", help="how many drawn traces (2,000)")
    words.add_argument("--directory", action="append", default=[], metavar="DIR", help="where they are played; may be given again")
    given = words.parse_args()
    player, program = Player(), Program(given.program, "given")
    lacking = player.lacking() or player.lacking_in_system(TRACE)
    if lacking:
        print("skipped: {}".format(lacking))
        return 0
    failed = 0
    for place in given.directory or player.directories():
        for mode in MODES:
            sums, unchecked, faults = Counter(), Counter(), []
            for seed in range(given.drawn):
                trace = Played(seed).trace()
                found = player.compared(program, trace, answers(program, trace).output, mode, place)
                sums.update({section: counts[0] for section, counts in found.counts.items()})
                unchecked.update(found.words)
                faults += ["drawn {}: {}".format(seed, found.fault)] if found.fault else []
            failed += len(faults)
            share = 100 * sums["entries"] / max(sums["entries"] + sum(unchecked.values()), 1)
            print("{} {}: {} of {} traces differ; equal: {}; {:.1f}% of the entries compared; unchecked: {}".format(
                place, mode, len(faults), given.drawn, dict(sums), share, dict(unchecked.most_common())), flush=True)
            for fault in faults[:10]:
                print("  " + fault)
    return 1 if failed else 0


if __name__ == "__main__":
    sys.exit(more())
