"""Traces too large for examples/, most of which examples/make writes when asked: the most places, the longest record, the longest
input, writes that are worth threads, and one of version 3 that is longer than other versions may be."""
import hashlib
import os
import shlex
import struct
import subprocess
import sys
import tempfile
from functools import partial
from typing import Iterator, List, Tuple

import record_traces
from harness import TOP, Answer, Job, Outcome, Program, Timed, difference, first, read, refused, reports_refused, shown, spoken
from traces import AT_FDCWD, CLOSE, FIXED_FILE, GREATEST_BUFFER, GREATEST_SIZE, NOP, OPENAT, READ, READ_FIXED, WRITE, WRITE_FIXED
from traces import description, directory, enter, entry, file, fill, fixed, head, hole, opened_in_slot, removed, ring

MOST_PLACES = 1_048_576
MOST_RINGS = 64
# How many times the processor time of one ring many may take, which is 1 to 1.7 times on a busy machine.
MOST_RATIO = 2.7
# How deep directories lie, one in another and then side by side, and how many times the processor time of `check` it may take
# to make a world of them and to tell it, which is 1.4 to 2 times.
DEPTH, BESIDE = 2_000, 10_000
MOST_DEEP = 4.0
# How many names the longest path has that an entry may have, how many files so deep are opened or removed, and how many times the
# processor time of `check` that may take, which is 3 to 9 times. With a walk of 1 microsecond a name it was 100.
DEEPEST, SO_DEEP, MOST_SO_DEEP = 2_046, 2_048, 30.0
# How many such entries wait for one another, and how many times the processor time of `serial` they may take in rounds, which is 4
# to 22 times. With each looked at again in each round, or each name asked for in each reach before it, it was over 300.
WAITING_SO_DEEP, MOST_WAITING_SO_DEEP = 256, 60.0
# How many descriptors a table has at most, how many files are opened in it and closed, and how many times the processor time of a
# table of one descriptor that may take, which is 1 to 8 times. With a look-up of each descriptor that is taken it was 28 to 68.
TABLE, OPENED, MOST_IN_TABLE = 1_024, 10_000, 16.0
# How many entries wait for one another, and how many times the processor time of as many disjoint ones they may take in rounds
# of which each looks at so many, which is 2 to 4.5 and 8 to 13 times. Were each looked at in each round, it would be 50 and
# over 1,000.
WAITING, MOST_WAITING = 60_000, {64: 12.0, 4096: 60.0}
# How many entries carry little, and how many times the processor time of `serial` they may take `run`, which is 1 to 1.8 times
# on a busy machine. In rounds it was 3 to 19.
LITTLE, MOST_LITTLE = 200_000, 2.5
# How many bytes of memory the entries of the longest trace may take `check` for each byte of their text, which is 2.3, room
# to grow included.
MOST_MEMORY = 2.9
# How much memory, in kilobytes, transfers of zeros may take, however long they are; 40,000 are enough.
ZEROS_MEMORY = 100_000
# How often all of a file is read and a byte of it written then, or all of it read but its start, how many pages the file has, and
# how much memory, in kilobytes, that may take; 60,000 are enough. With a copy of the list of pages each time it was 210,000 to 620,000.
TIMES, PAGES, LISTS_MEMORY = 4_096, 4_096, 110_000
# How many bytes of memory bytes that a file begins with, that are written and that fill a buffer may take for each byte of the
# text that has them, which is 1.4, room to grow included: they share it. With a copy of each it was 2.4, and 3.5 for `compare`.
MOST_BESIDE = 1.8
# How many times the processor time of transfers by offsets those at the position may take, which is 1 to 2 times.
MOST_AT_POSITION = 5.0
POSITION = (1 << 64) - 1
# How many times the processor time of holes at the end of a file those at its start may take, which is 1 to 2 times. With all
# pages behind a hole moved each time it was 170.
MOST_AT_START = 5.0
# How many pages lie a mebibyte apart and are made holes one by one, and how many times the processor time that large holes over them
# may take of what they take where no page was taken away before, which is 1 to 2 times. With a look at each such page it was 170.
APART, MOST_EMPTIED = 16_384, 5.0
# How many bytes each entry of a long trace of version 3 stores, how many such entries are written at once, and how much memory, in kilobytes,
# counting or replaying them may take.
STORED, RECORDS_AT_ONCE, STREAM_MEMORY = 1 << 20, 64, 50_000
MODES: Tuple[Tuple[List[str], str], ...] = ((["serial"], ".report"), (["serial", "--sums"], ".sums"), (["check"], ".check"))
# How often each pair of workers and window is tried on writes that are worth threads.
OFTEN = 4
PAIRS = ((1, 64), (2, 2), (2, 64), (3, 8), (4, 64), (64, 64), (64, 4096))


def tried(program: Program) -> List[Outcome]:
    """All of them by one program, one after another, since some take gigabytes of memory."""
    outcomes = []
    with tempfile.TemporaryDirectory() as folder:
        subprocess.run([os.path.join(TOP, "examples", "make"), "--large", folder], check=True, stdout=subprocess.DEVNULL)
        names = sorted(os.path.join(folder, file[:-6]) for file in os.listdir(folder) if file.endswith(".trace"))
        for name in names:
            for words, ending in MODES:
                if os.path.exists(name + ".refused"):
                    has_lines = words != ["check"] and os.path.exists(name + ".lines")
                    wanted = Answer(1, read(name + ".lines") if has_lines else b"", read(name + ".refused"))
                else:
                    wanted = Answer(0, read(name + ending), b"")
                label = "{} {} by {}".format(os.path.basename(name), spoken(words), program.compiler)
                outcomes.append(Outcome(label, difference(program.run(words, name + ".trace"), wanted)))
    return outcomes or [Outcome("large traces", "examples/make --large wrote none")]


def on_threads(program: Program) -> List[Outcome]:
    """Writes that are worth threads, in rounds of several widths: `tests/memory.py` counts the threads."""
    outcomes = []
    with tempfile.TemporaryDirectory() as folder:
        subprocess.run([os.path.join(TOP, "examples", "make"), "--large", folder], check=True, stdout=subprocess.DEVNULL)
        name = os.path.join(folder, "heavy_writes_side_by_side")
        for workers, window in PAIRS:
            for words, wanted in ((["run", "--sums"], read(name + ".sums")), (["compare"], b"equal\n")):
                words += ["--workers", str(workers), "--window", str(window)]
                answers = (program.run(words, name + ".trace") for _ in range(OFTEN))
                faults = [difference(answer, Answer(0, wanted, b"")) for answer in answers]
                outcomes.append(Outcome("{} {} times by {}".format(spoken(words), OFTEN, program.compiler), first([it for it in faults if it])))
    return outcomes


def long_reports(program: Program) -> List[Outcome]:
    """The longest input of `diff` is read, and one byte more is refused for its length."""
    first, long = "the first does not begin with uring-report 1", "more than 1073741824 bytes"
    outcomes = []
    for size, line in ((1 << 30, first), ((1 << 30) + 1, long)):
        got = program.run(["diff"], None, shell='head -c {} /dev/zero | "$@"'.format(size))
        outcomes.append(Outcome("diff of {} bytes by {}".format(size, program.compiler), difference(got, reports_refused(line))))
    return outcomes


def written_in_turn(folder: str, size: int) -> Tuple[str, int]:
    """What a shell does to give a trace of version 3 of more than so many bytes through a pipe, in which one ring writes a file; and how many
    entries it has."""
    wrote = record_traces.stored(entry(WRITE, FIXED_FILE, length=STORED, side=os.urandom(STORED)))
    records = record_traces.enter(0, [wrote]) * RECORDS_AT_ONCE
    parts = {"start": record_traces.of_one_file(0), "records": records, "end": record_traces.END}
    for name, part in parts.items():
        with open(os.path.join(folder, name), "wb") as out:
            out.write(part)
    times = size // len(records) + 1
    start, records, end = (shlex.quote(os.path.join(folder, name)) for name in parts)
    return "{{ cat {}; for i in $(seq {}); do cat {}; done; cat {}; }}".format(start, times, records, end), times * RECORDS_AT_ONCE


def long_records(program: Program) -> List[Outcome]:
    """A trace of version 3 of more than 2^30 bytes is counted and replayed as it comes, in the memory of one record and of its file; one that is at
    fault is refused as soon as that was read."""
    outcomes = []
    with tempfile.TemporaryDirectory() as folder:
        given, count = written_in_turn(folder, 1 << 30)
        shell = '{} | {{ ulimit -v {}; exec "$@"; }}'.format(given, STREAM_MEMORY)
        counted = program.run(["check"], None, shell=shell)
        wanted = Answer(0, "ok {} places 1 rings\n".format(count + 1).encode(), b"")
        outcomes.append(Outcome("check of over 2^30 bytes of version 3 by {}".format(program.compiler), difference(counted, wanted)))
        replayed = program.run(["serial"], None, shell=shell)
        done = replayed.status == 0 and replayed.output.count(" res={} posted\n".format(STORED).encode()) == count
        outcomes.append(Outcome("serial of over 2^30 bytes of version 3 by {}".format(program.compiler), None if done else shown(replayed)))
    shell = "{{ printf 'URINGTRC\\003'; head -c {} /dev/zero; }} | {{ ulimit -v {}; exec \"$@\"; }}".format(1 << 31, STREAM_MEMORY)
    got = program.run(["check"], None, shell=shell)
    outcomes.append(Outcome("check of zeros of version 3 by {}".format(program.compiler), difference(got, refused("Limit at 32"))))
    return outcomes


def longest_texts() -> Iterator[Tuple[str, str, List[str], int]]:
    """What a text has the most of, the lines before, those lines, and how many of these it may have."""
    one, three = "uring-trace 1\n", "uring-trace 3\n"
    yield "items", one, ["dir /{}\n".format(it) for it in range(65_536)], 65_535
    yield "descriptions", one, ["open {} / O_RDONLY\n".format(it) for it in range(65_536)], 65_535
    yield "entries of a call", one + "ring 0\nenter 0\n", ["NOP\n"] * 32_769, 32_768
    fills = one + "ring 0\nbuffer 0 0 1\n"
    yield "fills", fills, ["fill 0 buffer=0\n"] * (MOST_PLACES + 1), MOST_PLACES
    yield "entries behind fills", fills + "fill 0 buffer=0\n" * (MOST_PLACES - 1) + "enter 0\n", ["NOP\n"] * 2, 1
    yield "descriptions of version 3", three, ["open {} / O_RDONLY\n".format(it) for it in range((1 << 20) + 1)], 1 << 20
    yield "rings of version 3", three, ["ring {}\n".format(it) for it in range((1 << 20) + 1)], 1 << 20
    yield "buffers of version 3", three + "ring 0\n", ["buffer {} 0 0\n".format(it) for it in range(16_385)], 16_384
    yield "entries of version 3", three + "ring 0\nenter 0\n", ["NOP\n"] * 32_769, 32_768


def long_texts(program: Program) -> List[Outcome]:
    """A text with the most of each is made a trace, and one more is refused at its line."""
    outcomes = []
    for what, front, lines, most in longest_texts():
        made = program.run(["make"], (front + "".join(lines[:most])).encode())
        told = None if made.status == 0 else shown(made)
        line = front.count("\n") + most + 1
        wanted = Answer(1, b"", "text refused: {}:1: there is one more of these than a trace may have\n".format(line).encode())
        told = told or difference(program.run(["make"], (front + "".join(lines)).encode()), wanted)
        outcomes.append(Outcome("a text of the most {}, and one more, by {}".format(what, program.compiler), told))
    return outcomes


def many_rings(program: Program) -> List[Outcome]:
    """The same steps on as many rings as there may be take no longer than on one. A walk over all places for each ring
    would take four times that."""
    timed = []
    for rings in (MOST_RINGS, 1):
        world = head(rings=rings, records=MOST_PLACES) + ring(buffers=[(4096, 16)]) * rings
        timed.append(Timed(["serial"], world + b"".join(fill(number, 0, 0, b"") for number in range(rings)) * (MOST_PLACES // rings)))
    return [Outcome("a report of many rings by {}".format(program.compiler), program.outlasts(*timed, MOST_RATIO))]


def deep_tree(program: Program) -> List[Outcome]:
    """A tree of deep directories is made with one look-up for each, and not with one for each name of its path."""
    above = b"/a" * DEPTH
    paths = [above[:2 * depth] for depth in range(1, DEPTH + 1)] + [above + b"/%d" % at for at in range(BESIDE)]
    trace = head(items=len(paths)) + b"".join(directory(path) for path in paths)
    told = program.outlasts(Timed(["serial"], trace), Timed(["check"], trace), MOST_DEEP)
    return [Outcome("a tree of depth {} by {}".format(DEPTH, program.compiler), told)]


def of_deep_paths(count: int) -> List[Tuple[str, bytes, int]]:
    """A file that is opened so many times in one slot, and ten that are removed in turn so often, all as deep as a path may lead;
    and how many of these entries succeed."""
    above = b"/a" * DEEPEST
    directories = [directory(above[:2 * depth]) for depth in range(1, DEEPEST + 1)]
    names = [above + b"/%d" % (at % 10) for at in range(count)]
    made = []
    for what, files, entries in (("opens", names[:1], [opened_in_slot(names[0], 0)] * count), ("removals", names[:10], [removed(it) for it in names])):
        items = [*directories, *map(file, files)]
        trace = head(len(items), rings=1, records=1) + b"".join(items) + ring([0]) + enter(0, entries)
        made.append((what, trace, count if what == "opens" else len(files)))
    return made


def deep_paths(program: Program) -> List[Outcome]:
    """A walk of a deep path takes a look-up for each of its names, and in rounds some more."""
    outcomes = []
    for count, most, kinds in ((SO_DEEP, MOST_SO_DEEP, (["check"], ["serial"])), (WAITING_SO_DEEP, MOST_WAITING_SO_DEEP, (["serial"], ["compare"], ["rounds"]))):
        for what, trace, done in of_deep_paths(count):
            succeeded = program.run(["serial"], trace).output.count(b" res=0 posted\n")
            outcomes.append(Outcome("{} of {} {} at depth {} by {}".format(done, count, what, DEEPEST, program.compiler), None if succeeded == done else "{} succeed".format(succeeded)))
            for words in kinds[1:]:
                told = program.outlasts(Timed(words, trace), Timed(kinds[0], trace), most)
                outcomes.append(Outcome("{} of {} {} at depth {} by {}".format(spoken(words), count, what, DEEPEST, program.compiler), told))
    return outcomes


def in_table(descriptors: int) -> bytes:
    """A file that is opened at the last descriptor of a table, all others of which are taken, and closed again and again."""
    taken = struct.pack("<{}I".format(descriptors), *[1] * (descriptors - 1), 0)
    world = head(1, 1, 1, 1, descriptors, version=2) + file(b"/a") + description(1) + taken + ring()
    return world + enter(0, [entry(OPENAT, fd=AT_FDCWD, side=b"/a"), entry(CLOSE, fd=descriptors - 1)] * OPENED)


def full_table(program: Program) -> List[Outcome]:
    """The lowest free descriptor is found by the fronts of blocks, and not by a walk over the taken ones."""
    outcomes = []
    for words in (["serial"], ["compare"]):
        told = program.outlasts(Timed(words, in_table(TABLE)), Timed(words, in_table(1)), MOST_IN_TABLE)
        outcomes.append(Outcome("{} of {} opens in a table of {} by {}".format(spoken(words), OPENED, TABLE, program.compiler), told))
    opened = program.run(["serial"], in_table(TABLE)).output.count(" res={} posted\n".format(TABLE - 1).encode())
    outcomes.append(Outcome("the descriptor of {} opens by {}".format(OPENED, program.compiler), None if opened == OPENED else "{} take it".format(opened)))
    return outcomes


def waiting(program: Program) -> List[Outcome]:
    """Where one entry runs a round, those that wait aren't looked at again in each, however many a round looks at: neither to
    run them nor to tell for whom they wait."""
    bench = os.path.join(TOP, "bench", "serial_rounds.py")
    outcomes = []
    disjoint, *others = (
        (kind, subprocess.run([sys.executable, bench, "--write", kind, "--entries", str(WAITING)], check=True, stdout=subprocess.PIPE).stdout)
        for kind in ("disjoint", "appends", "range", "chain", "drains", "opens")
    )
    for kind, trace in others:
        for window, most in MOST_WAITING.items():
            for mode in ("compare", "rounds"):
                words = [mode, "--window", str(window)]
                told = program.outlasts(Timed(words, trace), Timed(words, disjoint[1]), most)
                outcomes.append(Outcome("{} of entries that wait, {}, window {}, by {}".format(mode, kind, window, program.compiler), told))
    return outcomes


def carrying_little(program: Program) -> List[Outcome]:
    """Where entries carry so little that rounds would only cost, `run` takes what `serial` does."""
    bench = os.path.join(TOP, "bench", "serial_rounds.py")
    outcomes = []
    for kind in ("disjoint", "chain"):
        trace = subprocess.run([sys.executable, bench, "--write", kind, "--entries", str(LITTLE)], check=True, stdout=subprocess.PIPE).stdout
        told = program.outlasts(Timed(["run"], trace), Timed(["serial"], trace), MOST_LITTLE)
        outcomes.append(Outcome("entries that carry little, {}, by {}".format(kind, program.compiler), told))
    return outcomes


def many_entries(program: Program) -> List[Outcome]:
    """What is kept of an entry beside the text is where it lies there."""
    trace = head(rings=1, records=MOST_PLACES >> 15) + ring() + enter(0, [entry(NOP)] * (1 << 15)) * (MOST_PLACES >> 15)
    limit = int(MOST_MEMORY * len(trace)) >> 10
    got = program.run(["check"], trace, shell='ulimit -v {}; exec "$@"'.format(limit))
    wanted = Answer(0, "ok {} places 1 rings\n".format(MOST_PLACES).encode(), b"")
    return [Outcome("the memory of many entries by {}".format(program.compiler), difference(got, wanted))]


def long_transfers(program: Program) -> List[Outcome]:
    """Zeros that are read, and zeros that go between a file and a buffer, take no memory."""
    each = [entry(READ, FIXED_FILE, offset=POSITION, length=GREATEST_BUFFER), *(fixed(opcode, GREATEST_BUFFER) for opcode in (READ_FIXED, WRITE_FIXED))]
    world = head(1, 1, 1, 1) + file(b"/a", GREATEST_SIZE) + description(1) + ring([1], [(4096, GREATEST_BUFFER)])
    trace = world + enter(0, each * 340)
    line = " res={} posted".format(GREATEST_BUFFER).encode()
    outcomes = []
    for words, told_of, count in ((["serial"], line, len(each) * 340), (["compare"], b"equal\n", 1)):
        got = program.run(words, trace, shell='ulimit -v {}; exec "$@"'.format(ZEROS_MEMORY))
        told = None if got.status == 0 and got.output.count(told_of) == count else shown(got)
        outcomes.append(Outcome("{} of long transfers by {}".format(spoken(words), program.compiler), told))
    return outcomes


def of_shared_lists() -> List[Tuple[str, bytes, bytes, int]]:
    """Traces of files of many pages, side by side or far apart, of which all is read and a byte written, or all but the start is read:
    what each is, the end of the line of some entries, and how many have it."""
    size, apart = PAGES << 12, 1 << 20
    stored = head(1, 1, 1, 1) + file(b"/a", size, os.urandom(size)) + description(1) + ring([1])
    sparse = head(1, 1, 1, 1) + file(b"/a", GREATEST_SIZE) + description(1) + ring([1])
    far = [entry(WRITE, FIXED_FILE, offset=it * apart, length=1, side=b"x") for it in range(PAGES)]
    traces = []
    for what, world, length, step, before in (("side by side", stored, size, 4096, []), ("far apart", sparse, (1 << 32) - 1, apart, far)):
        pairs = ((entry(READ, FIXED_FILE, length=length), entry(WRITE, FIXED_FILE, offset=it * 37 % PAGES * step, length=1, side=b"y")) for it in range(TIMES))
        entries = before + [it for pair in pairs for it in pair]
        traces.append(("changes of pages {} that were read".format(what), world + enter(0, entries), b" res=1 posted", len(before) + TIMES))
    parts = enter(0, [entry(READ, FIXED_FILE, offset=5000, length=size - 5000)] * TIMES)
    return [*traces, ("reads of all but the start of a file", stored + parts, " res={} posted".format(size - 5000).encode(), TIMES)]


def shared_lists(program: Program) -> List[Outcome]:
    """Bytes that were read share the list of their pages, of which a change copies a small part."""
    outcomes = []
    for what, trace, told, count in of_shared_lists():
        got = program.run(["serial"], trace, shell='ulimit -v {}; exec "$@"'.format(LISTS_MEMORY))
        found = None if got.status == 0 and got.output.count(told) == count else shown(got)
        outcomes.append(Outcome("{} by {}".format(what, program.compiler), found))
    return outcomes


def of_long_bytes(size: int) -> Tuple[bytes, bytes, bytes]:
    """A trace of a file that begins with so many bytes, of a fill of as many and of a write of as many across the file's end, which
    begins within a page, and then of one byte within what was written; the bytes of the file at the end, and those of the buffer."""
    stored, filled, written = (os.urandom(size) for _ in range(3))
    at, changed = size - 1001, size + 5
    world = head(1, 1, 1, 2) + file(b"/a", size, stored) + description(1) + ring([1], [(4096, size)])
    entries = [entry(WRITE, FIXED_FILE, offset=at, length=size, side=written), entry(WRITE, FIXED_FILE, offset=changed, length=1, side=b"!"),
               entry(READ, FIXED_FILE, offset=at - 2, length=4)]
    whole = bytearray(stored[:at] + written)
    whole[changed] = ord("!")
    return world + fill(0, 0, 0, filled) + enter(0, entries), bytes(whole), filled


def long_bytes(program: Program) -> List[Outcome]:
    """Bytes of the trace that files and buffers take over are what they should be, also behind a change, and take no memory
    beside its text."""
    outcomes = []
    for size, words in ((1 << 23, ["serial", "--sums"]), (1 << 26, ["serial"]), (1 << 26, ["compare"])):
        trace, whole, filled = of_long_bytes(size)
        lines = [b"data=" + whole[size - 1003:size - 999].hex().encode()]
        lines += [b"sum=" + hashlib.sha256(it).hexdigest().encode() for it in (whole, filled)] if "--sums" in words else []
        got = program.run(words, trace, shell='ulimit -v {}; exec "$@"'.format(int(max(MOST_BESIDE * len(trace), 1 << 26)) >> 10))
        told = got.output == b"equal\n" if words == ["compare"] else all(line in got.output for line in lines)
        label = "{} of bytes that share a text of {} by {}".format(spoken(words), len(trace), program.compiler)
        outcomes.append(Outcome(label, None if got.status == 0 and told else shown(got)))
    return outcomes


def at_the_position(program: Program) -> List[Outcome]:
    """Transfers at the position cost as those by offsets do, though each uses the whole file."""
    world = head(1, 1, 1, 1) + file(b"/a", 1 << 24, os.urandom(1 << 24)) + description(1) + ring([1])
    outcomes = []
    for what, opcode, side in (("reads", READ, b""), ("writes", WRITE, os.urandom(1 << 10))):
        traces = [world + enter(0, [entry(opcode, FIXED_FILE, offset=at or (it << 10), length=1 << 10, side=side) for it in range(1 << 14)])
                  for at in (0, POSITION)]
        for words in (["serial"], ["compare"], ["compare", "--window", "1"]):
            apart, took = (Timed(words, trace) for trace in traces)
            told = program.outlasts(took, apart, MOST_AT_POSITION)
            outcomes.append(Outcome("{} of {} at the position by {}".format(spoken(words), what, program.compiler), told))
    return outcomes


def holes(program: Program) -> List[Outcome]:
    """A page that is taken away and written again costs the same wherever in a file it lies, and however many lie behind it."""
    size = 1 << 24
    world = head(1, 1, 1, 1) + file(b"/a", size, os.urandom(size)) + description(1) + ring([1])
    at_start, at_end = (
        Timed(["serial"], world + enter(0, [hole(at, 4096), entry(WRITE, FIXED_FILE, offset=at, length=1, side=b"x")] * (1 << 14)))
        for at in (0, size - 4096)
    )
    return [Outcome("holes at the start of a file by {}".format(program.compiler), program.outlasts(at_start, at_end, MOST_AT_START))]


def emptied(program: Program) -> List[Outcome]:
    """Pages that were taken away one by one cost later holes over all of them nothing."""
    world = head(1, 1, 1, 3) + file(b"/a", GREATEST_SIZE) + description(1) + ring([1])
    written = enter(0, [entry(WRITE, FIXED_FILE, offset=it << 20, length=1, side=b"x") for it in range(APART)])
    small = [enter(0, [hole((it << 20) + beside, 4096) for it in range(APART)]) for beside in (0, 8192)]
    large = enter(0, [hole(0, APART << 20)] * APART)
    taken, left = (Timed(["serial"], world + written + it + large) for it in small)
    return [Outcome("holes over pages that were taken away by {}".format(program.compiler), program.outlasts(taken, left, MOST_EMPTIED))]


def jobs(programs: List[Program]) -> List[Job]:
    alone = [partial(it, programs[0]) for it in (tried, long_reports, long_records, long_texts, many_rings, deep_tree, deep_paths, full_table, many_entries, long_transfers, shared_lists, long_bytes, at_the_position, holes, emptied, waiting, carrying_little)]
    return [*alone, *(partial(on_threads, it) for it in programs)]
