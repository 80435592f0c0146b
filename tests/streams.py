"""Traces of version 3 that are replayed while they come: what `serial` and `run` write before a fault, that no line waits for more of the input, and that its
memory does not grow with the trace. All else writes nothing before its whole output is there."""
import hashlib
import os
import random
import subprocess
import sys
import threading
from functools import partial
from itertools import chain
from typing import Callable, Iterator, List, NamedTuple, Optional, Sequence, Tuple

import by_models
import days
import json_lines
import model_records
import record_traces
from harness import TOP, Answer, Job, Outcome, Program, Words, difference, ended, fault, first, read, refused, short, shown, spoken
from records import lot
from shown import named
from traces import FIXED_FILE, READ, WRITE, description, entry

# How many fronts of drawn traces are tried, in how many lots, and with which words.
FRONTS, LOTS = 3_000, 6
WORDS = (["serial"], ["serial", "--sums"], ["serial", "--all-sums"], ["serial", "--names"], ["run"], ["run", "--sums"], ["serial", "--json"], ["run", "--json", "--names"])
# The words of those whose lines the second replayer tells.
PLAIN = (["serial"], ["serial", "--sums"], ["run"], ["serial", "--json"], ["run", "--json", "--sums"])
# How many drawn traces come in pieces.
IN_PIECES = 40
# How many seconds lines may take to come, which is some milliseconds; how long it is looked whether any come where none should; and how long a
# run that is fed may take.
PROMPT, QUIET, LONG = 5.0, 0.2, 300.0
# So many bytes are given at once.
AT_ONCE = 1 << 20


# --- Before a fault -------------------------------------------------------------------------------------------------

def front_of(seed: int) -> bytes:
    """A front of a drawn trace: one of three ends about where its start or a record does."""
    trace, source = record_traces.Records(seed).trace(), random.Random("front {}".format(seed))
    at, _ = source.choice(model_records.Records(trace).ends)
    return trace[: source.randrange(len(trace)) if source.randrange(3) else min(at + source.randrange(-1, 2), len(trace) - 1)]


def of_front(program: Program, seed: int) -> Optional[str]:
    """How the program serves such a front otherwise than as Short behind the lines of its whole records, if it does."""
    front, words = front_of(seed), WORDS[seed % len(WORDS)]
    wanted = refused("Short at {}".format(len(front)), model_records.lines_before(front))
    told = difference(by_models.replayed(front), wanted)
    wanted = wanted._replace(output=named(front, wanted.output)) if "--names" in words and wanted.output else wanted
    return "by the second reader: {}".format(told) if told else json_lines.differs(words, program.run(words, front), wanted)


def of_cut(program: Program, seed: int) -> Optional[str]:
    """How `--cut` serves such a front otherwise than as a trace that ends behind its last whole record, if it does. Of a whole trace it changes nothing."""
    front, words = front_of(seed), PLAIN[seed % len(PLAIN)]
    wanted = by_models.replayed_if_cut(front, "--sums" in words)
    whole = record_traces.Records(seed).trace()
    told = None if seed % IN_PIECES else json_lines.differs(words, program.run([*words, "--cut"], whole), by_models.replayed(whole, "--sums" in words))
    return told or json_lines.differs(words, program.run([*words, "--cut"], front), wanted)


def not_cut(program: Program) -> List[Outcome]:
    """What `--cut` takes is Short behind a start of version 3, and nothing else."""
    begun = record_traces.of_one_file(9, b"123456789") + record_traces.enter(0, [looked(3)])
    start, _ = model_records.Records(begun + record_traces.END).ends[0]
    cases = (
        ("nothing", b""),
        ("a start that is cut off", begun[: start - 1]),
        ("version 2", read("read_four_bytes.trace")[:-1]),
        ("another fault", begun + b"\x08"),
        ("bytes behind the end", begun + record_traces.END * 2),
    )
    outcomes = []
    for what, trace in cases:
        wanted = by_models.replayed(trace)
        told = "it is not refused" if wanted.status != 1 else difference(program.run(["serial", "--cut"], trace), wanted)
        outcomes.append(Outcome("--cut of {}, by {}".format(what, program.compiler), told))
    return outcomes


def outputs(program: Program) -> List[Outcome]:
    """An output that is full or closed is a fault of its own, also where the trace has one behind lines."""
    cases = (("read_four_bytes", fault("write")), ("lines_before_a_fault", fault("write")), ("header_word", by_models.replayed(read("version_3", "header_word.trace"))))
    outcomes = []
    for to in ("> /dev/full", ">&-", "1< /dev/null"):
        for words, (name, wanted) in ((words, it) for words in (["serial"], ["serial", "--json"]) for it in cases):
            told = difference(program.run(words, read("version_3", name + ".trace"), shell='exec "$@" ' + to), wanted)
            outcomes.append(Outcome("the output of {} fails, {} {}, by {}".format(name, spoken(words), to, program.compiler), told))
    shell = '"$0" "$1" read 100000 2> /dev/null | { "$2" serial; echo "status $?" >&2; } | head -c 1 > /dev/null'
    ran = subprocess.run(["/bin/sh", "-c", shell, sys.executable, BENCH, program.file], stdout=subprocess.PIPE, stderr=subprocess.PIPE, timeout=LONG)
    told = difference(Answer(0, ran.stdout, ran.stderr), Answer(0, b"", b"fault: write\nstatus 3\n"))
    return [*outcomes, Outcome("a reader that goes away from a stream, by {}".format(program.compiler), told)]


# --- While it comes -------------------------------------------------------------------------------------------------

class Fed:
    """A program whose inputs are pipes that stay open, and what it has written so far."""

    def __init__(self, program: Program, words: Words, named: int = 0) -> None:
        """Its input is standard input, or so many files that are named behind its words."""
        pipe, ends = subprocess.PIPE, [os.pipe() for _ in range(named or 1)]
        given, self.inputs = [it for it, _ in ends], [it for _, it in ends]
        command = [program.file, *words, *("/dev/fd/{}".format(it) for it in given if named)]
        self.started = subprocess.Popen(
            command, bufsize=0, stdin=subprocess.DEVNULL if named else given[0], stdout=pipe, stderr=pipe, pass_fds=given if named else ()
        )
        self.output, self.count, self.came = bytearray(), 0, threading.Condition()
        self.collector = threading.Thread(target=self.collect, daemon=True)
        self.guard = threading.Timer(LONG, self.started.kill)
        self.seconds = 0.0
        for it in given:
            os.close(it)

    def __enter__(self) -> "Fed":
        self.collector.start()
        self.guard.start()
        return self

    def __exit__(self, *_: object) -> None:
        self.guard.cancel()
        if self.started.returncode is None:
            self.started.kill()
            self.started.wait()
        self.collector.join()
        self.shut()
        for stream in (self.started.stdout, self.started.stderr):
            stream.close()

    def collect(self) -> None:
        for piece in iter(lambda: os.read(self.started.stdout.fileno(), AT_ONCE), b""):
            with self.came:
                self.take(piece)
                self.count += len(piece)
                self.came.notify_all()

    def take(self, piece: bytes) -> None:
        self.output += piece

    def give(self, data: bytes, to: int = 0) -> None:
        """Gives more of an input; it may be that the program ends before it takes all."""
        left = memoryview(data)
        try:
            while left:
                left = left[os.write(self.inputs[to], left) :]
        except BrokenPipeError:
            pass

    def shut(self) -> None:
        """Closes the inputs."""
        while self.inputs:
            os.close(self.inputs.pop())

    def comes(self, has_come: Callable[[], bool], seconds: float = PROMPT) -> bool:
        """Whether what is looked for is written in time."""
        with self.came:
            return self.came.wait_for(has_come, seconds)

    def reaches(self, count: int, seconds: float = PROMPT) -> bool:
        """Whether so many bytes are."""
        return self.comes(lambda: self.count >= count, seconds)

    def unlike(self, output: bytes, is_json: bool = False) -> Optional[str]:
        """How what has been written in time differs from an output, or from the objects of its lines, if it does."""
        lines = output.count(b"\n")
        self.comes(lambda: self.output.count(b"\n") >= lines if is_json else self.count >= len(output))
        with self.came:
            got = bytes(self.output)
        if is_json:
            return json_lines.of_text(output, got)
        return None if got == output else "{} bytes came, which end in {}; wanted {}, which end in {}".format(len(got), short(got[-80:]), len(output), short(output[-80:]))

    def end(self) -> Answer:
        """Closes the inputs, and gives the answer."""
        self.shut()
        return self.answer()

    def answer(self) -> Answer:
        """The answer of a program that ends."""
        status, self.seconds = ended(self.started)
        self.collector.join()
        return Answer(status, bytes(self.output), self.started.stderr.read())

    def peak(self) -> int:
        """The most memory that the program has had, in KiB, or 0 where it has ended. What wait4(2) tells is never below that of who started it."""
        with open("/proc/{}/status".format(self.started.pid)) as status:
            return next((int(line.split()[1]) for line in status if line.startswith("VmHWM:")), 0)


def as_it_comes(program: Program, words: Words, pieces: Sequence[bytes]) -> Optional[str]:
    """How a trace that comes in pieces is served otherwise than with all lines of its whole records behind each, if it is."""
    given = b""
    with Fed(program, words) as fed:
        for piece in pieces:
            fed.give(piece)
            given += piece
            told = fed.unlike(model_records.lines_before(given), "--json" in words)
            if told:
                return "behind {} bytes {}".format(len(given), told)
        wanted = by_models.replayed(given, "--sums" in words)
        return "it is refused: {}".format(shown(wanted)) if wanted.status else json_lines.differs(words, fed.end(), wanted)


def in_two(record: bytes) -> List[bytes]:
    return [record[: len(record) // 2], record[len(record) // 2 :]]


def wrote(size: int) -> bytes:
    return record_traces.stored(entry(WRITE, FIXED_FILE, length=size, side=bytes([size % 251]) * size, user_data=size))


def looked(at: int) -> bytes:
    return record_traces.stored(entry(READ, FIXED_FILE, offset=at, length=40, user_data=at))


def of_sizes() -> List[Tuple[str, List[bytes]]]:
    """Records of each size: an entry, forty, a write of 100 KB, one of 1 MB, one of zeros, and none."""
    zeros = record_traces.zeros(entry(WRITE, FIXED_FILE, length=1 << 24, side=bytes(1 << 24), offset=1 << 21, user_data=9))
    slot = (record_traces.SLOT, 0, 0)
    others = [record_traces.ring(buffers=[(0, 4096)]), record_traces.fill(1, 0, 5, b"abc"), record_traces.enter(0, []), record_traces.ring_ends(1),
              record_traces.set_path(slot, b"/a", 2), record_traces.seek(slot, 9), record_traces.set_copy(slot, slot)]
    return [
        ("an entry each", [record_traces.enter(0, [looked(it)]) for it in range(5)]),
        ("forty entries each", [record_traces.enter(0, [looked(at + it) for it in range(40)]) for at in range(0, 120, 40)]),
        ("a write of 100 KB each", [record_traces.enter(0, [wrote(100_000 + it), looked(it)]) for it in range(3)]),
        ("a write of 1 MB each", [record_traces.enter(0, [wrote((1 << 20) + it), looked(it)]) for it in range(3)]),
        ("a write of zeros, and records without entries", [record_traces.enter(0, [zeros, looked(1 << 21)]), *others, record_traces.enter(0, [looked(7)])]),
    ]


def prompt(program: Program, what: str, records: List[bytes]) -> List[Outcome]:
    """No line waits for what stands behind its record: where a piece ends behind a record, and where it ends within the next one."""
    start, end = record_traces.of_one_file(4096, bytes(range(256)) * 16), record_traces.END
    label = "lines come with their records, {}, {{}}, {{}}, by {}".format(what, program.compiler)
    within = [half for it in records for half in in_two(it)]
    across = [end_of + start_of for end_of, start_of in zip([b"", *within[1::2]], [*within[::2], b""])]
    cases = (("one by one", [*in_two(start), *records, end]), ("in halves", [start, *within, end]), ("within the next", [start, *across, end]), ("at once", [start + b"".join(records), end]))
    return [Outcome(label.format(spoken(words), how), as_it_comes(program, words, pieces)) for words in (["serial"], ["serial", "--json"]) for how, pieces in cases]


def of_pieces(program: Program, seed: int) -> Optional[str]:
    """The same of a drawn trace that comes in pieces of any length."""
    trace, source = record_traces.Records(seed).trace(), random.Random("pieces {}".format(seed))
    cuts = sorted({0, len(trace), *(source.randrange(len(trace)) for _ in range(8)), *(at for at, _ in model_records.Records(trace).ends if source.randrange(2))})
    return as_it_comes(program, PLAIN[seed % len(PLAIN)], [trace[at:behind] for at, behind in zip(cuts, cuts[1:])])


def told_at_once(program: Program) -> List[Outcome]:
    """A fault behind which the input goes on is told as soon as it is read, behind the lines before it."""
    begun = record_traces.of_one_file(9, b"123456789") + record_traces.enter(0, [looked(3)])
    behind = [("kinds, behind lines", begun + b"\x08"), ("rings, behind lines", begun + record_traces.ring_ends(1)), ("bytes behind the end", begun + record_traces.END * 2)]
    faults = []
    for what, trace in [*record_traces.past_limits(), *behind]:
        with Fed(program, ["serial"]) as fed:
            fed.give(trace)
            told = difference(fed.answer(), by_models.replayed(trace))
        faults += ["{}: {}".format(what, told)] if told else []
    return [Outcome("faults that are told while the input is open, by {}".format(program.compiler), first(faults))]


def nothing_before(program: Program) -> List[Outcome]:
    """Other commands, and those of versions 1 and 2, write nothing while a byte of the trace is to come."""
    name, outcomes = "read_four_bytes.trace", []
    of_version_3 = [["run", "--eager"], ["run", "--eager", "--json"], ["compare"], ["rounds"], ["depends"], ["check"], ["show"]]
    for trace, each in ((read("version_3", name), of_version_3), (read(name), [["serial"], ["serial", "--sums"], ["serial", "--json"], ["run"]])):
        for words in each:
            with Fed(program, words) as fed:
                fed.give(trace[:-1])
                told = "it writes {}".format(short(bytes(fed.output))) if fed.reaches(1, QUIET) else None
                fed.give(trace[-1:])
                told = told or difference(fed.end(), program.run(words, trace))
            outcomes.append(Outcome("nothing is written before the whole output is there: {} by {}".format(spoken(words), program.compiler), told))
    return outcomes


# --- In the memory of the world -------------------------------------------------------------------------------------

BENCH = os.path.join(TOP, "bench", "streams.py")
SHOWN = 32


class Long(NamedTuple):
    """A trace of bench/streams.py, but for its number of entries."""

    kind: str
    length: int
    step: int
    size: int

    def pieces(self) -> int:
        return (self.size - self.length) // self.step + 1

    def command(self, count: int) -> List[str]:
        return [sys.executable, BENCH, self.kind, str(count), *("--{}={}".format(it, getattr(self, it)) for it in ("length", "step", "size"))]

    def whole(self, count: int) -> bytes:
        return subprocess.run(self.command(count), stdin=subprocess.DEVNULL, stdout=subprocess.PIPE, check=True).stdout

    def facts(self, number: int) -> bytes:
        """What is told of the entry of a piece behind its place."""
        data = (b"%d, " % number * SHOWN)[: min(SHOWN, self.length)].hex() + ("+" if self.length > SHOWN else "")
        return " ring=0 user={} res={} posted{}\n".format(number, self.length, " data=" + data if self.kind == "read" else "").encode()

    def lines(self, count: int) -> Iterator[bytes]:
        """The first line, and those of so many entries; the first of them is behind the ring."""
        facts = [self.facts(number) for number in range(self.pieces())]
        yield b"uring-report 2\n"
        for at in range(0, count, len(facts)):
            yield b"".join(b"%d%s" % (place, it) for place, it in zip(range(at + 1, count + 1), facts))

    def objects(self, count: int) -> Iterator[bytes]:
        """The objects of these lines."""
        parts = [json_lines.objects(b"0" + self.facts(number)).partition(b'"place":0') for number in range(self.pieces())]
        yield json_lines.objects(b"uring-report 2\n")
        for at in range(0, count, len(parts)):
            yield b"".join(b'%s"place":%d%s' % (before, place, behind) for place, (before, _, behind) in zip(range(at + 1, count + 1), parts))

    def end(self, has_sum: bool) -> bytes:
        """What stands behind the lines of a trace whose file stays as it is."""
        data = b"".join((b"%d, " % it * self.step)[: self.step] for it in range(self.size // self.step))
        told = " sum={}".format(hashlib.sha256(data).hexdigest()) if has_sum else ""
        return "tree\nfile /a node=1 size={}{}\nslots\nslot 0 0 desc=0 node=1 pos=0\nbuffers\nend\n".format(self.size, told).encode()


class Summed(Fed):
    """The same, of which the sum of what is written is kept alone."""

    def __init__(self, program: Program, words: Words) -> None:
        super().__init__(program, words)
        self.sum = hashlib.sha256()

    def take(self, piece: bytes) -> None:
        self.sum.update(piece)

    def feed(self, command: Sequence[str]) -> bytes:
        """Gives what a command writes, but for its last byte, which is given back."""
        with subprocess.Popen(command, stdin=subprocess.DEVNULL, stdout=subprocess.PIPE) as bench:
            held = b""
            for piece in iter(lambda: bench.stdout.read1(AT_ONCE), b""):
                self.give(held + piece[:-1])
                held = piece[-1:]
        return held


def streamed(program: Program, words: Words, what: Long, count: int) -> Tuple[Optional[str], int]:
    """How a long trace is served otherwise than it should be, if it is; and the memory that it takes, when all but its last byte was given."""
    with Summed(program, words) as fed:
        last = fed.feed(what.command(count))
        peak = fed.peak()
        fed.give(last)
        got = fed.end()
    wanted, end = hashlib.sha256(), what.end("--sums" in words)
    for lines in chain(what.objects(count), [json_lines.objects(end)]) if "--json" in words else chain(what.lines(count), [end]):
        wanted.update(lines)
    is_well = got == Answer(0, b"", b"") and fed.sum.digest() == wanted.digest()
    return None if is_well else "{}, and {} bytes of another sum".format(shown(got), fed.count), peak


class Bounded(NamedTuple):
    """A long trace whose memory is bounded: the words, of how many entries, and the most KiB."""

    label: str
    what: Long
    words: List[str]
    count: int
    most: int


# Of how many times the entries the memory may be so many times as large, and so many KiB more. It is 0.9 to 1.3 times, by what comes at once.
TIMES, MORE, SPARE = 4, 1.5, 2_048
BOUNDED = (
    Bounded("1,000,000 reads of 512 bytes of 1 MiB", Long("read", 512, 512, 1 << 20), ["serial"], 1_000_000, 16_000),
    Bounded("1,000,000 reads of 512 bytes of 1 MiB, as objects", Long("read", 512, 512, 1 << 20), ["serial", "--json"], 1_000_000, 16_000),
    Bounded("8,192 writes of 64 KiB over 8 MiB", Long("write", 1 << 16, 1 << 16, 1 << 23), ["serial", "--sums"], 8_192, 80_000),
    Bounded("8,192 writes of 64 KiB over 8 MiB, each 4 KiB behind the one before", Long("write", 1 << 16, 1 << 12, 1 << 23), ["serial"], 8_192, 80_000),
)
# How many entries of each are replayed by the second replayer.
BY_MODEL = 40


def of_model(bounded: Bounded) -> List[Outcome]:
    """What is wanted of long traces is what the second replayer gives of short ones."""
    count = BY_MODEL if bounded.what.kind == "write" else bounded.what.pieces() + BY_MODEL
    got = by_models.replayed(bounded.what.whole(count))
    lines = b"".join(bounded.what.lines(count))
    is_well = got.status == 0 and got.output.startswith(lines + b"tree\n") and (bounded.what.length != bounded.what.step or got.output == lines + bounded.what.end(False))
    return [Outcome("{}, by the second replayer".format(bounded.label), None if is_well else shown(got))]


def in_memory(program: Program, bounded: Bounded) -> List[Outcome]:
    """Four times the entries take no more memory, and neither takes much."""
    label, peaks = "{{}} {}, by {}".format(bounded.label, program.compiler), []
    for times in (1, TIMES):
        told, peak = streamed(program, bounded.words, bounded.what, times * bounded.count)
        if told:
            return [Outcome(label.format("the lines of {} times".format(times)), told)]
        peaks.append(peak)
    is_well = peaks[1] <= min(MORE * peaks[0] + SPARE, bounded.most)
    return [Outcome(label.format("the memory of"), None if is_well else "it takes {} KiB, and {} KiB for {} times the entries".format(*peaks, TIMES))]


# How many records leave one page each in a file, and 1 MB over the bytes of the one before in another; and the most KiB.
RECORDS, PAGE, MOST = 400, 4096, 40_000


def leaving_a_page(number: int) -> bytes:
    page = entry(WRITE, FIXED_FILE, 0, offset=number * PAGE, length=PAGE, side=bytes([1 + number % 250]) * PAGE, user_data=number)
    others = [entry(WRITE, FIXED_FILE, 1, length=1 << 16, side=bytes([1 + it]) * (1 << 16), user_data=it) for it in range(16)]
    return record_traces.enter(0, [record_traces.stored(it) for it in (page, *others)])


def pages_alone(program: Program) -> List[Outcome]:
    """What is left of a record in the world takes its own memory, and not that of the record."""
    files = record_traces.file(b"/a", 0) + record_traces.file(b"/b", 0) + description(1) + description(2)
    slots = [(it, (record_traces.DESCRIPTION, 0, it)) for it in range(2)]
    with Fed(program, ["serial"]) as fed:
        fed.give(record_traces.head(2, 2) + files + record_traces.ring(2, slots))
        for number in range(RECORDS):
            fed.give(leaving_a_page(number))
        peak = fed.peak()
        fed.give(record_traces.END)
        got = fed.end()
    size = "\nfile /a node=1 size={}\nfile /b node=2 size={}\n".format(RECORDS * PAGE, 1 << 16).encode()
    is_well = got.status == 0 and size in got.output and peak <= MOST
    return [Outcome("the memory of {} records of which a page is left, by {}".format(RECORDS, program.compiler), None if is_well else "{}, and {} KiB".format(shown(got), peak))]


# Records of so many bytes, each written over the one before; and the most KiB: of the file, of what takes its place, of one record, and some more.
LARGE, LARGEST = 40 << 20, (3 * 40 + 8) << 10


def one_at_a_time(program: Program) -> List[Outcome]:
    """A record is let go before the next one is read, so that one buffer is enough."""
    slots = [(0, (record_traces.DESCRIPTION, 0, 0))]
    with Fed(program, ["serial"]) as fed:
        fed.give(record_traces.head(1, 1) + record_traces.file(b"/a", 0) + description(1) + record_traces.ring(1, slots))
        for number in range(4):
            fed.give(record_traces.enter(0, [record_traces.stored(entry(WRITE, FIXED_FILE, 0, length=LARGE, side=bytes([1 + number]) * LARGE))]))
        peak = fed.peak()
        fed.give(record_traces.END)
        got = fed.end()
    is_well = got.status == 0 and "\nfile /a node=1 size={}\n".format(LARGE).encode() in got.output and peak <= LARGEST
    return [Outcome("the memory of records of {} bytes, by {}".format(LARGE, program.compiler), None if is_well else "{}, and {} KiB".format(shown(got), peak))]


def jobs(programs: List[Program]) -> List[Job]:
    each = FRONTS // LOTS
    starts = [at + back for back in (0, days.first_seed()) for at in range(0, FRONTS, each)]
    made: List[Job] = [partial(in_memory, programs[0], it) for it in BOUNDED] + [partial(of_model, it) for it in BOUNDED if "--json" not in it.words]
    for program in programs:
        made += [partial(it, program) for it in (outputs, told_at_once, nothing_before, not_cut, pages_alone, one_at_a_time)]
        made += [partial(prompt, program, *it) for it in of_sizes()]
        made.append(partial(lot, program, "traces of version 3 that come in pieces", of_pieces, range(IN_PIECES)))
        made += [partial(lot, program, label, tried, range(at, at + each)) for label, tried in (("fronts of traces of version 3", of_front), ("such fronts with --cut", of_cut))
                 for at in (starts if program is programs[0] else starts[:: LOTS])]
    return made
