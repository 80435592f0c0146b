"""Small inputs of large cost: what each may take, beside another run of the same program or beside its report."""
import os
import subprocess
import sys
from functools import partial
from typing import List, Optional, Sequence

from harness import TOP, Answer, Job, Outcome, Program, Timed, difference, shown
from traces import AT_FDCWD, FIXED_FILE, READ, READ_FIXED, RENAMEAT, WRITE, WRITE_FIXED
from traces import description, directory, enter, entry, file, fill, head, ring, two_paths

PAGE = 4_096
BUFFER = 1 << 30
# How often a doubled buffer is written to a file, and how many times the processor time of the sum of 64 MiB it may take to
# compare what that gives, which is 2.5 times: some 600 nanoseconds a page of 4,096 bytes, of which hashing takes 18,000.
WRITTEN, HASHED, MOST_DOUBLED = 8, 1 << 26, 5
# How many directories are moved one into another, with names of so many bytes; how many bytes of memory the report may take for
# each of its bytes, which is 2; and how many times the processor time of the sum of 64 MiB it may take, which is 0.12 to 0.3, and as
# long a report with names that are not printed as they are, which is 0.3 to 0.7: machines differ in how fast they hash.
MOVED, NAME, MOST_MEMORY, MOST_VISIBLE, MOST_ESCAPED = 1_000, 250, 2.5, 0.5, 1.5
# Traces of bench/ with few pairs a place: their words, with {} for the number of places, and that number. How many times the processor
# time of `serial` their dependencies may take, and how many times that of a tenth of the places.
FEW_PAIRS = (
    *(("serial_rounds.py --write {} --entries {{}}".format(it), 100_000) for it in ("disjoint", "appends", "range", "chain", "drains", "opens")),
    *(("workloads.py {} {{}}".format(it), 100_000) for it in ("rings", "one_file", "paths", "chains", "appends")),
    *(("workloads.py {}".format(it), 100_000) for it in ("rw {} 64 1", "position {} 1")),
    *(("workloads.py {}".format(it), 30_000) for it in ("pages {} 1", "files {} 1")),
    ("workloads.py big {} 1", 2_000),
)
MOST_BESIDE_SERIAL, MOST_OF_TEN = 30, 40
# How many reads lie within each other, in how many KiB of memory their dependencies are told, and how many times the processor time of as
# many that lie side by side that may take.
NESTED, NESTED_MEMORY, MOST_NESTED = 10_000, 100_000, 3
# Of how many reads of all of a file and as many writes of parts of it each write waits for each read; and how many times the processor
# time of half as many, which have a quarter of the pairs, they may take.
CROSSED, MOST_OF_FOUR = 1_000, 8


def doubled(pattern: bytes) -> bytes:
    """A trace that fills the start of a buffer, doubles it by a file until it is full, and writes it to the file again and again."""
    entries, size = [], PAGE
    while size < BUFFER:
        entries.append(entry(WRITE_FIXED, FIXED_FILE, length=size, address=PAGE))
        entries.append(entry(READ_FIXED, FIXED_FILE, length=size, address=PAGE + size))
        size *= 2
    entries += [entry(WRITE_FIXED, FIXED_FILE, offset=it * BUFFER, length=BUFFER, address=PAGE) for it in range(WRITTEN)]
    return head(1, 1, 1, 2) + file(b"/f") + description(1) + ring([1], [(PAGE, BUFFER)]) + fill(0, 0, 0, pattern) + enter(0, entries)


def outlasts_sum(program: Program, words: Sequence[str], trace: bytes, most: float) -> Optional[str]:
    """How long a run takes beside the sum of 64 MiB, where that is too long. A machine that hashes by instructions of its own takes fewer."""
    alone = head(rings=1, records=1) + ring([], [(PAGE, HASHED)]) + fill(0, 0, 0, b"x")
    return program.outlasts(Timed(words, trace), Timed(["serial", "--sums"], alone), most, counts=False)


def doubled_buffers(program: Program) -> List[Outcome]:
    """What a doubled buffer leaves is compared in a time that goes with its pages, whether its first page lies in the trace or apart."""
    outcomes = []
    for name, pattern in (("a page of the trace", bytes(range(256)) * 16), ("a few bytes", b"abc")):
        trace = doubled(pattern)
        label = "a buffer doubled from {}, {{}}, by {}".format(name, program.compiler)
        outcomes.append(Outcome(label.format("the answer"), difference(program.run(["compare"], trace), Answer(0, b"equal\n", b""))))
        outcomes.append(Outcome(label.format("the time"), outlasts_sum(program, ["compare"], trace, MOST_DOUBLED)))
    return outcomes


def moved_in(count: int, byte: bytes) -> bytes:
    """A trace that makes a deep tree by few bytes: directories three levels deep, of which each is moved below the one before."""
    tops = [b"/" + (b"%d" % number).rjust(NAME, byte) for number in range(count // 3)]
    below = b"/" + byte * NAME
    items = [directory(top + below * level) for top in tops for level in range(3)]
    entries = []
    for number in range(len(tops) - 1, 0, -1):
        old, new = tops[number], tops[number - 1] + below * 2 + b"/" + byte * (NAME - 1) + b"0"
        entries.append(entry(RENAMEAT, fd=AT_FDCWD, length=AT_FDCWD & 0xFFFFFFFF, side=two_paths(old, new)))
    return head(len(items), 0, 1, 1) + b"".join(items) + ring() + enter(0, entries)


def deep_trees(program: Program) -> List[Outcome]:
    """The report of a tree that renames made deep takes little more memory than its bytes, and little time, also where none of the bytes
    of its names is printed as it is: each is told by four then, so half as many names give as long a report."""
    visible, escaped = moved_in(MOVED, b"m"), moved_in(MOVED // 2, b"\1")
    ample = program.run(["serial"], visible)
    limit = int(MOST_MEMORY * len(ample.output)) >> 10
    large = difference(program.run(["serial"], visible, shell='ulimit -v {}; exec "$@"'.format(limit)), ample)
    outcomes = [Outcome("a tree made deep by renames, the memory, by {}".format(program.compiler), shown(ample) if ample.status else large)]
    for name, trace, most in (("printed", visible, MOST_VISIBLE), ("escaped", escaped, MOST_ESCAPED)):
        told = outlasts_sum(program, ["serial"], trace, most)
        outcomes.append(Outcome("such a tree with names that are {}, by {}".format(name, program.compiler), told))
    return outcomes


def benched(words: str, count: int) -> bytes:
    """A trace that a script of bench/ writes."""
    script, *given = words.format(count).split()
    return subprocess.run([sys.executable, os.path.join(TOP, "bench", script), *given], stdout=subprocess.PIPE, check=True).stdout


def few_pairs(program: Program, words: str, count: int) -> List[Outcome]:
    """The dependencies of many places that have few each take little more time than their replay, and a time that goes with the places."""
    trace = benched(words, count)
    whole, serial, tenth = Timed(["depends"], trace), Timed(["serial"], trace), Timed(["depends"], benched(words, count // 10))
    label = "depends of {}, beside {{}}, by {}".format(words.format(count), program.compiler)
    return [
        Outcome(label.format("serial"), program.outlasts(whole, serial, MOST_BESIDE_SERIAL)),
        Outcome(label.format("a tenth"), program.outlasts(whole, tenth, MOST_OF_TEN)),
    ]


def transfers(size: int, entries: Sequence[bytes]) -> bytes:
    """A file of zeros that is open in slot 0, and entries."""
    return head(1, 1, 1, 1) + file(b"/f", size) + description(1) + ring([1]) + enter(0, entries)


def without_pairs(count: int) -> bytes:
    """Lines that `depends` tells of so many places of which none waits."""
    return b"places %d\npairs 0\nspan 1 to place 0\nparallelism %d.00\n" % (count, count)


def nested_reads(program: Program) -> List[Outcome]:
    """Reads within each other, of which none waits, take as much time and memory as reads side by side."""
    nested = transfers(2 * NESTED, [entry(READ, FIXED_FILE, offset=it, length=2 * (NESTED - it)) for it in range(NESTED)])
    beside = transfers(2 * NESTED, [entry(READ, FIXED_FILE, offset=2 * it, length=2) for it in range(NESTED)])
    given = program.run(["depends"], nested, shell='ulimit -v {}; exec "$@"'.format(NESTED_MEMORY))
    slow = program.outlasts(Timed(["depends"], nested), Timed(["depends"], beside), MOST_NESTED)
    return [
        Outcome("depends of nested reads, the memory, by {}".format(program.compiler), None if without_pairs(NESTED) in given.output else shown(given)),
        Outcome("depends of nested reads, the time, by {}".format(program.compiler), slow),
    ]


def crossed(count: int) -> bytes:
    """Reads of all of a file, and as many writes of a few bytes of it side by side."""
    reads = [entry(READ, FIXED_FILE, length=1024 * count) for _ in range(count)]
    return transfers(1024 * count, [*reads, *(entry(WRITE, FIXED_FILE, offset=1024 * it, length=8, side=b"abcdefgh") for it in range(count))])


def many_pairs(program: Program) -> List[Outcome]:
    """Where each write waits for each read the memory goes with the text, in which each pair is told, and the time with the pairs."""
    trace = crossed(CROSSED)
    ample = program.run(["depends"], trace)
    fact = b"\npairs %d\nspan 2 to place %d\nparallelism %d.00\n" % (CROSSED * CROSSED, CROSSED, CROSSED)
    limit = int(MOST_MEMORY * len(ample.output)) >> 10
    large = difference(program.run(["depends"], trace, shell='ulimit -v {}; exec "$@"'.format(limit)), ample)
    slow = program.outlasts(Timed(["depends"], trace), Timed(["depends"], crossed(CROSSED // 2)), MOST_OF_FOUR)
    return [
        Outcome("depends of reads that each write waits for, by {}".format(program.compiler), None if fact in ample.output else shown(ample)),
        Outcome("the same, the memory, by {}".format(program.compiler), shown(ample) if ample.status else large),
        Outcome("the same, the time, by {}".format(program.compiler), slow),
    ]


def jobs(programs: List[Program]) -> List[Job]:
    tried = [partial(it, programs[0]) for it in (doubled_buffers, deep_trees, nested_reads, many_pairs)]
    return [*tried, *(partial(few_pairs, programs[0], words, count) for words, count in FEW_PAIRS)]
