"""Sums of much in few bytes: of a file with many names, and of files and buffers of zeros. Each is hashed once, which the
processor time shows, beside that of one file or buffer alone. And sums of stored bytes, on several threads. The sums that are
wanted are those of hashlib."""
import hashlib
import os
import subprocess
import tempfile
import threading
from functools import partial
from typing import Iterable, Iterator, List, NamedTuple, Tuple

import traces
from harness import RUNS, SECONDS, Answer, Job, Outcome, Program, difference, opened

# The most bytes of a file whose sum is told.
SIZE = 1 << 24
WORDS = (["serial", "--sums"], ["run", "--sums"])


class Work(NamedTuple):
    """A trace with its report, and a trace with one of the files or buffers alone. The first may take so many times the
    processor time of the second."""

    name: str
    trace: bytes
    report: bytes
    alone: bytes
    most: float


def report(files: Iterable[bytes] = (), rings: int = 0, buffers: Iterable[bytes] = ()) -> bytes:
    headings = [b"ring %d" % ring for ring in range(rings)]
    return b"\n".join([b"uring-report 1", *headings, b"tree", *files, b"slots", b"buffers", *buffers, b"end", b""])


def sums_of_zeros(lengths: Iterable[int]) -> Iterator[bytes]:
    """The sums of zeros of rising lengths."""
    hasher, done = hashlib.sha256(), 0
    for length in lengths:
        while done < length:
            count = min(length - done, 1 << 20)
            hasher.update(bytes(count))
            done += count
        yield hasher.hexdigest().encode()


def one_file_of_many_names(count: int = 200) -> Work:
    def trace(names: int) -> bytes:
        return traces.head(names) + traces.file(b"/0000", SIZE, b"x") + b"".join(traces.name(b"/%04d" % at, 1) for at in range(1, names))

    total = hashlib.sha256(b"x" + bytes(SIZE - 1)).hexdigest().encode()
    lines = (b"file /%04d node=1 size=%d sum=%s" % (at, SIZE, total) for at in range(count))
    return Work("a file of {} names".format(count), trace(count), report(lines), trace(1), 8)


def files_of_zeros(count: int = 200) -> Work:
    """Files of rising sizes, the last one of the most bytes that are summed."""

    def trace(sizes: List[int]) -> bytes:
        return traces.head(len(sizes)) + b"".join(traces.file(b"/%04d" % at, size) for at, size in enumerate(sizes))

    sizes = list(range(SIZE - count + 1, SIZE + 1))
    lines = (b"file /%04d node=%d size=%d sum=%s" % (at, at + 1, sizes[at], total) for at, total in enumerate(sums_of_zeros(sizes)))
    return Work("{} files of zeros".format(count), trace(sizes), report(lines), trace([SIZE]), 8)


def buffers_of_zeros(rings: int, each: int, length: int, most: float) -> Work:
    def trace(count: int, each: int) -> bytes:
        return traces.head(rings=count) + traces.ring([], [(at << 32, length) for at in range(each)]) * count

    total = next(sums_of_zeros([length]))
    lines = (b"buffer %d %d len=%d sum=%s" % (ring, at, length, total) for ring in range(rings) for at in range(each))
    return Work("{} buffers of {} zeros".format(rings * each, length), trace(rings, each), report((), rings, lines), trace(1, 1), most)


def buffers_that_end(rings: int, each: int, length: int, most: float) -> Work:
    """Buffers of zeros but for their last byte: what is ahead of it is hashed once."""

    def trace(count: int, each: int) -> bytes:
        world = traces.ring([], [(at << 32, length) for at in range(each)]) * count
        fills = [traces.fill(ring, at, length - 1, b"x") for ring in range(count) for at in range(each)]
        return traces.head(rings=count, records=len(fills)) + world + b"".join(fills)

    total = hashlib.sha256(bytes(length - 1) + b"x").hexdigest().encode()
    lines = (b"buffer %d %d len=%d sum=%s" % (ring, at, length, total) for ring in range(rings) for at in range(each))
    return Work("{} buffers of {} bytes with one at their ends".format(rings * each, length), trace(rings, each), report((), rings, lines), trace(1, 1), most)


def works() -> Iterator[Work]:
    yield one_file_of_many_names()
    yield files_of_zeros()
    yield buffers_of_zeros(64, 1024, 1 << 26, 8)
    yield buffers_that_end(8, 1024, 1 << 27, 4)


def timed(program: Program, words: List[str], trace: bytes) -> Tuple[Answer, float]:
    """An answer, and the processor time that it took."""
    RUNS[0] += 1
    with tempfile.TemporaryFile() as output, tempfile.TemporaryFile() as errors, opened(trace) as source:
        environment = {"PATH": os.environ.get("PATH", os.defpath)}
        started = subprocess.Popen([program.file, *words], stdin=source, stdout=output, stderr=errors, env=environment)
        guard = threading.Timer(SECONDS, started.kill)
        guard.start()
        try:
            _, status, usage = os.wait4(started.pid, 0)
        finally:
            guard.cancel()
        started.returncode = os.waitstatus_to_exitcode(status)
        output.seek(0)
        errors.seek(0)
        return Answer(started.returncode, output.read(), errors.read()), usage.ru_utime + usage.ru_stime


def hashed_once(program: Program, work: Work) -> List[Outcome]:
    """The report has the sums, and takes no longer than it may."""
    outcomes = []
    for words in WORDS:
        label = "{}: {{}} {} by {}".format(work.name, " ".join(words), program.compiler)
        got, seconds = timed(program, words, work.trace)
        outcomes.append(Outcome(label.format("the sums,"), difference(got, Answer(0, work.report, b""))))
        alone = timed(program, words, work.alone)[1]
        slow = "{:.2f} seconds, and one alone {:.2f}".format(seconds, alone)
        outcomes.append(Outcome(label.format("the time,"), None if seconds <= work.most * alone else slow))
    return outcomes


def pattern(size: int, first: int) -> bytes:
    """So many bytes that repeat each 251, from one of them on."""
    return (bytes((first + at) % 251 for at in range(251)) * (size // 251 + 1))[:size]


def on_threads(program: Program) -> List[Outcome]:
    """Files and buffers of uneven lengths, some of them zeros: the sums are the same on any number of threads."""
    sizes = [0, 1, 4_096, 100_000, 131_071, 131_072, 400_000, 1 << 20, 3 << 20, SIZE, SIZE + 1]
    stored = [pattern(size, at) if at % 4 != 3 else b"" for at, size in enumerate(sizes)]
    filled = [pattern(size, 100 + at) if at % 3 != 2 else bytes(size) for at, size in enumerate((5, 5_000, 300_000, 600_000, 2_000_000))]
    items = b"".join(traces.file(b"/%02d" % at, size, stored[at]) for at, size in enumerate(sizes))
    ring = traces.ring([], [(at << 32, len(data)) for at, data in enumerate(filled)])
    fills = [traces.fill(0, at, 0, data) for at, data in enumerate(filled)]
    sums = [hashlib.sha256(data.ljust(size, b"\0")).hexdigest().encode() if size <= SIZE else b"large" for size, data in zip(sizes, stored)]
    files = [b"file /%02d node=%d size=%d sum=%s" % (at, at + 1, size, sums[at]) for at, size in enumerate(sizes)]
    buffers = [b"buffer 0 %d len=%d sum=%s" % (at, len(data), hashlib.sha256(data).hexdigest().encode()) for at, data in enumerate(filled)]
    trace = traces.head(len(sizes), 0, 1, len(fills)) + items + ring + b"".join(fills)
    wanted = Answer(0, report(files, 1, buffers), b"")
    words = [["serial", "--sums"], *(["run", "--workers", str(workers), "--sums"] for workers in (1, 2, 3, 4, 64))]
    return [Outcome("sums of uneven lengths: {} by {}".format(" ".join(it), program.compiler), difference(program.run(it, trace), wanted)) for it in words]


def jobs(programs: List[Program]) -> List[Job]:
    alone = [partial(hashed_once, program, work) for work in works() for program in programs]
    return [*alone, *(partial(on_threads, program) for program in programs)]
