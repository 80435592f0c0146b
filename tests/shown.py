"""What a report shows beside what each one does: names of operations and errors, and sums of large files. The names that are wanted are
those of the kernel's headers and of Python's errno, the sums those of hashlib."""
import errno
import hashlib
import os
import re
from functools import partial
from typing import Callable, Dict, Iterator, List, NamedTuple, Sequence, Tuple

import model
import model_records
import record_traces
import traces
from drawing import Draw
from examples import names as examples
from harness import EXAMPLES, TOP, Answer, Job, Outcome, Program, Timed, difference, first, read, shown, spoken
from hostile_traces import base

MODES = (["serial"], ["run", "--workers", "3"])

# --- Names ----------------------------------------------------------------------------------------------------------

DEFINED = {
    "opcode_names": os.path.join(TOP, "crates", "text_forms", "specs", "Names.antt"),
    "errno_names": os.path.join(TOP, "crates", "replay_report", "specs", "Names.antt"),
}
ERRORS = ("/usr/include/asm-generic/errno-base.h", "/usr/include/asm-generic/errno.h")
OPCODES = "/usr/include/linux/io_uring.h"
# The operations that are modelled, and those that headers of older kernels lack (io_uring_enter(2); Linux 6.16).
KNOWN = {
    0: "NOP", 1: "READV", 2: "WRITEV", 3: "FSYNC", 4: "READ_FIXED", 5: "WRITE_FIXED", 8: "SYNC_FILE_RANGE", 17: "FALLOCATE", 18: "OPENAT", 19: "CLOSE", 21: "STATX",
    22: "READ", 23: "WRITE", 24: "FADVISE", 35: "RENAMEAT", 36: "UNLINKAT", 37: "MKDIRAT", 39: "LINKAT", 55: "FTRUNCATE",
    49: "READ_MULTISHOT", 50: "WAITID", 51: "FUTEX_WAIT", 52: "FUTEX_WAKE", 53: "FUTEX_WAITV", 54: "FIXED_FD_INSTALL", 56: "BIND", 57: "LISTEN",
    58: "RECV_ZC", 59: "EPOLL_WAIT", 60: "READV_FIXED", 61: "WRITEV_FIXED", 62: "PIPE",
}
MOST_OPCODE = 62


def text_of(file: str) -> str:
    """A header without its comments; nothing where the machine has none."""
    try:
        with open(file, encoding="utf-8") as header:
            return re.sub(r"/\*.*?\*/", "", header.read(), flags=re.S)
    except FileNotFoundError:
        return ""


def opcodes() -> Dict[int, str]:
    """The operations by their numbers, as the kernel's header lists them, and the known ones."""
    listed = re.search(r"enum io_uring_op \{(.*?)\}", text_of(OPCODES), re.S)
    names = re.findall(r"IORING_OP_(\w+)", listed[1]) if listed else []
    return {**{at: name for at, name in enumerate(names) if name != "LAST" and at <= MOST_OPCODE}, **KNOWN}


def errors() -> Dict[int, str]:
    """The errors by their numbers, as the kernel's headers define them; where these lack, as Python names them."""
    found = re.findall(r"^#define\s+(E\w+)\s+(\d+)\s*$", "".join(map(text_of, ERRORS)), re.M)
    return {int(number): name for name, number in found}


def defined(table: str) -> List[str]:
    """The names of a table of the definitions, by their numbers."""
    with open(DEFINED[table], encoding="utf-8") as file:
        text = re.search(r"^{} =\n(.*?)\[\]$".format(table), file.read(), re.S | re.M)
    return re.findall(r'codes "(\w*)"', text[1])


def tables() -> List[Outcome]:
    """The tables of names hold what the headers and Python say, and no number has a name that they do not know."""
    outcomes = []
    for table, wanted in (("opcode_names", opcodes()), ("errno_names", errors())):
        names = defined(table)
        faults = ["{} is {!r}, wanted {!r}".format(at, names[at] if at < len(names) else "", name)
                  for at, name in sorted(wanted.items()) if at >= len(names) or names[at] != name]
        if len(wanted) > 100 or table == "opcode_names" and len(wanted) > MOST_OPCODE:
            faults += ["{} has the name {!r}".format(at, name) for at, name in enumerate(names) if name and at not in wanted]
        outcomes.append(Outcome("{} are those of the headers".format(table), first(faults)))
    by_number = {at: name for at, name in enumerate(defined("errno_names")) if name}
    faults = ["{} is {}".format(name, at) for at, name in by_number.items() if getattr(errno, name, at) != at]
    faults += ["{} has no name".format(at) for at in errno.errorcode if at not in by_number]
    outcomes.append(Outcome("errno_names are those of Python", first(faults)))
    return outcomes


def named(trace: bytes, plain: bytes) -> bytes:
    """A report with the names of its entries' operations and errors, or what is written of one of version 3 before a fault."""
    chains = (model_records.Begun(trace) if trace.startswith(model_records.BEGINNING) else model.World(trace)).chains
    codes = {chain.first + at: step.opcode for chain in chains for at, step in enumerate(chain.steps) if isinstance(step, model.Entry)}
    operations, failures = opcodes(), errors() or dict(enumerate(defined("errno_names")))

    def with_names(line: str) -> str:
        entry = re.match(r"(\d+) (?:ring=\d+ )?user=\d+ res=(-?)(\d+) ", line)
        if not entry:
            return line
        operation = operations.get(codes[int(entry[1])], "")
        failure = failures.get(int(entry[3]), "") if entry[2] else ""
        front, mark, _ = line.partition(" given=1")
        return front + (" name=" + operation if operation else "") + (" errno=" + failure if failure else "") + mark

    return "\n".join(map(with_names, plain.decode().split("\n"))).encode()


def of_names(program: Program, label: str, trace: bytes) -> List[Outcome]:
    """Names stand behind the other facts of each entry, with sums too, and compare with a report that has none."""
    outcomes = []
    for mode in MODES:
        plain = program.run(mode, trace)
        for words, wanted in ((["--names"], plain), (["--names", "--sums"], program.run([*mode, "--sums"], trace))):
            got = program.run([*mode, *words], trace)
            wanted = wanted._replace(output=named(trace, wanted.output)) if wanted.status == 0 else wanted
            outcomes.append(Outcome("names of {}: {} by {}".format(label, spoken([*mode, *words]), program.compiler), difference(got, wanted)))
        if plain.status == 0:
            told = program.run(["diff"], program.run([*mode, "--names"], trace).output + plain.output)
            count, given = (len(re.findall(it, plain.output, re.M)) for it in (rb"^\d+ (?:ring=\d+ )?user=", rb"^\d+ .* given=1( |$)"))
            is_alike = told.status == 0 and told.output.startswith(b"entries %d equal, 0 different, 0 unchecked, %d given\n" % (count - given, given))
            outcomes.append(Outcome("diff of names and none: {} by {}".format(label, program.compiler), None if is_alike else shown(told)))
    return outcomes


def every_opcode() -> bytes:
    """An entry of each opcode, of which each may have no side bytes."""
    lacks = (traces.RENAMEAT, traces.LINKAT)
    entries = [traces.entry(opcode, side=b"\0\0" if opcode in lacks else b"") for opcode in range(256)]
    return base([traces.enter(0, entries)])


def names(program: Program) -> List[Outcome]:
    found = of_names(program, "every opcode", every_opcode())
    for name in examples():
        if os.path.exists(os.path.join(EXAMPLES, name + ".report")) and os.path.getsize(os.path.join(EXAMPLES, name + ".trace")) < 1 << 16:
            found += of_names(program, name, read(name + ".trace"))
    return found


def drawn_names(program: Program, what: str, draw: Callable[[int], Draw]) -> List[Outcome]:
    faults = [it.fault for seed in range(200) for it in of_names(program, "seed {}".format(seed), draw(seed).trace()) if it.fault]
    return [Outcome("names of 200 drawn traces {}by {}".format(what, program.compiler), first(faults))]


# --- Sums of large files --------------------------------------------------------------------------------------------

PIECE = 1 << 24


class Stored(NamedTuple):
    """A file: its size, and the bytes that it has at some offsets among zeros."""

    size: int
    pieces: Sequence[Tuple[int, bytes]]

    def between(self, low: int, high: int) -> bytes:
        whole = bytearray(high - low)
        for at, data in self.pieces:
            begin, end = max(at, low), min(at + len(data), high)
            if begin < end:
                whole[begin - low : end - low] = data[begin - at : end - at]
        return bytes(whole)

    def tree_sum(self) -> str:
        """By docs/FORMAT.md: the sum of the sums of the pieces of 16 MiB. Pieces of zeros are hashed once."""
        whole, zeros = hashlib.sha256(), hashlib.sha256(bytes(PIECE)).digest()
        for low in range(0, self.size, PIECE):
            high = min(low + PIECE, self.size)
            is_blank = high - low == PIECE and all(at >= high or at + len(data) <= low for at, data in self.pieces)
            whole.update(zeros if is_blank else hashlib.sha256(self.between(low, high)).digest())
        return whole.hexdigest()

    def facts(self) -> str:
        return "sum=large tree-sum=" + self.tree_sum()


def pattern(size: int, first_byte: int) -> bytes:
    """So many bytes that repeat each 251, from one of them on."""
    return (bytes((first_byte + at) % 251 for at in range(251)) * (size // 251 + 1))[:size]


def files() -> Iterator[Stored]:
    yield Stored(PIECE, [(0, pattern(PIECE, 1))])
    yield Stored(PIECE + 1, [(0, pattern(PIECE + 1, 2))])
    yield Stored(PIECE + 1, [(PIECE, b"x")])
    yield Stored(2 * PIECE, [(0, b"x"), (PIECE - 2, b"abcd"), (2 * PIECE - 1, b"y")])
    yield Stored(3 * PIECE, [(PIECE + 9, pattern(1 << 20, 5))])
    yield Stored(5 * PIECE + 7, [(3 * PIECE + 5, b"x"), (5 * PIECE + 6, b"y")])
    yield Stored(5 * PIECE + 8, [])
    yield Stored((1 << 32) + 12345, [(1 << 31, b"x"), ((1 << 32) + 12340, b"yz")])
    yield Stored(1 << 36, [])


def trace_of(stored: Sequence[Stored]) -> bytes:
    """Files that are stored from their start, and written at the other offsets."""
    heads = [dict(it.pieces).get(0, b"") for it in stored]
    items = b"".join(traces.file(b"/%02d" % at, it.size, head) for at, (it, head) in enumerate(zip(stored, heads)))
    opened = b"".join(traces.description(at + 1) for at in range(len(stored)))
    writes = [traces.entry(traces.WRITE, traces.FIXED_FILE, slot, at, len(data), data) for slot, it in enumerate(stored) for at, data in it.pieces if at]
    ring = traces.ring(range(1, len(stored) + 1))
    return traces.head(len(stored), len(stored), 1, 1) + items + opened + ring + traces.enter(0, writes)


def tree_sums(program: Program) -> List[Outcome]:
    """The line of a large file ends in its tree sum; all else is as with --sums."""
    stored = list(files())
    trace, outcomes = trace_of(stored), []
    sums = program.run(["serial", "--sums"], trace)
    tree_sum_of = {"/{:02}".format(at): it.tree_sum() for at, it in enumerate(stored)}
    lines = (line + (" tree-sum=" + tree_sum_of[line.split(" ")[1]] if line.endswith(" sum=large") else "") for line in sums.output.decode().split("\n"))
    wanted = sums._replace(output="\n".join(lines).encode())
    large = sums.output.count(b" sum=large\n")
    outcomes.append(Outcome("large files by {}".format(program.compiler), None if large == sum(it.size > PIECE for it in stored) else shown(sums)))
    for mode in MODES:
        for words in (["--all-sums"], ["--all-sums", "--sums"], ["--sums", "--all-sums"]):
            label = "tree sums: {} by {}".format(spoken([*mode, *words]), program.compiler)
            outcomes.append(Outcome(label, difference(program.run([*mode, *words], trace), wanted)))
    outcomes.append(in_time(program, stored[-1]))
    return outcomes


def in_time(program: Program, holes: Stored) -> Outcome:
    """A piece of zeros costs next to nothing: 4,096 of them take no longer than a few that have bytes."""
    few = Stored(8 * PIECE, [(at * PIECE + 5, b"x") for at in range(8)])
    one, other = (Timed(["serial", "--all-sums"], trace_of([it])) for it in (holes, few))
    return Outcome("tree sums of zeros, in time, by {}".format(program.compiler), program.outlasts(one, other, 2, counts=False))


def differences(program: Program) -> List[Outcome]:
    """`diff` sees a byte of a large file only by its tree sum."""
    data = pattern(20 << 20, 3)
    flipped = data[: 17 << 20] + bytes([data[17 << 20] ^ 1]) + data[(17 << 20) + 1 :]
    one, other = (Stored(len(it), [(0, it)]) for it in (data, flipped))
    counts = "entries 0 equal, 0 different, 0 unchecked, 0 given\ntree {}\nslots 1 equal, 0 different, 0 unchecked, 0 given\nbuffers 0 equal, 0 different, 0 unchecked, 0 given\n"
    line = "{} file /00 node=1 size={} {}\n"
    seen = line.format("-", one.size, one.facts()) + line.format("+", other.size, other.facts()) + counts.format("0 equal, 1 different, 0 unchecked, 0 given")
    alike = counts.format("1 equal, 0 different, 0 unchecked, 0 given")
    cases = (
        ("the same file", one, "--all-sums", "--all-sums", 0, alike),
        ("a byte that differs", other, "--all-sums", "--all-sums", 4, seen),
        ("a byte that differs, with sums alone", other, "--sums", "--sums", 0, alike + "not compared: data 0 entries, sums 0, large 1\n"),
        ("a byte that differs, with a tree sum on one side", other, "--sums", "--all-sums", 0, alike + "not compared: data 0 entries, sums 0, large 1\n"),
    )
    outcomes = []
    for label, second, first_word, second_word, status, told in cases:
        reports = [program.run(["serial", word], trace_of([it])).output for word, it in ((first_word, one), (second_word, second))]
        got = program.run(["diff"], b"".join(reports))
        outcomes.append(Outcome("diff of {} by {}".format(label, program.compiler), difference(got, Answer(status, told.encode(), b""))))
    return outcomes


# --- Words ----------------------------------------------------------------------------------------------------------

def words(program: Program) -> List[Outcome]:
    """The options in any order, and in the help of the commands that have them."""
    trace, outcomes = read("read_four_bytes.trace"), []
    report, sums = (named(trace, read("read_four_bytes" + ending)) for ending in (".report", ".sums"))
    cases = [(["--names"], report), (["-", "--names"], report), (["--names", "--sums"], sums), (["--sums", "--names"], sums), (["--all-sums", "--names"], sums),
             (["--names", "-", "--all-sums", "--sums"], sums), (["--all-sums"], read("read_four_bytes.sums"))]
    for mode in ("serial", "run"):
        for given, wanted in cases:
            label = "{} by {}".format(spoken([mode, *given]), program.compiler)
            outcomes.append(Outcome(label, difference(program.run([mode, *given], trace), Answer(0, wanted, b""))))
        said = program.run([mode, "--help"], None).output.decode()
        lacking = [it for it in ("--sums", "--all-sums", "--names") if not re.search(r"^\s+{}\b".format(it), said, re.M)]
        outcomes.append(Outcome("{} --help lists what a report shows by {}".format(mode, program.compiler), ", ".join(lacking) or None))
    return outcomes


def jobs(programs: List[Program]) -> List[Job]:
    tests = (names, tree_sums, differences, words)
    drawn = [partial(drawn_names, it, *kind) for it in programs for kind in (("", Draw), ("of version 3 ", record_traces.Records))]
    return [tables, *(partial(test, program) for program in programs for test in tests), *drawn]
