"""What the recorder gives in version 3: the results that no replay decides, and no others. Programs of tools/uring_record/test/given.c are recorded; their
traces are replayed by the program and by the second replayer, and compared with what the kernel gave."""
import os
import re
from functools import partial
from typing import Dict, List, NamedTuple, Sequence, Tuple

import model
import model_records
from harness import EXAMPLES, Job, Outcome, Program, first, skipped
from recorded import FOLDERS, SOURCES, compared, read_file, traces_in
from recorder import UNTRIED, Built, accepted, fault_of, ran_in, record_strictly, replayed, tools
from recorder_streams import LOCK, record, streams
from traces import FADVISE, FALLOCATE, FSYNC, FTRUNCATE, LINKAT, MKDIRAT, OPENAT, READ, READ_FIXED, READV, RENAMEAT, SYNC_FILE_RANGE, UNLINKAT, WRITE_FIXED

# The opcodes that the profile does not serve, of those that are recorded here.
UNSERVED = POLL_ADD, TIMEOUT, ASYNC_CANCEL, LINK_TIMEOUT, STATX, MADVISE, RECV, EPOLL_CTL, SYMLINKAT, NONE = 6, 11, 14, 15, 21, 25, 27, 29, 38, 200
# Of kept recordings those opcodes that are served and given: fio leaves an address or a number of a buffer in these, which the kernel refuses. An open meets
# another request at its name.
GIVEN_IN = {"fio_syncs_of_ranges": [SYNC_FILE_RANGE], "fio_syncs_that_are_refused": [FSYNC], "sixteen_calls": [OPENAT]}
# An opcode with the result that the trace gives: it fails, or not, or was refused on submission.
Told = Tuple[int, int, str]
PASSES, FAILS, REFUSED = "passes", "fails", "refused"


class Mode(NamedTuple):
    """What the trace of a mode of given.c gives, and how many entries and names of the tree are equal or given, and how many are unchecked."""

    name: str
    given: Sequence[Told]
    entries: Tuple[int, int]
    tree: Tuple[int, int] = (1, 0)


MODES = (
    Mode("served", [], (12, 0)),
    Mode("chains", [
        (POLL_ADD, 1, PASSES), (LINK_TIMEOUT, -125, PASSES), (LINK_TIMEOUT, -125, PASSES), (TIMEOUT, -62, FAILS), (TIMEOUT, -62, "hard"),
        (READ, 1, PASSES), (POLL_ADD, -125, PASSES), (LINK_TIMEOUT, -62, FAILS), (POLL_ADD, -125, FAILS), (ASYNC_CANCEL, 0, PASSES)], (19, 1)),
    Mode("refused", [(NONE, -22, REFUSED), (TIMEOUT, -22, REFUSED), (NONE, -22, PASSES), (201, -22, FAILS)], (10, 0)),
    Mode("errors", [(READ, -14, FAILS), (READ, 1, PASSES), (FSYNC, -22, FAILS), (FADVISE, -22, FAILS)], (8, 0), (2, 0)),
    Mode("filled", [(READ, 5, PASSES), (RECV, 4, PASSES)], (5, 0)),
    Mode("filled_buffer", [(READ_FIXED, 5, PASSES), (WRITE_FIXED, 5, PASSES), (RECV, 6, PASSES), (WRITE_FIXED, 6, PASSES)], (5, 0), (0, 1)),
    Mode("told", [(STATX, 0, PASSES)] * 3 + [(STATX, -22, FAILS)] * 3, (16, 0), (2, 0)),
    Mode("links", [
        (SYNC_FILE_RANGE, -22, PASSES), (FALLOCATE, -22, PASSES), (FTRUNCATE, -22, PASSES), (STATX, -2, PASSES), (MKDIRAT, -17, PASSES),
        (UNLINKAT, -2, PASSES), (RENAMEAT, -2, PASSES), (LINKAT, -2, PASSES), (MKDIRAT, 0, PASSES)], (21, 0), (3, 0)),
    Mode("otherwise", [
        (READ, 0, PASSES), (READ_FIXED, -14, FAILS), (READV, -22, FAILS), (FSYNC, -22, FAILS), (RENAMEAT, -39, FAILS), (LINKAT, -2, FAILS),
        (RENAMEAT, -22, FAILS)], (9, 0), (3, 0)),
    Mode("numbers", [(OPENAT, -24, FAILS)] * 2, (6, 0)),
    Mode("quiet", [(POLL_ADD, 0, PASSES), (EPOLL_CTL, -9, FAILS)], (4, 1), (0, 1)),
    # (the recorder makes a call for each name)
    Mode("names", [(MKDIRAT, 0, PASSES)] * 2 + [(UNLINKAT, 0, PASSES), (OPENAT, 0, PASSES)], (13, 0), (5, 0)),
)
OPTIONS: Sequence[Sequence[str]] = ([], ["--wait"])


def built() -> Built:
    """The tools, with the programs of this part, built by the first that asks for them."""
    found = tools()
    with LOCK:
        if not found.reason and not os.path.exists(found.file("given")):
            found.reason = found.compile("given", [os.path.join(SOURCES, "test", "given.c")])
    return found


def given_in(trace: bytes) -> List[Told]:
    """What a trace gives. A hard one breaks nothing, so it is all one whether it fails."""
    steps = [it for chain in model_records.world_of(trace).chains for it in chain.steps if isinstance(it, model.Entry) and it.given]
    return [(it.opcode, it.given.result, REFUSED if it.given.is_refused else "hard" if it.flags & 8 else FAILS if it.given.fails else PASSES) for it in steps]


def lines_of(kernel: str) -> List[str]:
    """What is wrong with the lines of entries that are given."""
    lines = [it for it in kernel.split("\n") if " given=1" in it]
    return ["it is outside: " + it for it in lines if " unchecked=" in it] + ["it has data: " + it for it in lines if " data=" in it]


def of_mode(program: Program, mode: Mode, words: Sequence[str]) -> List[Outcome]:
    """A program: it ends as alone, what the trace gives is right, and the replay is what the kernel gave."""
    found = built()
    label = "given results: {}{}".format(mode.name, "".join(" " + it for it in words))
    ran, path, fault = record_strictly(program, "given-" + mode.name + "".join(words), words, [found.file("given"), mode.name])
    if ran.status == UNTRIED:
        return skipped(label, ran.said().split("\n")[0])
    if fault:
        return [Outcome(label, fault)]
    trace, kernel = read_file(path + ".trace"), read_file(path + ".kernel").decode()
    by_model = compared(model_records.report(trace).decode(), kernel)
    faults = by_model.differing + lines_of(kernel)
    if given_in(trace) != list(mode.given):
        faults.append("it gives {}, wanted {}".format(given_in(trace), list(mode.given)))
    counts: Dict[str, Tuple[int, int]] = {part: (by_model.counts[part][0] + by_model.counts[part][3], by_model.counts[part][2]) for part in ("entries", "tree")}
    if not words and counts != {"entries": mode.entries, "tree": mode.tree}:
        faults.append("equal or given, and unchecked are {}".format(counts))
    return [Outcome(label, first(faults))]


def of_version_2(program: Program) -> List[Outcome]:
    """In version 2 nothing is given, and what is outside says why."""
    found = built()
    path = found.directory("given-version-2")
    ran = ran_in(path, [found.file("uring_record"), "--format", "2", "-o", path + ".trace", "-k", path + ".kernel", "--", found.file("given"), "served"])
    fault = fault_of(ran) if ran.status else accepted(program, path + ".trace") or replayed(program, path)
    kernel = "" if fault else read_file(path + ".kernel").decode()
    marks = sorted(set(re.findall(r"unchecked=(\w+)", kernel)))
    is_well = " given=" not in kernel and b"given:" not in ran.errors and marks == ["chain", "flags", "opcode"]
    return [Outcome("given results: none in version 2", fault or (None if is_well else "{}: {}".format(marks, kernel[:600])))]


def given_up(program: Program) -> List[Outcome]:
    """A read of a pipe that is in flight while much is written: it is told as unseen, given -125, and no line differs."""
    made = record(program, "given-up", [], [streams().file("streams"), "pending", "6000"])
    kernel = "" if made.fault else read_file(made.path + ".kernel").decode()
    told = re.findall(r"^1 ring=0 user=1 completion=unseen given=1 op=22 submitted=\d+$", kernel, re.M)
    given = [] if made.fault else given_in(read_file(made.path + ".trace"))
    is_well = len(told) == 1 and given == [(READ, -125, FAILS)] and made.compared and made.compared.counts["entries"][1:3] == [0, 1]
    return [Outcome("given results: an entry in flight while much is written", made.fault or (None if is_well else "{}: {}".format(given, told)))]


def kept() -> List[Outcome]:
    """The kept recordings of version 3 give what their results say: that of opcodes which the profile does not serve, and of those above."""
    outcomes = []
    for path in traces_in(FOLDERS["3"]):
        trace, kernel = read_file(path + ".trace"), read_file(path + ".kernel").decode()
        told = [(int(op), int(result)) for result, op in re.findall(r" res=(\S+) posted given=1 op=(\d+) ", kernel)]
        given = [(opcode, result) for opcode, result, _ in given_in(trace)]
        fault = None if told == given else "it gives {}, and its results say {}".format(given, told)
        served = sorted({opcode for opcode, _ in given if opcode not in UNSERVED})
        wanted = GIVEN_IN.get(os.path.basename(path), [])
        fault = fault or (None if served == wanted else "it gives results of opcodes {}, wanted {}".format(served, wanted))
        outcomes.append(Outcome("given results: {}".format(os.path.relpath(path, EXAMPLES)), fault))
    return outcomes


def part(run: "partial[List[Outcome]]", label: str) -> List[Outcome]:
    """A part, where it can be tried."""
    reason = built().reason
    return skipped(label, reason) if reason else run()


def jobs(programs: List[Program]) -> List[Job]:
    each = [partial(part, partial(of_mode, programs[0], mode, words), "given results: " + mode.name) for mode in MODES for words in OPTIONS]
    others = [partial(part, partial(it, programs[0]), "given results: " + it.__name__) for it in (of_version_2, given_up)]
    return [kept, *others, *each]
