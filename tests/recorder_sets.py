"""What programs do by calls between two submissions, to their slots, their numbers and positions: programs of tools/uring_record/test/between.c are recorded.
In version 3 sets and seeks tell it. The traces are replayed by the program and by the second replayer, and compared with what the kernel gave."""
import os
import re
from functools import partial
from typing import List, NamedTuple, Sequence

import model
import model_records
from harness import Job, Outcome, Program, first, skipped
from model import COPY, NOTHING, OF_PATH, TAKEN
from recorded import SOURCES, compared, read_file
from recorder import UNTRIED, VERSION_2, Built, record_strictly, tools
from recorder_given import given_in
from recorder_streams import LOCK
from traces import CLOSE, OPENAT, RENAMEAT, UNLINKAT, WRITE

# Opcodes that the profile does not serve.
FILES_UPDATE, OPENAT2, MSG_RING, FD_INSTALL = 20, 28, 40, 54


class Mode(NamedTuple):
    """A mode of between.c: how many sets say that there is nothing, a path, a copy, and what is no file; how many seeks there are, and how many entries the
    recorder makes, each for a call that changes the tree. The opcodes of what is given, and the slots that the kernel chose for an OPENAT."""

    name: str
    sets: Sequence[int]
    seeks: int
    calls: int
    given: Sequence[int] = ()
    chosen: Sequence[int] = ()


MODES = (
    Mode("shared", (1, 2, 3, 0), 1, 4),
    Mode("moved", (0, 4, 0, 0), 4, 9),
    Mode("updated", (2, 2, 2, 2), 1, 4, [WRITE]),
    Mode("chosen", (0, 0, 0, 0), 0, 2, [OPENAT], [*range(8), 5, 5]),
    Mode("taken", (0, 1, 0, 3), 0, 2, [CLOSE]),
    Mode("root", (0, 0, 0, 1), 0, 0),
    Mode("nameless", (0, 2, 4, 0), 0, 8),
    Mode("passed", (0, 3, 3, 0), 1, 2, [OPENAT2, OPENAT2, MSG_RING, FD_INSTALL, FILES_UPDATE]),
    Mode("left", (0, 2, 2, 0), 1, 4),
    # (an open beside one that waits gets a number that the replay does not give it: a path is set there where it is used)
    Mode("held", (0, 9, 0, 0), 0, 8, [OPENAT] * 9),
    Mode("beside", (0, 9, 0, 2), 0, 8, [OPENAT] * 10),
)
# Modes of opens in flight whose numbers differ from run to run.
MEETING = ("at_once", "making")
OPTIONS: Sequence[Sequence[str]] = ([], ["--wait"], ["--drain"], VERSION_2)
VERSION_1 = ["--format", "1"]
# Of calls and entries as they are drawn: one entry at a time of an even seed, and chains of an odd one.
SEEDS = range(12)


def built() -> Built:
    """The tools, with the program of this part, built by the first that asks for it."""
    found = tools()
    with LOCK:
        if not found.reason and not os.path.exists(found.file("between")):
            found.reason = found.compile("between", [os.path.join(SOURCES, "test", "between.c")])
    return found


def told_of(mode: Mode, trace: bytes, kernel: str) -> List[str]:
    """What a trace of version 3 and its results tell otherwise than is wanted."""
    steps = [it for chain in model_records.world_of(trace).chains for it in chain.steps]
    sets = [it.what for it in steps if isinstance(it, model.Setting)]
    told = {
        "sets": [sets.count(it) for it in (NOTHING, OF_PATH, COPY, TAKEN)],
        "seeks": sum(isinstance(it, model.Seek) for it in steps),
        "calls": kernel.count(" by=recorder"),
        "given": [it[0] for it in given_in(trace)],
        "chosen": [int(it) for it in re.findall(r"^\d+ ring=\d+ user=\d+ res=0 posted op=18 slot=(\d+) ", kernel, re.M)],
    }
    wanted = {**mode._asdict(), "sets": list(mode.sets), "given": list(mode.given), "chosen": list(mode.chosen)}
    found = compared(model_records.report(trace).decode(), kernel)
    faults = ["{} are {}, wanted {}".format(name, it, wanted[name]) for name, it in told.items() if it != wanted[name]]
    return found.differing + faults + ["it is outside: " + it for it in kernel.split("\n") if " unchecked=" in it]


def of_mode(program: Program, mode: Mode, words: Sequence[str]) -> List[Outcome]:
    """A program: it ends as alone, no line of its replay differs, and in version 3 all of it is told by sets and seeks."""
    found = built()
    label = "sets: {}{}".format(mode.name, "".join(" " + it for it in words))
    ran, path, fault = record_strictly(program, "sets-" + mode.name + "".join(words), words, [found.file("between"), mode.name])
    if ran.status == UNTRIED:
        return skipped(label, ran.said().split("\n")[0])
    if not fault and words != VERSION_2:
        fault = first(told_of(mode, read_file(path + ".trace"), read_file(path + ".kernel").decode()))
    said = " and {} seek{} between submissions".format(mode.seeks, "" if mode.seeks == 1 else "s")
    if not fault and (said in ran.said()) != (words != VERSION_2 and sum(mode.sets) + mode.seeks > 0):
        fault = ran.said()
    return [Outcome(label, fault)]


def meeting(program: Program, name: str, words: Sequence[str]) -> List[Outcome]:
    """Opens in flight: the program ends as alone, and no line of the replay differs, whatever numbers they got. With --drain all are decided."""
    found = built()
    label = "sets: {}{}".format(name, "".join(" " + it for it in words))
    ran, path, fault = record_strictly(program, "sets-" + name + "".join(words), words, [found.file("between"), name])
    if ran.status == UNTRIED:
        return skipped(label, ran.said().split("\n")[0])
    kernel = "" if fault else read_file(path + ".kernel").decode()
    if not fault and (name, words) == ("at_once", ["--drain"]) and re.search(" (given=1|unchecked=)", kernel):
        fault = "not all is decided"
    return [Outcome(label, fault or first(compared(model_records.report(read_file(path + ".trace")).decode(), kernel).differing))]


def drawn(program: Program, seed: int) -> List[Outcome]:
    """Any calls and entries: it ends as alone, and no line of the replay differs. The recorder makes entries for changes of the tree alone."""
    found = built()
    label = "sets: any {}".format(seed)
    words = [["--wait"], ["--drain"], []][seed // 2 % 3]
    ran, path, fault = record_strictly(program, "sets-any-{}".format(seed), words, [found.file("between"), "any", str(seed)])
    if ran.status == UNTRIED:
        return skipped(label, ran.said().split("\n")[0])
    if fault:
        return [Outcome(label, fault)]
    kernel = read_file(path + ".kernel").decode()
    made = {int(it) for it in re.findall(r" op=(\d+) by=recorder", kernel)} - {OPENAT, WRITE, UNLINKAT, RENAMEAT}
    faults = compared(model_records.report(read_file(path + ".trace")).decode(), kernel).differing
    return [Outcome(label, first(faults) or ("the recorder makes entries of opcodes {}".format(made) if made else None))]


def part(run: "partial[List[Outcome]]", label: str) -> List[Outcome]:
    """A part, where it can be tried."""
    reason = built().reason
    return skipped(label, reason) if reason else run()


def jobs(programs: List[Program]) -> List[Job]:
    each = [partial(part, partial(of_mode, programs[0], mode, words), "sets: " + mode.name) for mode in MODES for words in OPTIONS]
    meetings = [(name, words) for name in MEETING for words in OPTIONS] + [(name, VERSION_1) for name in (*MEETING, "held", "beside")]
    each += [partial(part, partial(meeting, programs[0], name, words), "sets: " + name) for name, words in meetings]
    return [*each, *(partial(part, partial(drawn, programs[0], seed), "sets: any {}".format(seed)) for seed in SEEDS)]
