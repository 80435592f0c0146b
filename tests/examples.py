"""Every trace of examples/ through the built programs, against the answers that stand beside it."""
import os
import re
from functools import partial
from typing import Iterable, List, Tuple

from harness import EXAMPLES, Answer, Job, Outcome, Program, difference, read, shown, spoken

WORKERS = (1, 2, 4, 64)
WINDOWS = (1, 2, 64, 4096)
# What the second program compares with, and what `run`, which has no rounds where little is carried, is run with.
FEW_PAIRS = ((2, 2), (4, 64))
ENDINGS = (".trace", ".report", ".sums", ".check", ".rounds", ".waits", ".dot", ".depends", ".depends.dot", ".text", ".refused", ".lines")
# What is told beside few examples, and the ending of the file that has it.
TOLD = ((["rounds"], ".waits"), (["rounds", "--window", "64", "--dot"], ".dot"), (["depends"], ".depends"), (["depends", "--dot"], ".depends.dot"), (["show"], ".text"))


# Recorded traces and those of version 3 have tests of their own.
RECORDED, VERSION_3 = "recorded", "version_3"


def walked(left_out: Tuple[str, ...] = (VERSION_3,)) -> Iterable[Tuple[str, List[str]]]:
    """The folders of examples/, each with its files; those of version 3 are left out."""
    for at, folders, files in os.walk(EXAMPLES):
        folders[:] = sorted(it for it in folders if it not in left_out)
        yield at, files


def names() -> List[str]:
    """The examples, by their paths in examples/ without the ending."""
    found = []
    for at, files in walked((RECORDED, VERSION_3)):
        found += [os.path.relpath(os.path.join(at, file[:-6]), EXAMPLES) for file in sorted(files) if file.endswith(".trace")]
    return found


def commands(is_first: bool) -> Iterable[Tuple[List[str], str]]:
    """The words to run an example with, and the ending of the file that has the answer; for `compare` there is none."""
    yield ["serial"], ".report"
    yield ["serial", "--sums"], ".sums"
    yield ["check"], ".check"
    pairs = [(workers, window) for workers in WORKERS for window in WINDOWS] if is_first else FEW_PAIRS
    for workers, window in pairs:
        yield ["compare", "--workers", str(workers), "--window", str(window)], ""
    for workers, window in FEW_PAIRS:
        yield ["run", "--workers", str(workers), "--window", str(window)], ".report"
    yield ["run", "--sums"], ".sums"
    yield ["run"], ".report"
    yield ["compare"], ""
    yield ["compare", "--workers", "2", "--window", "4"], ""


def told(name: str) -> Iterable[Tuple[List[str], str]]:
    """The same for `rounds`, `depends` and `show`, which have an answer beside some examples; what is refused is refused there too."""
    for words, ending in TOLD:
        if any(os.path.exists(os.path.join(EXAMPLES, name + it)) for it in (ending, ".refused")):
            yield words, ending


def tried(program: Program, name: str, is_first: bool) -> List[Outcome]:
    """All runs of one example by one program."""
    trace = os.path.join(EXAMPLES, name + ".trace")
    is_refused = os.path.exists(os.path.join(EXAMPLES, name + ".refused"))
    outcomes = []
    for words, ending in [*commands(is_first), *told(name)]:
        label = "{} {} by {}".format(name, spoken(words), program.compiler)
        try:
            if is_refused:
                wanted = Answer(1, b"", read(name + ".refused"))
            else:
                wanted = Answer(0, read(name + ending) if ending else b"equal\n", b"")
        except FileNotFoundError:
            outcomes.append(Outcome(label, "{}{} is missing in examples/".format(name, ending)))
            continue
        outcomes.append(Outcome(label, difference(program.run(words, trace), wanted)))
    text = os.path.join(EXAMPLES, name + ".text")
    if os.path.exists(text):
        made = difference(program.run(["make"], text), Answer(0, read(name + ".trace"), b""))
        outcomes.append(Outcome("{} make by {}".format(name, program.compiler), made))
    return outcomes


def numbered(program: Program, name: str) -> List[Outcome]:
    """Whether `rounds` gives each place the round that stands beside the example, at each window that does."""
    outcomes = []
    for line in read(name + ".rounds").decode().splitlines():
        window, wanted = line.removeprefix("window ").split(":")
        got = program.run(["rounds", "--window", window], os.path.join(EXAMPLES, name + ".trace"))
        numbers = re.findall(r"^\d+ round=(\d+)", got.output.decode("utf-8", "replace"), re.M)
        label = "{} rounds --window {} by {}".format(name, window, program.compiler)
        outcomes.append(Outcome(label, None if got.status == 0 and numbers == wanted.split() else shown(got)))
    return outcomes


def strays() -> List[Outcome]:
    """Whether each answer in examples/ belongs to a trace."""
    outcomes = [] if names() else [Outcome("examples", "there is no trace in examples/")]
    for at, _, files in os.walk(EXAMPLES):
        for file in sorted(files):
            name, dot, ending = file.partition(".")
            if dot + ending in ENDINGS and not os.path.exists(os.path.join(at, name + ".trace")):
                outcomes.append(Outcome(os.path.relpath(os.path.join(at, file), EXAMPLES), "it belongs to no trace"))
    return outcomes


def jobs(programs: List[Program]) -> List[Job]:
    found = names()
    each = [partial(tried, program, name, program is programs[0]) for program in programs for name in found]
    in_rounds = [it for it in found if os.path.exists(os.path.join(EXAMPLES, it + ".rounds"))]
    return [strays, *each, *(partial(numbered, program, name) for program in programs for name in in_rounds)]
