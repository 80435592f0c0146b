"""Drawn traces, such traces with bytes changed, and drawn pairs of reports: the program gives what a second replayer (model.py) and a
second comparison (model_diff.py) give, with the entries of model_text.py too, and tells of its rounds what model_rounds.py tells. These give what the examples say (model_depends.py
too), and what kernels gave. Half of the seeds are the same in every run, the others those of the day (`./test --day` draws them again)."""
import random
import re
import tempfile
from functools import partial
from typing import Callable, List, Optional

import days
import examples
import model
import model_depends
import model_diff
import model_records
import model_rounds
import model_text
import record_traces
from by_models import replayed
from drawing import Draw, Near, changed, report_changed, risen, two_reports
from harness import Answer, Job, Outcome, Program, difference, first, read, reports_refused

# How many of each kind are drawn, in how many lots; and each of how many traces is also replayed in rounds.
DRAWN, LOTS, IN_ROUNDS = 3_000, 6, 5


def of_drawn(program: Program, seed: int) -> Optional[str]:
    """How the program differs from the model on a drawn trace, if it does."""
    trace = Draw(seed).trace()
    wanted = replayed(trace, True)
    told = difference(program.run(["serial", "--sums"], trace), wanted)
    if not told and seed % IN_ROUNDS == 0:
        pair = ["--workers", str(1 + seed % 4), "--window", str(1 + seed % 7)]
        told = difference(program.run(["run", "--sums", *pair], trace), wanted)
        told = told or difference(program.run(["compare", *pair], trace), Answer(0, b"equal\n", b""))
    return told or of_rounds(program, seed, Near(seed).trace() if seed % 2 else trace)


def of_rounds(program: Program, seed: int, trace: bytes) -> Optional[str]:
    """How what the program tells of the rounds of a trace differs from the model, if it does: at a small window or a large one, or as a graph."""
    window = 64 if seed % 3 == 0 else 1 + seed % 7
    words = ["rounds", "--window", str(window)]
    if seed % 5:
        return difference(program.run(words, trace), Answer(0, model_rounds.rounds(trace, window), b""))
    return difference(program.run([*words, "--dot"], trace), Answer(0, model_rounds.graph(trace, window), b""))


def of_changed(program: Program, seed: int) -> Optional[str]:
    """The same of a changed trace, without sums: its buffers may be of any length."""
    trace = changed(seed)
    return difference(program.run(["serial"], trace), replayed(trace))


def of_reports(program: Program, seed: int) -> Optional[str]:
    """How the program differs from the model on two reports, if it does."""
    return as_compared(program, two_reports(seed))


def as_compared(program: Program, text: bytes) -> Optional[str]:
    """The same of two reports in one text."""
    try:
        told, are_alike = model_diff.difference(text, False, False)
        wanted = Answer(0 if are_alike else 4, told, b"")
    except model_diff.Refused as fault:
        wanted = reports_refused(str(fault))
    return difference(program.run(["diff"], text), wanted)


# How many bytes of an entry stand below a line that differs.
SHOWN = 32


def with_entries(trace: bytes, told: bytes) -> bytes:
    """What differs, with the lines that `show --places` has of the places of the lines with `-` and `+`."""
    shown = dict(re.findall(rb"^  # (\d+)\n(  .*\n)", model_text.show(trace, True, SHOWN), re.M))
    lines = told.splitlines(keepends=True)
    places = [re.match(rb"[-+] (0|[1-9]\d*)(?= |$)", line) for line in lines]
    return b"".join(line + (shown.get(place[1], b"") if place else b"") for line, place in zip(lines, places))


def of_entries(program: Program, seed: int) -> Optional[str]:
    """How the program differs from the model on two reports with the entries of the trace of one, or of another trace, if it does."""
    return as_shown(program, two_reports(seed), Draw(seed if seed % 4 else seed + 1).trace())


def of_records(program: Program, seed: int) -> Optional[str]:
    """The same of a trace of version 3, and of such a trace with bytes changed."""
    source, trace = random.Random("reports of records {}".format(seed)), record_traces.Records(seed).trace()
    report = model_records.report(trace, source.randrange(2) > 0)
    shown = record_traces.changed(seed) if source.randrange(8) == 0 else record_traces.Records(seed if source.randrange(4) else seed + 1).trace()
    return as_shown(program, b"".join(risen(report_changed(source, report)) for _ in range(2)), shown)


def as_shown(program: Program, text: bytes, trace: bytes) -> Optional[str]:
    """How the program differs from the model on two reports in one text with the entries of a trace, if it does."""
    checked, plain = program.run(["check"], trace), program.run(["diff"], text)
    wanted = plain._replace(output=with_entries(trace, plain.output)) if checked.status == 0 else checked
    with tempfile.NamedTemporaryFile() as file:
        file.write(trace)
        file.flush()
        return difference(program.run(["diff", "--show", file.name], text), wanted)


def lot(program: Program, what: str, unlike: Callable[[Program, int], Optional[str]], seeds: range) -> List[Outcome]:
    faults = ["seed {}: {}".format(seed, told) for seed in seeds for told in [unlike(program, seed)] if told]
    day = " of {}".format(days.written()) if seeds[0] >= days.SEEDS_A_DAY else ""
    return [Outcome("{} {} to {}{} as the model says, by {}".format(what, seeds[0], seeds[-1], day, program.compiler), first(faults))]


def model_of_examples() -> List[Outcome]:
    """The model gives the reports and the refusals of the examples, and agrees with a kernel as far as is known."""
    outcomes = []
    for at, names in examples.walked():
        for trace in sorted(it for it in names if it.endswith(".trace")):
            front = trace[: -len("trace")]
            there = [it for it in (front + kind for kind in ("sums", "report", "refused")) if it in names]
            told = of_example(at, trace, there[0]) if there else of_recorded(at, front)
            outcomes.append(Outcome("the model of {}".format(trace), told))
            if {front + it for it in ("rounds", "waits", "dot", "depends")} & set(names):
                outcomes.append(Outcome("the model of what {} tells".format(trace), told_of_example(at, front, names)))
    return outcomes


# What stands beside an example by these endings, as a model gives it.
MODELS = {
    "waits": lambda trace: model_rounds.rounds(trace, 64),
    "dot": lambda trace: model_rounds.graph(trace, 64),
    "depends": model_depends.depends,
    "depends.dot": model_depends.graph,
}


def told_of_example(at: str, front: str, names: List[str]) -> Optional[str]:
    """How the models differ from what stands beside an example of its rounds and dependencies, if they do."""
    trace, told = read(at, front + "trace"), []
    for ending, give in MODELS.items():
        if front + ending in names:
            told.append(difference(Answer(0, give(trace), b""), Answer(0, read(at, front + ending), b"")))
    for line in read(at, front + "rounds").decode().splitlines() if front + "rounds" in names else ():
        window, wanted = line.removeprefix("window ").split(":")
        numbers = re.findall(r"^\d+ round=(\d+)", model_rounds.rounds(trace, int(window)).decode(), re.M)
        told.append(None if numbers == wanted.split() else "the rounds at a window of {} are {}".format(window, " ".join(numbers)))
    return first([it for it in told if it])


def of_recorded(at: str, front: str) -> Optional[str]:
    """How the report of a recorded trace and the kernel's results differ otherwise than by the counts that are told, if they do."""
    told, _ = model_diff.difference(model.report(read(at, front + "trace")) + read(at, front + "kernel"), False, False)
    return difference(Answer(0, told[told.rindex(b"entries ") :], b""), Answer(0, read(at, front + "diff"), b""))


def of_example(at: str, trace: str, told: str) -> Optional[str]:
    text = read(at, told)
    wanted = Answer(1, b"", text) if told.endswith(".refused") else Answer(0, text, b"")
    return difference(replayed(read(at, trace), told.endswith(".sums")), wanted)


def jobs(programs: List[Program]) -> List[Job]:
    """The first program on all of them, the others on one lot of each kind."""
    each = DRAWN // LOTS
    kinds = (("drawn traces", of_drawn), ("changed traces", of_changed), ("reports", of_reports), ("reports with entries", of_entries),
             ("reports with entries of version 3", of_records))
    starts = [at + back for back in (0, days.first_seed()) for at in range(0, DRAWN, each)]
    lots = [(program, range(at, at + each)) for program in programs for at in (starts if program is programs[0] else starts[:: LOTS])]
    return [model_of_examples, *(partial(lot, program, what, unlike, seeds) for program, seeds in lots for what, unlike in kinds)]
