"""Rounds on parts and threads: with `--eager` every round of two places or more runs so, and gives what one place after another does.
Threads are counted from outside, by tests/refuse.c."""
import os
import re
from functools import partial
from typing import Iterable, List, NamedTuple, Optional, Tuple

import examples
from by_models import replayed
from drawing import Draw
from harness import EXAMPLES, Answer, Job, Outcome, Program, difference, first, read, shown, skipped, spoken
from shims import Shim

# Workers and window.
SETTINGS = ((2, 64), (4, 7), (64, 4096))
# How many traces are drawn, from which seed on, in how many lots.
DRAWN, FIRST_SEED, LOTS = 1_000, 20_000, 8
# In so many of a hundred runs of traces with a round of two places a thread must be started.
AT_LEAST = 90
THREADS = 2


class Told(NamedTuple):
    """What is wrong with some runs; in how many of them a round had two places, and in how many of these a thread was started."""

    faults: List[str]
    wide: int
    threaded: int


def eager(shim: Shim, program: Program, name: str, trace: bytes, wanted: Answer, workers: int, window: int) -> Told:
    """`run` and `compare` of one trace at one setting."""
    pair = ["--workers", str(workers), "--window", str(window)]
    rounds = program.run(["rounds", "--window", str(window)], trace)
    widest = re.search(rb"^widest (\d+)$", rounds.output, re.M)
    is_wide = bool(widest) and int(widest[1]) > 1
    equal = Answer(0, b"equal\n", b"") if wanted.status == 0 else wanted
    faults, threaded = [], 0
    for words, answer in ((["run", "--eager", "--sums", *pair], wanted), (["compare", "--eager", *pair], equal)):
        got, counts = shim.run(program, words, trace)
        told = difference(got, answer)
        faults += ["{} {}: {}".format(name, spoken(words), told)] if told else []
        threaded += counts[THREADS] > 0
        if counts[THREADS] and not is_wide and words[0] == "compare":
            faults.append("{} {}: a thread, and no round of two places".format(name, spoken(words)))
    return Told(faults, 2 * is_wide, threaded if is_wide else 0)


def told_of(label: str, runs: Iterable[Told]) -> List[Outcome]:
    """What some runs come to: no fault, and threads."""
    faults, wide, threaded = [], 0, 0
    for run in runs:
        faults += run.faults
        wide, threaded = wide + run.wide, threaded + run.threaded
    if not wide or 100 * threaded < AT_LEAST * wide:
        faults.append("a thread was started in {} of {} runs with a round of two places".format(threaded, wide))
    return [Outcome("{} ({} of {} runs with threads)".format(label, threaded, wide), first(faults))]


def wanted_of(name: str) -> Answer:
    """What stands beside an example."""
    if os.path.exists(os.path.join(EXAMPLES, name + ".refused")):
        return Answer(1, b"", read(name + ".refused"))
    return Answer(0, read(name + ".sums"), b"")


def of_examples(shim: Shim, program: Program, names: List[str], setting: Tuple[int, int]) -> List[Outcome]:
    label = "examples, eager, at {} workers and a window of {}, by {}".format(*setting, program.compiler)
    return told_of(label, (eager(shim, program, name, read(name + ".trace"), wanted_of(name), *setting) for name in names))


def of_drawn(shim: Shim, program: Program, seeds: range, setting: Tuple[int, int]) -> List[Outcome]:
    label = "drawn traces {} to {}, eager, at {} workers and a window of {}, by {}".format(seeds[0], seeds[-1], *setting, program.compiler)
    drawn = ((seed, Draw(seed).trace()) for seed in seeds)
    return told_of(label, (eager(shim, program, "seed {}".format(seed), trace, replayed(trace, True), *setting) for seed, trace in drawn))


def alone(shim: Shim, program: Program) -> List[Outcome]:
    """One worker starts no thread, and neither does a run that is not eager where places carry little."""
    trace = read("neighbouring_writes_do_not_collide.trace")
    outcomes = []
    for words in (["run", "--eager", "--workers", "1"], ["compare", "--eager", "--workers", "1"], ["run"], ["compare"]):
        got, counts = shim.run(program, words, trace)
        told: Optional[str] = shown(got) if got.status else "{} threads".format(counts[THREADS]) if counts[THREADS] else None
        outcomes.append(Outcome("no thread: {} by {}".format(spoken(words), program.compiler), told))
    return outcomes


def jobs(programs: List[Program]) -> List[Job]:
    """The first program at all settings, the others on some traces at one."""
    shim = Shim("refuse", 4)
    lacking = shim.lacking()
    if lacking:
        return [partial(skipped, "rounds on threads", lacking)]
    names, each = examples.names(), DRAWN // LOTS
    made: List[Job] = [partial(alone, shim, program) for program in programs]
    for program in programs:
        is_first = program is programs[0]
        for setting in SETTINGS if is_first else SETTINGS[:1]:
            made += [partial(of_examples, shim, program, names[at::4], setting) for at in range(4 if is_first else 1)]
            made += [partial(of_drawn, shim, program, range(at, at + each), setting)
                     for at in range(FIRST_SEED, FIRST_SEED + (DRAWN if is_first else each), each)]
    return made
