"""Traces of version 3: those of examples/version_3/, drawn ones, and such with bytes changed. The program gives what a second replayer gives
(model_records.py), and tells of rounds and dependencies what model_rounds.py and model_depends.py tell. Their texts are in text.py.
The second replayer gives what stands beside the examples, and of traces of version 2 that are carried over what it gives of these."""
import os
import random
import re
from functools import partial
from typing import Callable, List, Optional

import by_models
import days
import drawing
import json_lines
import model
import model_depends
import model_records
import model_rounds
import record_traces
from depends import order_of, report_in, waits_of
from examples import VERSION_3
from harness import EXAMPLES, TOP, Answer, Job, Outcome, Program, difference, first, read, refused
from model import Refused
from traces import DRAIN, NOP, entry

# How many of each kind are drawn, in how many lots; each of how many traces is also replayed in rounds, and each of how many is checked as JSON.
DRAWN, LOTS, IN_ROUNDS, AS_JSON = 3_000, 6, 5, 50
# How many traces of version 2 are carried over, in how many lots.
CARRIED, CARRIED_LOTS = 500, 2
# How many traces end early.
CUT = 300
# How many by the command of bench/.
BY_BENCH = 20
# How many drawn traces run in other orders.
ORDERED = 200
# The commands that replay: those that write lines before a fault, and those that then write nothing. And with how many workers and which window an
# example is replayed.
SERIAL = (["serial"], ["run"], ["serial", "--sums"], ["serial", "--json"])
REPLAYING = (["run", "--eager"], ["compare"], ["rounds"], ["depends"])
PAIRS = ((1, 1), (2, 2), (4, 7), (4, 64), (64, 4096))
EQUAL = Answer(0, b"equal\n", b"")


def by_model(trace: bytes) -> Answer:
    """What `check` says of a trace."""
    try:
        return Answer(0, model_records.answer(trace).encode(), b"")
    except Refused as fault:
        return refused(str(fault))


def as_json(line: bytes) -> bytes:
    """The object of an answer."""
    _, places, _, rings, _ = line.decode().split()
    return '{{"kind":"ok","places":"{}","rings":{}}}\n'.format(places, rings).encode()


def of_rounds(program: Program, trace: bytes, window: int, has_graph: bool) -> Optional[str]:
    """How what the program tells of rounds differs from the model, if it does."""
    give, words = (model_rounds.graph, ["--dot"]) if has_graph else (model_rounds.rounds, [])
    return difference(program.run(["rounds", "--window", str(window), *words], trace), Answer(0, give(trace, window), b""))


def of_depends(program: Program, trace: bytes, has_graph: bool) -> Optional[str]:
    """The same of what places depend on."""
    give, words = (model_depends.graph, ["--dot"]) if has_graph else (model_depends.depends, [])
    return difference(program.run(["depends", *words], trace), Answer(0, give(trace), b""))


def in_rounds(program: Program, trace: bytes, workers: int, window: int, words: List[str]) -> Optional[str]:
    """How a replay in rounds differs from the second replayer, if it does."""
    pair = ["--workers", str(workers), "--window", str(window), *words]
    told = difference(program.run(["run", "--sums", *pair], trace), by_models.replayed(trace, True))
    return told or difference(program.run(["compare", *pair], trace), EQUAL)


def of_drawn(program: Program, seed: int) -> Optional[str]:
    """How the program differs from the second reader on a drawn trace, if it does."""
    trace = record_traces.Records(seed).trace()
    wanted = by_model(trace)
    if wanted.status != 0:
        return "it is refused: {!r}".format(wanted.errors)
    told = difference(program.run(["check"], trace), wanted)
    told = told or difference(program.run(["serial", "--sums"], trace), by_models.replayed(trace, True))
    window, has_graph = 64 if seed % 3 == 0 else 1 + seed % 7, seed % 5 == 0
    told = told or (of_depends(program, trace, has_graph) if seed % 2 else of_rounds(program, trace, window, has_graph))
    if not told and seed % IN_ROUNDS == 0:
        told = in_rounds(program, trace, 1 + seed % 4, 1 + seed % 7, ["--eager"] if seed % 2 else [])
    if not told and seed % AS_JSON == 0:
        told = difference(program.run(["check", "--json"], trace), wanted._replace(output=as_json(wanted.output)))
    return told


def of_changed(program: Program, seed: int) -> Optional[str]:
    """The same of a changed trace, which may be of any version then. It is without sums: its buffers may be of any length."""
    trace = record_traces.changed(seed)
    return difference(program.run(["check"], trace), by_model(trace)) or difference(program.run(["serial"], trace), by_models.replayed(trace))


def of_cut(program: Program, seed: int) -> Optional[str]:
    """The same of a trace that ends early: it is Short where it ends, by each command."""
    trace = record_traces.Records(seed).trace()
    front = trace[: random.Random("cut {}".format(seed)).randrange(len(trace))]
    wanted = by_model(front)
    told = None if wanted == refused("Short at {}".format(len(front))) else "by the second reader {!r}".format(wanted.errors)
    return told or difference(program.run(["check"], front), wanted) or as_refused(program, front, by_models.replayed(front))


def is_served_more(trace: bytes) -> bool:
    """Whether version 3 serves more of a trace of version 2: a transfer has the flags of its own that it serves, and no others."""
    entries = (entry for _, _, entry in model.entries_of(model.World(trace)))
    return any(it.own_flags in (2, 4, 6) for it in entries if it.opcode in (*model.READS, *model.WRITES))


def carried(seeds: range) -> List[Outcome]:
    """The second replayer gives of drawn traces that are carried over what it gives of those of version 2, but of what version 3 alone serves."""
    faults = []
    for seed in seeds:
        before = drawing.Second(seed).trace()
        if is_served_more(before):
            continue
        got, wanted = model_records.report(record_traces.Carried(seed).trace()), record_traces.behind_rings(model.report(before), before)
        faults += ["seed {}: {}".format(seed, difference(Answer(0, got, b""), Answer(0, wanted, b"")))] if got != wanted else []
    day = " of {}".format(days.written()) if seeds[0] >= days.SEEDS_A_DAY else ""
    return [Outcome("the second replayer of traces {} to {}{} carried over to version 3".format(seeds[0], seeds[-1], day), first(faults))]


def by_bench() -> List[Outcome]:
    """bench/carried.py carries a drawn trace of version 2 over to what is drawn of the same seed in version 3, and refuses one that is cut."""
    command = Program(os.path.join(TOP, "bench", "carried.py"), "Python")
    told = [difference(command.run([], drawing.Second(seed).trace()), Answer(0, record_traces.Carried(seed).trace(), b"")) for seed in range(BY_BENCH)]
    cut = command.run([], drawing.Second(0).trace()[:-1])
    told += [None if cut.errors.startswith(b"trace refused: Short at ") and cut.status == 1 else "it takes a trace that is cut"]
    return [Outcome("drawn traces that bench/carried.py carries over", first([it for it in told if it]))]


def in_other_orders(seeds: range) -> List[Outcome]:
    """Orders that keep the pairs which the models tell give the report of a drawn trace, and so do their rounds, one after another."""
    faults = []
    for seed in seeds:
        trace, source = record_traces.Records(seed).trace(), random.Random(seed)
        waits, report = waits_of(model_depends.depends(trace)), model_records.report(trace)
        told = model_rounds.rounds(trace, 1 + seed % 64).decode()
        rounds = {int(place): int(it) for place, it in re.findall(r"^(\d+) round=(\d+)", told, re.M)}
        by_rounds = sorted(rounds, key=lambda it: (rounds[it], it))
        each = [by_rounds, order_of(waits, max), *(order_of(waits, source.choice) for _ in range(2))]
        faults += ["seed {}: another report in the order {}".format(seed, it) for it in each if report_in(trace, it) != report]
    return [Outcome("other orders of traces {} to {} of version 3, by the models".format(seeds[0], seeds[-1]), first(faults))]


def queues(programs: List[Program]) -> List[Outcome]:
    """A drained entry waits for the rings and entries of its queue, and for no others."""
    outcomes = []
    for label, queue, wanted in (("of an earlier ring", 0, [0, 1, 2]), ("of its own", drawing.LAST, [1])):
        rings = [record_traces.ring(), record_traces.ring(queue=queue)]
        nops = [record_traces.enter(it, [record_traces.stored(entry(NOP, flags))]) for it, flags in ((0, 0), (1, DRAIN))]
        trace = b"".join([record_traces.head(), *rings, *nops, record_traces.END])
        told = model_depends.depends(trace).decode()
        waits = [int(it) for it in re.findall(r"^3 after=(\d+) on=order of ring {}$".format(min(queue, 1)), told, re.M)]
        outcomes.append(Outcome("a drain of a queue {}, by the models".format(label), None if waits == wanted else told))
        for program in programs:
            fault = difference(program.run(["depends"], trace), Answer(0, told.encode(), b""))
            outcomes.append(Outcome("a drain of a queue {} by {}".format(label, program.compiler), fault))
    return outcomes


def lot(program: Program, what: str, unlike: Callable[[Program, int], Optional[str]], seeds: range) -> List[Outcome]:
    faults = ["seed {}: {}".format(seed, told) for seed in seeds for told in [unlike(program, seed)] if told]
    day = " of {}".format(days.written()) if seeds[0] >= days.SEEDS_A_DAY else ""
    return [Outcome("{} {} to {}{} by {}".format(what, seeds[0], seeds[-1], day, program.compiler), first(faults))]


def names() -> List[str]:
    """The examples of version 3, without their folder and ending."""
    return sorted(it[: -len(".trace")] for it in os.listdir(os.path.join(EXAMPLES, VERSION_3)) if it.endswith(".trace"))


def as_refused(program: Program, trace: bytes, begun: Answer) -> Optional[str]:
    """How a command that replays serves a trace that is refused otherwise, if one does: `serial` and `run` write lines before the fault, and no other does."""
    each = [(words, begun) for words in SERIAL] + [(words, begun._replace(output=b"")) for words in REPLAYING]
    return first([told for words, wanted in each for told in [json_lines.differs(words, program.run(words, trace), wanted)] if told])


def replayed(program: Program, trace: bytes, report: Answer) -> Optional[str]:
    """How what the program gives of an example differs from what stands beside it and from what the models tell, if it does."""
    each = [difference(program.run([it], trace), report) for it in ("serial", "run")]
    each.append(difference(program.run(["serial", "--sums"], trace), by_models.replayed(trace, True)))
    each += [in_rounds(program, trace, *pair, words) for pair in PAIRS for words in ([], ["--eager"])]
    each += [of_rounds(program, trace, window, has_graph) for window in (1, 2, 64) for has_graph in (False, True)]
    each += [of_depends(program, trace, has_graph) for has_graph in (False, True)]
    return first([it for it in each if it])


def of_example(programs: List[Program], name: str) -> List[Outcome]:
    """What stands beside an example, by the program and by the second replayer."""
    trace = read(VERSION_3, name + ".trace")
    is_refused = os.path.exists(os.path.join(EXAMPLES, VERSION_3, name + ".refused"))
    wanted = Answer(1, b"", read(VERSION_3, name + ".refused")) if is_refused else Answer(0, read(VERSION_3, name + ".check"), b"")
    report = wanted._replace(output=read(VERSION_3, name + (".lines" if is_refused else ".report")))
    outcomes = [Outcome("the second reader of {} of version 3".format(name), difference(by_model(trace), wanted))]
    outcomes.append(Outcome("the second replayer of {} of version 3".format(name), difference(by_models.replayed(trace), report)))
    if os.path.exists(os.path.join(EXAMPLES, VERSION_3, name + ".depends")):
        told = difference(Answer(0, model_depends.depends(trace), b""), Answer(0, read(VERSION_3, name + ".depends"), b""))
        outcomes.append(Outcome("the second program on what {} of version 3 depends on".format(name), told))
    for program in programs:
        label = "{} of version 3 {{}} by {}".format(name, program.compiler)
        outcomes.append(Outcome(label.format("check"), difference(program.run(["check"], trace), wanted)))
        told = (as_refused if is_refused else replayed)(program, trace, report)
        outcomes.append(Outcome(label.format("by commands that replay"), told))
        shown = wanted if is_refused else Answer(0, read(VERSION_3, name + ".text"), b"")
        outcomes.append(Outcome(label.format("show"), difference(program.run(["show"], trace), shown)))
    return outcomes


def fronts(program: Program) -> List[Outcome]:
    """Each front of a trace of version 3 is Short at its length, also one without a version."""
    trace = read(VERSION_3, "read_four_bytes.trace")
    faults = []
    for length in range(len(trace)):
        front, wanted = trace[:length], refused("Short at {}".format(length))
        each = [difference(program.run(["check"], front), wanted), difference(program.run(["serial"], front), wanted._replace(output=model_records.lines_before(front)))]
        faults += ["at {}: {}".format(length, wrong) for wrong in each if wrong]
    return [Outcome("every front of a trace of version 3 by {}".format(program.compiler), first(faults))]


def jobs(programs: List[Program]) -> List[Job]:
    """The first program on all of them, the others on one lot of each kind."""
    each = DRAWN // LOTS
    kinds = (("traces of version 3", of_drawn), ("changed traces of version 3", of_changed))
    starts = [at + back for back in (0, days.first_seed()) for at in range(0, DRAWN, each)]
    lots = [(program, range(at, at + each)) for program in programs for at in (starts if program is programs[0] else starts[:: LOTS])]
    shown: List[Job] = [*(partial(of_example, programs, it) for it in names()), *(partial(fronts, it) for it in programs)]
    part = CARRIED // CARRIED_LOTS
    of_version_2 = [partial(carried, range(at + back, at + back + part)) for back in (0, days.first_seed()) for at in range(0, CARRIED, part)]
    shown += [partial(lot, programs[0], "traces of version 3 that end early", of_cut, range(at, at + CUT)) for at in (0, days.first_seed())]
    shown += [by_bench, partial(queues, programs), partial(in_other_orders, range(ORDERED)), *of_version_2]
    return shown + [partial(lot, program, what, unlike, seeds) for program, seeds in lots for what, unlike in kinds]
