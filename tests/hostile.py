"""Traces that are cut short, at the limits of the format, of generated entries, or of much work."""
from functools import partial
from typing import List

import hostile_traces
from harness import Answer, Job, Outcome, Program, difference, first, read, refused, shown, spoken
from traces import takes_no_side

EXAMPLE = "read_four_bytes"
MODES = (["serial"], ["run"], ["compare"], ["check"])


def prefixes(program: Program, words: List[str]) -> List[Outcome]:
    """Each front of a trace is Short at its length."""
    whole = read(EXAMPLE + ".trace")
    faults = []
    for length in range(len(whole)):
        wrong = difference(program.run(words, whole[:length]), refused("Short at {}".format(length)))
        faults += ["at {}: {}".format(length, wrong)] if wrong else []
    return [Outcome("every front of {}: {} by {}".format(EXAMPLE, spoken(words), program.compiler), first(faults))]


def limit(program: Program, name: str, at: bytes, past: bytes, line: str) -> List[Outcome]:
    """A trace at a limit is accepted, and one past it is refused, in each mode."""
    label = "{} {{}} the limit: {{}} by {}".format(name, program.compiler)
    outcomes = [Outcome(label.format("past", spoken(words)), difference(program.run(words, past), refused(line))) for words in MODES]
    checked, serial = program.run(["check"], at), program.run(["serial"], at)
    is_counted = checked.status == 0 and checked.output.startswith(b"ok ") and not checked.errors
    outcomes.append(Outcome(label.format("at", "check"), None if is_counted else shown(checked)))
    is_whole = serial.status == 0 and serial.output.endswith(b"\nend\n") and not serial.errors
    outcomes.append(Outcome(label.format("at", "serial"), None if is_whole else shown(serial)))
    outcomes.append(Outcome(label.format("at", "run"), difference(program.run(["run"], at), serial)))
    return outcomes


def generated(program: Program, kind: str) -> List[Outcome]:
    """Ten thousand generated entries, those left out that need side bytes."""
    change = hostile_traces.any_entry if kind == "any" else hostile_traces.transfer_entry
    entries = [change(drawn) for drawn in hostile_traces.drawn_entries()]
    kept = [fields for fields in entries if takes_no_side(fields)]
    trace = hostile_traces.in_records(kept)
    label = "10,000 generated entries ({}): {{}} by {}".format(kind, program.compiler)
    serial = program.run(["serial"], trace)
    is_whole = serial.status == 0 and serial.output.endswith(b"\nend\n") and not serial.errors
    outcomes = [Outcome(label.format("serial"), None if is_whole else shown(serial))]
    counted = Answer(0, "ok {} places 1 rings\n".format(len(kept)).encode(), b"")
    outcomes.append(Outcome(label.format("check"), difference(program.run(["check"], trace), counted)))
    pair = ["--workers", "4", "--window", "64"]
    outcomes.append(Outcome(label.format("run"), difference(program.run(["run", *pair], trace), serial)))
    outcomes.append(Outcome(label.format("compare"), difference(program.run(["compare", *pair], trace), Answer(0, b"equal\n", b""))))
    sums = program.run(["serial", "--sums"], trace)
    outcomes.append(Outcome(label.format("run --sums"), difference(program.run(["run", "--sums", *pair], trace), sums)))
    left_out = [fields for fields in entries if not takes_no_side(fields)][:20]
    accepted = [fields for fields in left_out if program.run(["check"], hostile_traces.in_records([fields])) != refused("Side at 173")]
    outcomes.append(Outcome(label.format("those that were left out"), "{} of them need no side bytes".format(len(accepted)) if accepted else None))
    return outcomes


def finished(program: Program, name: str, trace: bytes) -> List[Outcome]:
    """A trace of much work is replayed to its end, and in rounds alike."""
    label = "{}: {{}} by {}".format(name, program.compiler)
    serial = program.run(["serial"], trace)
    is_whole = serial.status == 0 and serial.output.endswith(b"\nend\n") and not serial.errors
    return [
        Outcome(label.format("serial"), None if is_whole else shown(serial)),
        Outcome(label.format("run"), difference(program.run(["run"], trace), serial)),
        Outcome(label.format("compare"), difference(program.run(["compare"], trace), Answer(0, b"equal\n", b""))),
    ]


def jobs(programs: List[Program]) -> List[Job]:
    made: List[Job] = []
    for program in programs:
        made += [partial(generated, program, kind) for kind in ("any", "transfer")]
        made += [partial(finished, program, name, trace) for name, trace in hostile_traces.much_work()]
        made += [partial(prefixes, program, words) for words in MODES]
    made += [partial(limit, programs[0], *each) for each in hostile_traces.limits()]
    return made
