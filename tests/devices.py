"""Devices that fail: each read and each write fails, is interrupted, would block, moves one byte or none."""
import os
import re
from functools import partial
from typing import List, NamedTuple

import model_records
from harness import Answer, Input, Job, Outcome, Program, Words, fault, first, input_of, refused, shown, skipped, spoken, with_entries
from harness import read as read_example
from shims import Shim

TRACES = ("read_four_bytes", "open_write_close_chain_then_empty_slot", "fallocate_and_ftruncate_tests", "side_bytes_of_read")
# Of version 3, for the commands that read it as it comes.
RECORDS = "version_3/rings_of_one_queue"
BY_RECORDS = (["check"], ["compare"], ["serial"])
# The first bytes of a trace, which tell its version, are asked for alone.
HEAD = 12
MODES = (["serial"], ["serial", "--sums"], ["check"], ["run"], ["compare"], ["rounds"], ["depends"], ["diff"])
WORDS_ALONE: List[Words] = [["--help"], ["run", "--help"], ["serial", "a", "extra"], ["run", "--workers", "65"], ["serial", b"\xff"]]
FAILURES = ("fail", "interrupt", "block", "zero")
INPUT, OUTPUT, ERRORS = 0, 1, 2
# Where each call moves a byte, every call is changed in these, and each STEP-th in the others.
WHOLE = ((["serial"], INPUT), (["serial"], OUTPUT), (["run"], INPUT), (["check"], OUTPUT), (["compare"], OUTPUT))
STEP = 7
# Help is printed in pieces of so many bytes.
PIECE = 1024


def begins(output: bytes) -> List[int]:
    """Where the pieces begin in which an output is written: a report's first line, each of its rings, and the rest. Any other is one piece."""
    if not output.startswith(b"uring-report"):
        return [0]
    return [0, *(it.start() + 1 for it in re.finditer(rb"\n(?=ring \d+\n|tree\n)", output))]


def changed(calls: int, is_whole: bool) -> List[int]:
    """Which calls are changed, of so many; one more is not met."""
    if is_whole:
        return list(range(1, calls + 2))
    return sorted({*range(1, calls + 2, STEP), *range(1, min(calls, 3) + 1), *range(max(1, calls - 2), calls + 2)})


class Early(NamedTuple):
    """What comes of an input that ends early, or cannot be read to its end."""

    program: Program
    words: Words
    file: Input
    # A trace of version 3 whose lines are written while it is read.
    streamed: bytes

    def beginnings(self, taken: int) -> List[bytes]:
        """What may have been written behind so many bytes."""
        return model_records.beginnings(self.streamed[:taken])

    def ended(self, taken: int) -> Answer:
        """A trace is refused there, reports are compared as far as they go."""
        if isinstance(self.file, bytes):
            return self.program.run(self.words, self.file[:taken])
        return refused("Short at {}".format(taken), model_records.lines_before(self.streamed[:taken]))


def allowed(on: int, how: str, at: int, is_byte: bool, calls: int, is_help: bool, wanted: Answer, read: List[int], early: Early) -> List[Answer]:
    """What a run may answer of which the call numbered `at`, of so many, is changed; `read` tells how many bytes of the input
    undisturbed calls have given, the last of them all, and `early` what is answered behind so many of its bytes."""
    if at > calls or how == "short":
        return [wanted]
    moved = at - 1 if is_byte else PIECE * (at - 1) if is_help else 0
    taken = moved if is_byte else read[min(at, len(read)) - 1]
    if on == INPUT and how != "zero":
        return [fault("read")._replace(output=it) for it in early.beginnings(taken)]
    if on == INPUT:
        # the input ends there
        return [wanted if taken == read[-1] else early.ended(taken)]
    if on == OUTPUT:
        moved = moved if is_byte or is_help else begins(wanted.output)[at - 1]
        lost = Answer(3, wanted.output[:moved], b"fault: write\n")
    else:
        lost = wanted._replace(errors=wanted.errors[:moved])
    # (where help and usage are printed, an interrupted call is made again)
    return [lost, wanted] if how == "interrupt" and (is_help or on == ERRORS) else [lost]


def swept(shim: Shim, program: Program, words: Words, trace: str, on: int, is_byte: bool) -> List[Outcome]:
    """Calls on one descriptor changed in turn, in each way; with is_byte each call moves a byte."""
    file = input_of(words, trace) if trace else None
    given = len(file) if isinstance(file, bytes) else os.path.getsize(file) if file else 0
    read = [0, given] if words[0] in ("diff", "make") else [0, min(HEAD, given), given]
    streamed = read_example(trace + ".trace") if trace == RECORDS and words == ["serial"] else b""
    early = Early(program, words, file, streamed)
    wanted = program.run(words, file)
    undisturbed, (calls,) = shim.run(program, words, file, on=str(on), byte=int(is_byte))
    faults, runs = [], 0
    if undisturbed != wanted:
        faults.append("undisturbed: {}".format(shown(undisturbed)))
    is_whole = not is_byte or trace == TRACES[0] and (words, on) in WHOLE
    for how in (*FAILURES, *([] if is_byte else ["short"])) if calls else ():
        for at in changed(calls, is_whole):
            got, _ = shim.run(program, words, file, on=str(on), how=how, at=at, byte=int(is_byte))
            runs += 1
            answers = allowed(on, how, at, is_byte, calls, "--help" in words, wanted, read, early)
            # (a front of a trace that is refused may be refused for the same fault, and behind some bytes of a record more are asked for again)
            answers += [wanted] if how == "zero" and on == INPUT and (wanted.status == 1 or trace == RECORDS) else []
            if got not in answers:
                faults.append("{} at call {}: {}".format(how, at, shown(got)))
    what = ("standard input", "standard output", "standard error")[on]
    how = "{} fails{} ({} runs of {} calls)".format(what, ", a byte a call" if is_byte else "", runs, calls)
    return [Outcome("{}: {} {} by {}".format(how, spoken(words), trace, program.compiler), first(faults))]


def jobs(programs: List[Program]) -> List[Job]:
    shim = Shim("device", 1)
    lacking = shim.lacking()
    if lacking:
        return [partial(skipped, "failing devices", lacking)]
    whole, *others = programs
    cases = [(whole, words, trace, on) for words in MODES for trace in TRACES for on in (INPUT, OUTPUT, ERRORS)]
    cases += [(whole, words, RECORDS, on) for words in BY_RECORDS for on in (INPUT, OUTPUT, ERRORS)]
    cases += [(whole, words, trace, on) for trace in (TRACES[0], RECORDS) for words in (["make"], with_entries(trace)) for on in (INPUT, OUTPUT, ERRORS)]
    cases += [(other, words, TRACES[0], on) for other in others for words in MODES for on in (INPUT, OUTPUT)]
    cases += [(program, words, "", on) for program in programs for words in WORDS_ALONE for on in (OUTPUT, ERRORS)]
    return [partial(swept, shim, *case, is_byte) for case in cases for is_byte in (False, True)]
