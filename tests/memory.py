"""Out of memory: each growth is refused in turn, and each thread."""
from functools import partial
from typing import List

from dropped import made_and_removed
from harness import Answer, Job, Outcome, Program, Words, begins, fault, first, input_of, shown, skipped, spoken, with_entries
from hostile_traces import heavy_writes, long_reads, records_in_pieces, stored_files
from shims import Shim

TRACES = (
    "read_four_bytes",
    "open_write_close_chain_then_empty_slot",
    "unresolved_slot_holds_back_a_later_write",
    "two_written_ranges_in_one_page",
    "rename_refusals_and_two_names_of_one_node",
    "fixed_buffer_range_fill_and_fixed_write",
    "vectors_short_too_many_and_written",
    "fallocate_and_ftruncate_tests",
    "read_only_description",
    "side_bytes_of_read",
)
# Of version 3, for the commands that read it as it comes, for one that then replays it, and for `show`; one of them has records that come in pieces.
BY_RECORDS = (["check"], ["serial"], ["serial", "--sums"], ["run"], ["run", "--eager"], ["show"])
IN_PIECES, PIECES = "records in pieces", 4
# One of version 3 in which something is dropped, by `serial` alone.
TEMPORARIES = "temporary files"
RECORDS = ("version_3/rings_of_one_queue", "version_3/zeros_over_bytes", IN_PIECES)
# What `make`, and `diff` with entries, are tried with: of version 1, and of version 3.
OF_TEXTS = (TRACES[0], *RECORDS[:2])
ROUNDS = ["--workers", "2", "--window", "4"]
MODES = (["serial"], ["serial", "--sums"], ["check"], ["run", *ROUNDS], ["compare", *ROUNDS], ["rounds"], ["depends"], ["diff"])
WORDS_ALONE: List[Words] = [["serial", "a", "extra"], ["run", "--workers", "65"], ["--help"], ["serial", "--help"], ["serial", b"\xff"]]
# So many files are written side by side, each by so much that a worker is worth its thread.
HEAVY = (2, 8)
HEAVY_WRITES = "two heavy writes"
# So many files have sums that are each worth a thread.
STORED_FILES = "two stored files"
MADE = {HEAVY_WRITES: heavy_writes(HEAVY[0]), STORED_FILES: stored_files(2), IN_PIECES: records_in_pieces(PIECES), TEMPORARIES: made_and_removed(300)}
# So many growths are each refused; of those behind them each STEP-th is.
EACH = 300
STEP = 7
# Growths are not the same in number in each run with threads.
SPARE = 6
# The lists of the command line's words are made as large as they will be ahead of time; where that alone is refused, they
# grow on their own. So are the lists of the lines of two reports, and of the words of each line.
TRIED_AGAIN = 4
# Some growths can be done without: a list of many pages that is refused what it takes to share its tree of them keeps it for
# itself, and one that is refused one of the two growths of a turn leaves its tree a little higher. Of eight leaves, as each of two
# heavy writes has, four turns are made. And a thread that is refused memory isn't started, and its sums are made where it was
# asked for. The list of the lengths of a ring's buffers, of which each of these traces has one, is made as large as it will be ahead
# of time too; and so is that of the full descriptors, where the first of them is made of its text.
# Where records come in pieces, the pages that each of them writes share a list, as above.
DONE_WITHOUT = {HEAVY_WRITES: 2 * (1 + 4 * 2), STORED_FILES: 4, **dict.fromkeys(RECORDS, 1), IN_PIECES: PIECES}


def growths(count: int, spare: int) -> List[int]:
    """Which growths are refused, of so many."""
    last = count + spare
    return sorted({*range(1, min(last, EACH) + 1), *range(EACH, last + 1, STEP), *range(max(1, count - STEP), last + 1)})


def has_lacked(got: Answer, lacking: List[Answer], wanted: Answer, is_streamed: bool) -> bool:
    """Whether a run answers that it lacked something. Nothing goes out then, or a beginning of what is written while the trace is read."""
    return got in lacking or is_streamed and got._replace(output=b"") in lacking and begins(got.output, wanted.output)


def swept(shim: Shim, program: Program, words: Words, trace: str, is_from: bool) -> List[Outcome]:
    """Each growth of one run refused, once or from then on: the fault is that of memory or of a thread, and nothing goes
    out, or a beginning of the report of version 3. A run that met no refusal, and one with ample memory, gives the answer."""
    given = MADE[trace] if trace in MADE else input_of(words, trace) if trace else None
    has_workers = bool(trace) and words[0] in ("run", "compare")
    is_streamed = trace in (*RECORDS, TEMPORARIES) and words[0] in ("serial", "run") and "--eager" not in words
    wanted = program.run(words, given)
    ample, (count, _, _, before_read) = shim.run(program, words, given)
    lacking = [fault("memory"), *([fault("thread")] if has_workers else [])]
    faults, refusals, tried_again, done_without = [], 0, 0, 0
    if ample != wanted:
        faults.append("with ample memory: {}".format(shown(ample)))
    for at in growths(count, SPARE if has_workers else 1):
        got, (_, refused, _, _) = shim.run(program, words, given, at=at, **{"from": int(is_from)})
        refusals += refused > 0
        is_early = refused > 0 and not is_from and at <= (before_read or count)
        if words[0] == "diff" and refused and not is_from and got == wanted:
            continue
        if is_early and got == wanted and tried_again < TRIED_AGAIN:
            tried_again += 1
        elif refused and not is_from and got == wanted and done_without < DONE_WITHOUT.get(trace, 0) + (words[0] == "make" and trace == RECORDS[0]):
            done_without += 1
        elif not (has_lacked(got, lacking, wanted, is_streamed) if refused else got == wanted):
            faults.append("growth {}: {}".format(at, shown(got)))
    if not refusals:
        faults.append("no growth was refused")
    what = "each growth from the Nth on refused" if is_from else "the Nth growth refused"
    return [Outcome("{} ({} of {} growths): {} {} by {}".format(what, refusals, count, spoken(words), trace, program.compiler), first(faults))]


def threads(shim: Shim, program: Program, words: Words, count: int) -> List[Outcome]:
    """Each thread of one run refused: the fault is want of a thread, and nothing goes out."""
    given = heavy_writes(count)
    asked = shim.run(program, words, given)[1][2]
    faults: List[str] = [] if asked else ["no thread was asked for"]
    for at in range(1, min(asked, EACH) + 1):
        got = shim.run(program, words, given, thread=at)[0]
        if got != fault("thread"):
            faults.append("thread {}: {}".format(at, shown(got)))
    label = "each of {} threads refused: {} {} heavy writes by {}".format(asked, spoken(words), count, program.compiler)
    return [Outcome(label, first(faults))]


def threads_done_without(shim: Shim, program: Program, words: Words, what: str, given: bytes, most: int) -> List[Outcome]:
    """Each thread of a run refused whose work another thread does then: the answer is the same."""
    wanted = program.run(words, given)
    asked = shim.run(program, words, given)[1][2]
    faults = [] if asked == most else ["{} threads were asked for, and not {}".format(asked, most)]
    for at in range(1, asked + 1):
        got = shim.run(program, words, given, thread=at)[0]
        if got != wanted:
            faults.append("thread {}: {}".format(at, shown(got)))
    return [Outcome("each of {} threads refused: {} {} by {}".format(asked, spoken(words), what, program.compiler), first(faults))]


def jobs(programs: List[Program]) -> List[Job]:
    shim = Shim("refuse", 4)
    lacking = shim.lacking()
    if lacking:
        return [partial(skipped, "out of memory", lacking)]
    whole, *others = programs
    made: List[Job] = []
    for is_from in (False, True):
        made += [partial(swept, shim, whole, words, trace, is_from) for words in MODES for trace in TRACES]
        made += [partial(swept, shim, whole, words, trace, is_from) for words in BY_RECORDS for trace in RECORDS]
        made.append(partial(swept, shim, whole, ["serial"], TEMPORARIES, is_from))
        made += [partial(swept, shim, whole, words, trace, is_from) for trace in OF_TEXTS for words in (["make"], with_entries(trace))]
        made += [partial(swept, shim, whole, words, "", is_from) for words in WORDS_ALONE]
        made.append(partial(swept, shim, whole, ["run", *ROUNDS], HEAVY_WRITES, is_from))
        made.append(partial(swept, shim, whole, ["run", *ROUNDS, "--sums"], STORED_FILES, is_from))
    made += [partial(swept, shim, other, words, TRACES[3], False) for other in others for words in MODES]
    for words in (["run", *ROUNDS], ["compare", *ROUNDS], ["run", "--workers", "64"]):
        made += [partial(threads, shim, program, words, count) for program in programs for count in HEAVY]
    files, reads = stored_files(8), long_reads(64)
    for workers in (1, 2, 4, 64):
        pair = ["--workers", str(workers)]
        made += [partial(threads_done_without, shim, it, ["run", *pair, "--sums"], "8 stored files", files, min(workers, 8) - 1) for it in programs]
        made += [partial(threads_done_without, shim, it, ["compare", *pair], "64 long reads", reads, min(workers, 16) - 1) for it in programs]
    return made
