"""The player in flight: what may run at once does, each answer is the one that is proved, and a race that one chain at a time does not show is found."""
import json
import os
import random
import signal
import struct
import subprocess
import time
from functools import partial
from typing import Callable, List, Sequence, Tuple, Type

import play
from by_models import MODELS
from harness import EXAMPLES, Job, Outcome, Program, first, read, shown, skipped
from mounted import Passthrough
from play_drawing import Wide, WideRecords
from player import UNTRIED, Player, against
from traces import AT_FDCWD, CLOSE, DRAIN, FIXED_FILE, HARDLINK, LINK, MKDIRAT, NOP, OPENAT, READ, SKIP, WRITE
from traces import description, enter, entry, fill, file, head, ring, sums_option

# A race has to be found in so many of so many plays.
PLAYS, FOUND = 10, 9
SLOTS = 32


def files(count: int, size: int = 100) -> bytes:
    return b"".join(file(b"/%d" % it, size, b"o" * size) for it in range(count))


def descriptions(count: int) -> bytes:
    return b"".join(description(it + 1) for it in range(count))


def shared_blocks() -> bytes:
    """One write to each of sixteen files. None conflicts with another; but in the planted file system two of them share a block."""
    writes = [entry(WRITE, FIXED_FILE, it, length=64, side=bytes([65 + it]) * 64) for it in range(16)]
    return head(16, 16, 1, 1) + files(16) + descriptions(16) + ring(list(range(1, 17))) + enter(0, writes)


def planted(player: Player, program: Program) -> List[Outcome]:
    """A file system that reads, sleeps and writes back: its lost writes are found in flight, and by no chain at a time."""
    name, trace = "flight: a planted race", shared_blocks()
    report, depends = (program.run(it, trace).output for it in (["serial", "--sums"], ["depends"]))
    outcomes = []
    with Passthrough(["planted"]) as there:
        if there.lacking:
            return skipped(name, there.lacking)
        for label, words, texts, least, most in (("in flight", [], depends, FOUND, PLAYS), ("in threads", ["--async"], depends, FOUND, PLAYS),
                                                 ("one in flight", ["--in-flight", "1"], depends, 0, 0), ("one chain at a time", [], b"", 0, 0)):
            each = [against(program, report, player.steered(trace, report, words, b"", there.mount, texts)) for _ in range(PLAYS)]
            found = sum(it.counts["tree"][1] > 0 for it in each)
            others = [it.fault for it in each if it.fault and not it.counts["tree"][1]]
            fault = first(others) or (None if least <= found <= most else "found in {} of {} plays".format(found, PLAYS))
            outcomes.append(Outcome("{}: {}".format(name, label), fault, first([it.untried for it in each if it.untried])))
    return outcomes


def passed_through(player: Player, program: Program, words: Sequence[str]) -> List[Outcome]:
    """Without the plant nothing differs."""
    name = "flight: through a file system in user space{}".format("".join(" " + it for it in words))
    traces = [(program, it) for it in [*(play.Played(seed).trace() for seed in range(12)), shared_blocks()]]
    traces += [(MODELS, play.PlayedRecords(seed).trace()) for seed in range(6)]
    with Passthrough(words) as there:
        if there.lacking:
            return skipped(name, there.lacking)
        each = [player.compared(by, it, by.run(["serial", sums_option(it)], it).output, mode, there.mount) for by, it in traces for mode in ("chains", "flight")]
    return [Outcome(name, first([it.fault for it in each if it.fault]), first([it.untried for it in each if it.untried]))]


def much(player: Player, program: Program, kind: Type[Wide], seeds: range) -> List[Outcome]:
    """Drawn traces of many steps that mostly use different things: nothing differs, and most is compared."""
    faults, entries, unchecked = [], 0, 0
    for seed in seeds:
        trace = kind(seed).trace()
        report, place = program.run(["serial", sums_option(trace)], trace).output, player.directories()[seed % len(player.directories())]
        found = player.compared(program, trace, report, "flight", place)
        faults += ["wide {} in {}: {}".format(seed, place, found.fault)] if found.fault else []
        entries, unchecked = entries + sum(found.counts["entries"]), unchecked + found.counts["entries"][2]
    name = "flight: {} {} to {}".format(kind.__name__, seeds.start, seeds.stop - 1)
    return [Outcome(name, first(faults) or (None if 100 * unchecked < (100 - play.COMPARED) * entries else "of {} entries {} are unchecked".format(entries, unchecked)))]


# --- Queues that are full ---------------------------------------------------------------------------------------------

def crowd(source: random.Random, rings: int, records: int, longest: int) -> bytes:
    """Chains of many lengths on some rings, linked softly and hard, silent, drained, with failures; each reads and writes files of its own and of all."""
    def member(flags: int) -> bytes:
        slot = source.randrange(SLOTS + 2)
        if source.randrange(2):
            return entry(READ, FIXED_FILE | flags, slot, offset=source.randrange(110), length=source.randrange(64))
        length = source.randrange(1, 32)
        return entry(WRITE, FIXED_FILE | flags, slot, offset=source.randrange(64), length=length, side=bytes([source.randrange(256)]) * length)

    def chain() -> List[bytes]:
        count = source.choice((1, 1, 1, 1, 2, 3, longest))
        link, silent = source.choice((LINK, HARDLINK)), source.choice((0, 0, SKIP))
        drained = DRAIN if source.randrange(40) == 0 else 0
        return [member((link if it + 1 < count else 0) | silent | (drained if it == 0 else 0)) for it in range(count)]

    records_ = [enter(source.randrange(rings), [it for _ in range(source.randrange(1, 9)) for it in chain()]) for _ in range(records)]
    slots = ring(list(range(1, SLOTS + 1)))
    return head(SLOTS, SLOTS, rings, len(records_)) + files(SLOTS) + descriptions(SLOTS) + slots * rings + b"".join(records_)


def crowded(player: Player, program: Program, seed: int) -> List[Outcome]:
    """Queues that fill and empty, at any number in flight: no completion is lost, and none differs."""
    source = random.Random(seed)
    trace = crowd(source, *source.choice(((1, 150, 40), (3, 150, 7), (64, 200, 3))))
    report, outcomes = program.run(["serial", sums_option(trace)], trace).output, []
    for number, words in ((1, []), (3, ["--async"]), (64, []), (4096, ["--async"])):
        found = player.compared(program, trace, report, "flight", player.directories()[seed % len(player.directories())], ["--in-flight", str(number), *words])
        outcomes.append(Outcome("flight: full queues {}, {} in flight".format(seed, number), found.fault, found.untried))
    return outcomes


def wide(player: Player, program: Program) -> List[Outcome]:
    """As many as the most at once, and chains of as many members as a record takes, which are silent: the queues of completions are full, and fills
    of buffers stand between."""
    reads = [enter(0, [entry(READ, FIXED_FILE, length=4)]) for _ in range(9_000)]
    long = [enter(1, [entry(READ, FIXED_FILE | LINK | SKIP, length=4)] * 32_000 + [entry(NOP)])]
    fills = [fill(0, 0, it % 16, b"x") for it in range(200)]
    body = b"".join([*reads[:4_500], *fills, *long, *reads[4_500:]])
    trace = head(1, 1, 2, len(reads) + len(fills) + len(long)) + file(b"/a", 10, b"0123456789") + description(1) + ring([1], [(4096, 16)]) + ring([1]) + body
    report, outcomes = program.run(["serial", "--sums"], trace).output, []
    for words in (["--in-flight", "4096"], ["--in-flight", "7"]):
        found = player.compared(program, trace, report, "flight", player.directories()[-1], words)
        outcomes.append(Outcome("flight: many and long ones, {}".format(" ".join(words)), found.fault, found.untried))
    return outcomes


def great(player: Player, program: Program) -> List[Outcome]:
    """Reads that ask for much at the end of a file, more of them than a process has mappings for: memory is waited for, in flight and in rounds."""
    reads = [enter(0, [entry(READ, FIXED_FILE, offset=10, length=1 << 30)]) for _ in range(6_000)]
    trace = head(1, 1, 1, len(reads)) + file(b"/a", 10, b"0123456789") + description(1) + ring([1]) + b"".join(reads)
    report, rounds, depends = (program.run(it, trace).output for it in (["serial", "--sums"], ["rounds", "--window", "4096"], ["depends"]))
    outcomes = []
    for label, words, texts in (("in rounds", [], (rounds, b"")), ("in flight", ["--in-flight", "4096"], (b"", depends)), ("in threads", ["--in-flight", "4096", "--async"], (b"", depends))):
        found = against(program, report, player.steered(trace, report, words, texts[0], "", texts[1]))
        outcomes.append(Outcome("flight: great reads {}".format(label), found.fault, found.untried))
    return outcomes


def at_once(player: Player, program: Program) -> List[Outcome]:
    """As many as are asked for are in flight at once, and no more, by their times."""
    trace = shared_blocks()
    report, depends = (program.run(it, trace).output for it in (["serial", "--sums"], ["depends"]))
    outcomes = []
    with Passthrough(["planted"]) as there:
        if there.lacking:
            return skipped("flight: how many are in flight", there.lacking)
        for most in (1, 2, 5):
            got = player.steered(trace, report, ["--in-flight", str(most)], b"", there.mount, depends)
            spans = times(got.output)
            # What comes together is taken at one time, before more is submitted.
            deepest = max((sum(one <= at < end for one, end in spans) for at, _ in spans), default=0)
            outcomes.append(Outcome("flight: {} in flight at once".format(most), None if deepest == most and len(spans) == 16 else "{} of {}".format(deepest, len(spans))))
    return outcomes


def times(results: bytes) -> List[Tuple[int, int]]:
    """When each entry was submitted and completed."""
    found = []
    for line in results.split(b"\n"):
        facts = dict(it.split(b"=", 1) for it in line.split() if b"=" in it)
        if b"submitted" in facts and b"completed" in facts:
            found.append((int(facts[b"submitted"]), int(facts[b"completed"])))
    return found


# --- Texts that are none ----------------------------------------------------------------------------------------------

def chained() -> bytes:
    """Two chains, of which the second waits for the first by a file, and a fill."""
    chains = [entry(WRITE, FIXED_FILE | LINK, length=4, side=b"abcd"), entry(READ, FIXED_FILE, length=9), entry(READ, FIXED_FILE | LINK, length=4), entry(NOP)]
    return head(1, 1, 1, 2) + file(b"/a", 10, b"0123456789") + description(1) + ring([1], [(4096, 16)]) + enter(0, chains) + fill(0, 0, 0, b"x")


def line_of(text: bytes, word: bytes) -> bytes:
    return next(it for it in text.split(b"\n") if it.startswith(word))


def refused_texts(text: bytes, other: bytes) -> List[Tuple[str, bytes, str]]:
    """Texts that are not the dependencies of the trace: what is wrong, the text, and what is said."""
    lines = text.split(b"\n")
    pair = next(it for it in lines if b" after=" in it)
    place = int(pair.split()[0])

    def instead(old: bytes, new: bytes) -> bytes:
        return text.replace(old + b"\n", new + b"\n", 1)

    return [
        ("nothing", b"\n", "does not begin with uring-depends 1"),
        ("a report", b"uring-report 1\nring 0\nend\n", "does not begin with uring-depends 1"),
        ("rounds", b"uring-rounds 1\n0 round=0\nend\n", "does not begin with uring-depends 1"),
        ("its heading alone", b"uring-depends 1\n", "it tells of 0 places, and the trace has 5"),
        ("cut short", text[: len(text) // 2].rsplit(b"\n", 1)[0] + b"\n", ""),
        ("cut within a line", text[:-2], "is not there, or does not end"),
        ("without its end", text[: -len(b"end\n")], "is not there, or does not end"),
        ("with more behind", text + b"end\n", "it goes on behind its end"),
        ("another trace's", other, ""),
        ("a place that is not there", instead(b"places 5", b"5\nplaces 5"), "is of a place that the trace does not have"),
        ("a place of many digits", instead(lines[1], b"99999999999999999999999"), "has too great a number"),
        ("a place left out", instead(lines[1], b""), ""),
        ("a place twice", instead(lines[1], lines[1] + b"\n" + lines[1]), "is out of order"),
        ("a pair twice", instead(pair, pair + b"\n" + pair), "is out of order"),
        ("a pair that waits for itself", instead(pair, b"%d after=%d on=order of ring 0" % (place, place)), "waits for a place that is not earlier"),
        ("a pair that waits for a later place", instead(pair, b"%d after=4 on=order of ring 0" % place), "waits for a place that is not earlier"),
        ("a pair that waits for no number", instead(pair, b"%d after=x on=order of ring 0" % place), "has no number where one belongs"),
        ("a pair that waits for less than none", instead(pair, b"%d after=-1 on=order of ring 0" % place), "has no number where one belongs"),
        ("a pair without an item", instead(pair, pair.split(b" on=")[0]), "does not tell the item"),
        ("a pair in other words", instead(pair, pair.replace(b"after", b"behind")), "is neither PLACE nor PLACE after=EARLIER on=ITEM"),
        ("a pair of a chain left out", instead(pair, b"%d" % place), ""),
        ("another number of places", instead(b"places 5", b"places 6"), "tells another number of places than the trace has"),
        ("another number of pairs", instead(line_of(text, b"pairs"), b"pairs 77"), "tells another number of pairs than there are"),
        ("another number of bytes", instead(line_of(text, b"bytes"), b"bytes 1"), "tells another number of bytes than the report"),
        ("no span", text.replace(b"\nspan ", b"\nspam ", 1), "does not begin with span"),
        ("a graph", b"digraph depends {\n}\n", "does not begin with uring-depends 1"),
    ]


def texts(player: Player, program: Program) -> List[Outcome]:
    trace, other = chained(), play.read(os.path.join(EXAMPLES, "appends_wait_for_each_other.trace"))
    report = program.run(["serial", "--sums"], trace).output
    text, other_text = (program.run(["depends"], it).output for it in (trace, other))
    outcomes = [Outcome("flight: the text that is right", against(program, report, player.steered(trace, report, [], b"", "", text)).fault)]
    for label, wrong, said in refused_texts(text, other_text):
        got = player.steered(trace, report, [], b"", "", wrong)
        is_well = got.status == 3 and not got.output and got.errors.startswith(b"uring_play: ") and said.encode() in got.errors and got.errors.count(b"\n") == 1
        outcomes.append(Outcome("flight: a text that is {}".format(label), None if is_well and wrong != text else shown(got)))
    return outcomes


def changed_texts(player: Player, program: Program, seed: int) -> List[Outcome]:
    """Texts with bytes changed: each is refused by a line, or played; nothing hangs or breaks."""
    source = random.Random(seed)
    trace, faults = play.Played(seed).trace(), []
    report, text = (program.run(it, trace).output for it in (["serial", "--sums"], ["depends"]))
    for number in range(12):
        wrong = bytearray(text)
        for _ in range(source.randrange(1, 4)):
            at = source.randrange(len(wrong))
            wrong[at : at + source.randrange(2)] = bytes(source.choice(b"0123456789 \n\0ae=") for _ in range(source.randrange(3)))
        got = player.steered(trace, report, [], b"", "", bytes(wrong))
        is_told = got.status == 3 and got.errors.startswith(b"uring_play: ") and not got.output
        faults += [] if got.status == 0 or is_told else ["{}: {}".format(number, shown(got))]
    return [Outcome("flight: changed texts {}".format(seed), first(faults))]


# --- Times ------------------------------------------------------------------------------------------------------------

SPACED, MILLISECONDS = 12, 15


def spaced() -> Tuple[bytes, bytes]:
    """A trace of reads, and results in which one is submitted each 15 milliseconds, the third of them a chain, and the last without a time."""
    entries = [entry(READ, FIXED_FILE, length=4)] * 2 + [entry(READ, FIXED_FILE | LINK, length=4)] + [entry(READ, FIXED_FILE, length=4)] * (SPACED - 4)
    entries.append(entry(READ, FIXED_FILE, length=4, user_data=(1 << 64) - 1))
    trace = head(1, 1, 1, 1) + file(b"/a", 10, b"0123456789") + description(1) + ring([1]) + enter(0, entries)
    lines = [b"%d user=0 res=4 posted op=22 submitted=%d completed=1" % (it, 7_000 + it * MILLISECONDS * 1_000_000) for it in range(SPACED - 1)]
    return trace, b"\n".join([b"uring-report 1", b"ring 0", *lines, b"%d user=18446744073709551615 op=22" % (SPACED - 1), b"end", b""])


def paced(player: Player, program: Program) -> List[Outcome]:
    """Entries are submitted at their times and no sooner, or as soon as may be; and the results are times for another play."""
    trace, recorded = spaced()
    report, depends = (program.run(it, trace).output for it in (["serial", "--sums"], ["depends"]))
    outcomes, path = [], os.path.join(player.folder.name, "times")
    for label, given in (("recorded times", recorded), ("times of a play", b"")):
        with open(path, "wb") as opened:
            opened.write(given or got.output) # (of the play before)
        got = player.steered(trace, report, ["--pace", path], b"", "", depends)
        starts = [at for at, _ in times(got.output)]
        soon = [it for it in range(SPACED - 1) if it != 3 and starts[it] < it * MILLISECONDS * 1_000_000 - 10_000]
        compared = against(program, report, got)
        fault = compared.fault or (None if not soon and starts[3] == starts[2] else "{} were too soon: {}".format(soon, starts))
        outcomes.append(Outcome("flight: at {}".format(label), fault, compared.untried))
    # A machine that does much else may hold a play up; so the quickest of some counts.
    quick = min((times(player.steered(trace, report, [], b"", "", depends).output) for _ in range(5)), key=lambda it: it[-1])
    fault = None if len(quick) == SPACED and quick[-1][0] < MILLISECONDS * 1_000_000 * (SPACED - 2) else str(quick)
    return [*outcomes, Outcome("flight: as soon as may be", fault)]


def paced_records(player: Player) -> List[Outcome]:
    """The results of a trace of version 3 are times for another play."""
    trace, path = read("version_3", "slots_get_what_is_held_then.trace"), os.path.join(player.folder.name, "times-of-version-3")
    report, depends = (MODELS.run(it, trace).output for it in (["serial", "--sums"], ["depends"]))
    first_play = player.steered(trace, report, [], b"", "", depends)
    with open(path, "wb") as opened:
        opened.write(first_play.output)
    got = player.steered(trace, report, ["--pace", path], b"", "", depends)
    starts = [[at for at, _ in times(it.output)] for it in (first_play, got)]
    soon = [late for early, late in zip(*starts) if late < early - starts[0][0]]
    compared = against(MODELS, report, got)
    return [Outcome("flight: at the times of a play of version 3", compared.fault or ("too soon: {}".format(starts) if soon else None), compared.untried)]


def wrong_times(player: Player, program: Program) -> List[Outcome]:
    trace, recorded = spaced()
    report, depends = (program.run(it, trace).output for it in (["serial", "--sums"], ["depends"]))
    cases = (
        ("a trace", trace, "does not begin with uring-report 1"), ("a report", report, "no entry has submitted="),
        ("another trace's", recorded.replace(b"4 user=0", b"4 user=5"), "is another entry"), ("a place too many", recorded.replace(b"4 user=0", b"44 user=0"), "is not in the trace"),
        ("a time that is no number", recorded.replace(b"submitted=7000", b"submitted=x"), "is no number"),
        ("a time below none", recorded.replace(b"submitted=7000", b"submitted=-7"), "is no number"),
        ("a time of many digits", recorded.replace(b"submitted=7000", b"submitted=" + b"9" * 30), "is no number"),
        ("a time and more", recorded.replace(b"submitted=7000", b"submitted=7000.5"), "is no number"),
        ("a place twice", recorded.replace(b"ring 0\n", b"ring 0\n4 user=0 submitted=9\n"), "told twice"),
        ("a time a day later", recorded.replace(b"submitted=7000", b"submitted=%d" % (10**14)), "more than a day"),
        ("a last line that does not end", recorded[:-6], ""),
    )
    outcomes, path = [], os.path.join(player.folder.name, "wrong-times")
    for label, text, said in cases:
        with open(path, "wb") as opened:
            opened.write(text)
        got = player.steered(trace, report, ["--pace", path], b"", "", depends)
        is_well = got.status == 3 and not got.output and got.errors.startswith(b"uring_play: ") and said.encode() in got.errors
        outcomes.append(Outcome("flight: times that are {}".format(label), None if is_well else shown(got)))
    return outcomes


def share_of(sizes: List[int], thousandth: int) -> int:
    return sorted(sizes)[max(-(-len(sizes) * thousandth // 1_000), 1) - 1]


def summed_up(player: Player, program: Program) -> List[Outcome]:
    """The summary, as lines and as JSON: its figures are those of the results."""
    trace, recorded = spaced()
    report, depends = (program.run(it, trace).output for it in (["serial", "--sums"], ["depends"]))
    path, loud, outcomes = os.path.join(player.folder.name, "summed-times"), player.with_summary(), []
    with open(path, "wb") as opened:
        opened.write(recorded)
    got = loud.steered(trace, report, ["--json", "--pace", path], b"", "", depends)
    told, sizes = json.loads(got.errors), [end - start for start, end in times(got.output)]
    wanted = {str(name): share_of(sizes, share) for name, share in ((50, 500), (99, 990), (99.9, 999), (100, 1_000))}
    is_well = told["entries"] == SPACED and told["bytes"] == 4 * SPACED and told["skipped"] == 0 and list(told["opcodes"]) == ["READ"]
    is_well = is_well and told["opcodes"]["READ"] == {"entries": SPACED, "bytes": 4 * SPACED, "latency_ns": wanted} and sorted(told["delay_ns"]) == ["100", "50", "99", "99.9"]
    is_well = is_well and abs(told["entries"] / told["seconds"] - told["entries_per_second"]) < 1
    outcomes.append(Outcome("flight: the summary as JSON", None if is_well else "{} {}".format(told, wanted)))
    lines = loud.steered(trace, report, ["--pace", path], b"", "", depends).errors.decode().splitlines()
    starts = ("{} entries in ".format(SPACED), "{} bytes moved (".format(4 * SPACED), " ", "READ   ", "submitted late by: 50% ")
    is_well = len(lines) == len(starts) and all(it.startswith("uring_play: " + start) for it, start in zip(lines, starts))
    return [*outcomes, Outcome("flight: the summary", None if is_well else repr(lines))]


# --- Systems and users ------------------------------------------------------------------------------------------------

def words(player: Player, program: Program) -> List[Outcome]:
    trace, outcomes = os.path.join(EXAMPLES, "read_four_bytes.trace"), []
    cases: List[Tuple[List[str], int]] = [
        (["--in-flight", "8", trace], 2), (["--depends", trace, trace], 2), (["--depends", trace, "--expected", trace, "--rounds", trace, trace], 2),
        *((["--depends", trace, "--expected", trace, "--in-flight", it, trace], 2) for it in ("0", "4097", "x", "-1", "")),
        (["--depends", "/nonexistent", "--expected", trace, trace], 3),
        (["--pace", trace, trace], 2), (["--json", trace], 2), (["--json", "--depends", trace, "--expected", trace, trace], 2),
    ]
    for given, wanted in cases:
        got = player.play(given)
        is_well = got.status == wanted and not got.output and got.errors.startswith(b"uring_play: ")
        outcomes.append(Outcome("flight: {}".format(" ".join(os.path.basename(it) for it in given)), None if is_well else shown(got)))
    return outcomes


def on_less(player: Player, program: Program) -> List[Outcome]:
    """A kernel that runs nothing in threads, entries that never end, and a play without nodes."""
    trace, outcomes = shared_blocks(), []
    report, depends = (program.run(it, trace).output for it in (["serial", "--sums"], ["depends"]))
    refused = player.with_less(threads=1).steered(trace, report, ["--async"], b"", "", depends)
    is_well = refused.status == UNTRIED and b"no entry in a thread" in refused.errors and not refused.output
    outcomes.append(Outcome("flight: a kernel without threads", None if is_well else shown(refused)))
    got = player.with_less(stuck_at=2).steered(trace, report, ["--patience", "1", "--in-flight", "1"], b"", "", depends)
    lines = got.output.split(b"\n")
    told = [sum(b" res=64 posted" in it for it in lines) == 1, sum(b" silent " in it for it in lines) == 1, got.output.count(b"unchecked=stuck") == 14]
    is_well = got.status == 3 and all(told) and b" not ended in 1 second" in got.errors and got.output.endswith(b"\nend\n")
    outcomes.append(Outcome("flight: entries that never end", None if is_well else shown(got)))
    for label, texts in (("in flight", depends), ("one chain at a time", b"")):
        late, never = (player.with_less(busy=it).steered(trace, report, [], b"", "", texts) for it in (3, 10**6))
        fault = against(program, report, late).fault or (None if never.status == 3 and b"the kernel took 0 of " in never.errors else shown(never))
        outcomes.append(Outcome("flight: a kernel that is busy, {}".format(label), fault))
    plain = against(program, report, player.steered(trace, report, ["--no-nodes"], b"", "", depends))
    outcomes.append(Outcome("flight: without nodes", plain.fault, plain.untried))
    few = Program(player.program, "").run(["-q", "-d", player.folder.name, os.path.join(EXAMPLES, "read_four_bytes.trace")], b"", shell='ulimit -n 40; exec "$@"')
    outcomes.append(Outcome("flight: too few descriptors", None if few.status == 3 and b"too few" in few.errors else shown(few)))
    return outcomes


def corrected(player: Player, program: Program) -> List[Outcome]:
    """What a kernel lacks is corrected where it belongs: between what it waits for and what waits for it."""
    faults, count = [], 0
    for seed in range(12):
        trace = (Wide if seed % 2 else play.Played)(seed).trace()
        report, depends = (program.run(it, trace).output for it in (["serial", "--sums"], ["depends"]))
        lacking = [word for it in play.UNCOUNTED for word in ("--lacking", str(it))]
        got = player.steered(trace, report, ["--async", *lacking], b"", player.directories()[0], depends)
        plain = got._replace(errors=b"")  # (what lacks is told, unless the player is quiet)
        found = against(program, report, plain)
        count += found.words.count("unsupported")
        faults += ["{}: {}".format(seed, found.fault)] if found.fault else []
    return [Outcome("flight: what a kernel lacks", first(faults) or (None if count > 100 else "only {} lack".format(count)))]


def full_table(player: Player, program: Program) -> List[Outcome]:
    """Opens that take the last descriptors, and some that fail, beside reads by numbers that are free: what the player opens itself takes none of them."""
    opens = [entry(OPENAT, fd=AT_FDCWD, own_flags=0o102, side=b"/new%d" % it) for it in range(4)]
    reads = [entry(READ, fd=it, length=4) for it in range(5)]
    steps = [enter(0, [it]) for it in [*opens, *reads, entry(CLOSE, fd=1), *opens[:2], *reads]]
    trace = head(1, 1, 1, len(steps), 3, 2) + file(b"/a", 10, b"0123456789") + description(1) + struct.pack("<3I", 1, 0, 0) + ring() + b"".join(steps)
    report, faults = program.run(["serial", "--sums"], trace).output, []
    for number in range(20):
        found = player.compared(program, trace, report, "flight", player.directories()[number % len(player.directories())])
        faults += [found.fault] if found.fault else []
    return [Outcome("flight: a full table", first(faults))]


def slow_names(player: Player, program: Program) -> List[Outcome]:
    """Where looking a name up takes long, an open holds its number for long: what the player opens itself takes none of the trace's."""
    made = [entry(MKDIRAT, fd=AT_FDCWD, side=b"/d%d" % it) for it in range(24)]
    opened = [it for _ in range(12) for it in (entry(OPENAT, fd=AT_FDCWD, side=b"/a"), entry(CLOSE, fd=1))]
    steps = [enter(number, [it]) for pair in zip(made, opened) for number, it in enumerate(pair)]
    trace = head(1, 1, 2, len(steps), 4, 2) + file(b"/a", 10, b"0123456789") + description(1) + struct.pack("<4I", 1, 0, 0, 0) + ring() * 2 + b"".join(steps)
    report = program.run(["serial", "--sums"], trace).output
    with Passthrough(["slow"]) as there:
        if there.lacking:
            return skipped("flight: slow names", there.lacking)
        found = [player.compared(program, trace, report, "flight", there.mount) for _ in range(3)]
    return [Outcome("flight: slow names", first([it.fault for it in found if it.fault]), first([it.untried for it in found if it.untried]))]


def many_nodes(player: Player, program: Program) -> List[Outcome]:
    """More new files than may be open: none is held any more, and none is told, but all else is as it must be."""
    made = [enter(0, [entry(OPENAT, fd=AT_FDCWD, own_flags=0o102, file_index=1, side=b"/f%d" % it), entry(CLOSE, file_index=1)]) for it in range(400)]
    trace = head(0, 0, 1, len(made)) + ring([0]) + b"".join(made)
    report, depends = (program.run(it, trace).output for it in (["serial", "--sums"], ["depends"]))
    outcomes = []
    for limit in (200, 20_000):
        paths = [os.path.join(player.folder.name, "nodes-{}".format(it)) for it in ("expected", "depends")]
        for path, text in zip(paths, (report, depends)):
            with open(path, "wb") as opened:
                opened.write(text)
        words = ["-q", "-d", player.folder.name, "-e", paths[0], "-D", paths[1]]
        got = Program(player.program, "").run(words, trace, shell='ulimit -n {}; exec "$@"'.format(limit))
        found, told = against(program, report, got), got.output.count(b" node=")
        fault = found.fault or (None if told == (400 if limit > 400 else 0) else "{} nodes are told".format(told))
        outcomes.append(Outcome("flight: new files, at most {} open".format(limit), fault, found.untried))
    return outcomes


def interrupted(player: Player, program: Program, number: int) -> List[Outcome]:
    """A signal in flight ends the player as it would; neither the directory nor the process that holds nodes stays."""
    reads = [enter(0, [entry(READ, FIXED_FILE, length=1 << 30)]) for _ in range(20_000)]
    trace = head(1, 1, 1, len(reads)) + file(b"/a", 1 << 40) + description(1) + ring([1]) + b"".join(reads)
    report, depends = (program.run([it], trace).output for it in ("serial", "depends"))
    paths = [os.path.join(player.folder.name, "interrupted-{}-{}".format(it, number)) for it in ("expected", "depends", "trace")]
    for path, text in zip(paths, (report, depends, trace)):
        with open(path, "wb") as opened:
            opened.write(text)
    command = [player.program, "-d", player.folder.name, "-e", paths[0], "-D", paths[1], "--async", paths[2]]
    started = subprocess.Popen(command, stdin=subprocess.DEVNULL, stdout=subprocess.DEVNULL, stderr=subprocess.PIPE)
    children, end = [], time.monotonic() + 60
    while not children and time.monotonic() < end:
        time.sleep(0.2)
        children = played_by(started.pid)
    time.sleep(1)
    started.send_signal(number)
    status = started.wait(60)
    said = started.stderr.read()
    started.stderr.close()
    left = [it for it in children if os.path.exists("/proc/{}".format(it))]
    is_well = status == -number and len(children) == 1 and not left
    return [Outcome("flight: signal {}".format(number), None if is_well else "status {}, {} of {} stay, {!r}".format(status, left, children, said))]


def played_by(process: int) -> List[int]:
    with open("/proc/{0}/task/{0}/children".format(process)) as file_:
        return [int(it) for it in file_.read().split()]


def jobs(programs: List[Program]) -> List[Job]:
    player = Player()
    lacking = player.lacking() or player.lacking_in_system(play.TRACE)
    if lacking:
        return [lambda: skipped("the player in flight", lacking)]
    program = programs[0]
    each: Sequence[Callable[[Player, Program], List[Outcome]]] = (planted, wide, great, at_once, texts, words, on_less, corrected, full_table, slow_names, many_nodes, paced, wrong_times, summed_up)
    found: List[Job] = [partial(it, player, program) for it in each]
    found += [partial(passed_through, player, program, it) for it in ((), ("cached",), ("writeback", "cached"))]
    found += [partial(crowded, player, program, seed) for seed in range(4)]
    found += [partial(much, player, program, Wide, range(at, at + 8)) for at in (0, 8)]
    found += [partial(much, player, MODELS, WideRecords, range(8)), partial(paced_records, player)]
    found += [partial(changed_texts, player, program, seed) for seed in range(4)]
    return found + [partial(interrupted, player, program, it) for it in (signal.SIGTERM, signal.SIGINT)]
