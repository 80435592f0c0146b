"""Two reports that `diff` reads side by side: pairs by hand and drawn ones, what is written before they end and before a refusal, pairs that come through
pipes, calls that fail, and memory and time; as text and as objects."""
import os
import random
import re
import subprocess
import tempfile
import threading
import time
from functools import partial
from typing import Callable, Iterator, List, NamedTuple, Optional, Sequence, Tuple

import days
import model_diff
from files import TRACE, Folder
from harness import SECONDS, Answer, Job, Outcome, Program, Timed, begins, difference, fault, first, reports_refused, short, shown, skipped, spoken
from json_lines import objects
from records import lot
from report_pairs import END, FIRST_HEADING, HEADING, Pair, entry
from shims import Shim
from streams import QUIET, Fed

NO_END, NO_HEADING = "the {} has no {}end", "the {} does not begin with uring-report 1"
# How many pairs are drawn with the same seeds in each run, and as many with seeds of the day; and how many of each come in pieces.
DRAWN, IN_PIECES = 500, 40
# Of the drawn pairs at least so many in a hundred are of each kind.
EACH_KIND = 5

# The comparison as text and as objects.
TEXT, JSON = ["diff"], ["diff", "--json"]
FORMS = (TEXT, JSON)
STRICT, TRUNCATED = "--strict", "--truncated"
OPTIONS = ((), (STRICT,), (TRUNCATED,), (STRICT, TRUNCATED))


def as_asked(words: List[str], text: bytes) -> bytes:
    """What is written of a text in the form that some words ask for."""
    return objects(text) if "--json" in words else text


def in_form(words: List[str], answer: Answer) -> Answer:
    return answer._replace(output=as_asked(words, answer.output))


def lacks_end(side: str) -> str:
    return NO_END.format(side, "line " if side == "first" else "")


def answer_of(one: bytes, other: bytes, options: Sequence[str] = ()) -> Answer:
    """What the second comparison answers of two texts, each in a file of its own, with some options."""
    try:
        told, passes = model_diff.difference_of_two(one, other, STRICT in options, TRUNCATED in options)
        return Answer(0 if passes else 4, told, b"")
    except model_diff.Refused as why:
        return reports_refused(str(why), model_diff.early(one, other))


# --- By hand --------------------------------------------------------------------------------------------------------

class Refusal(NamedTuple):
    """Two texts that are refused, what is told of them before, and why."""

    name: str
    one: bytes
    other: bytes
    early: bytes
    line: str


def changed(*places: int) -> bytes:
    """What is told of entries with the result 4 in the first and 5 in the second."""
    return b"".join(b"- " + entry(it, 4) + b"+ " + entry(it, 5) for it in places)


def of_first(*places: int) -> bytes:
    return HEADING + b"".join(entry(it, 4) for it in places)


def of_second(*places: int) -> bytes:
    return HEADING + b"".join(entry(it, 5) for it in places)


def refusals() -> List[Refusal]:
    no_end, no_second = lacks_end("first"), lacks_end("second")
    tree, twice = b"tree\ndir /d node=1\n", b"tree\ndir /d node=1\ndir /d node=2\n"
    greatest, lone = (1 << 32) - 1, b"- " + entry(2, 4)
    with_words = HEADING + b"1 res=4 posted unchecked=late\n2 res=4 posted submitted=5\n3 res=4 unchecked=far\n5 posted data=31\n"
    beside = HEADING + b"1 posted res=5\n2 posted res=4 submitted=6 op=22\n4 res=1\n5 data=32 posted\n"
    return [
        Refusal("a second that is cut between lines", of_first(1, 2, 3) + END, of_second(1, 2), changed(1, 2), no_second),
        Refusal("a second that is cut in a line", of_first(1, 2) + END, of_second(1, 2)[:-1], changed(1), no_second),
        Refusal("a first that is cut in a line", of_first(1, 2)[:-1], of_second(1, 2) + END, changed(1), no_end),
        Refusal("both cut in the first entry", of_first(1)[:-1], of_second(1)[:-1], b"", no_end),
        Refusal("entries that the second does not reach", of_first(1, 5, 6), of_second(1, 4) + END, changed(1), no_end),
        Refusal("entries that the second has not, and goes beyond", of_first(1, 2, 3), of_second(1, 3) + END, changed(1) + lone + changed(3), no_end),
        Refusal("entries of the second alone are told last", of_first(3, 9), of_second(1, 2, 3, 5, 9, 10) + END, changed(3, 9), no_end),
        Refusal("entries behind the tree of the second", of_first(1, 2) + END, of_second(1) + twice + entry(2, 5) + END, changed(1), "line 5 of the second contradicts an earlier one about dir /d"),
        Refusal("entries behind the tree of the first", of_first(1) + twice + entry(2, 4) + END, of_second(1, 2) + END, changed(1), "line 5 of the first contradicts an earlier one about dir /d"),
        Refusal("a heading among the entries", of_first(1) + b"ring 0\n" + entry(2, 4), of_second(1, 2) + END, changed(1), no_end),
        Refusal("an empty line among the entries", of_first(1, 2), of_second(1) + b"\n" + entry(2, 5) + END, changed(1), no_end),
        Refusal("a place that falls in the first", of_first(3, 2, 4) + END, of_second(2, 3, 4) + END, changed(3), "line 3 of the first is out of order at 2"),
        Refusal("a place that falls in the second", of_first(1, 2, 3) + END, of_second(1, 3, 2) + END, changed(1) + lone + changed(3), "line 4 of the second is out of order at 2"),
        Refusal("a place twice", of_first(1, 1) + END, of_second(1, 2) + END, changed(1), "line 3 of the first is out of order at 1"),
        Refusal("a place twice, with another result", of_first(1) + entry(1, 6) + END, of_second(1, 2) + END, changed(1), "line 3 of the first is out of order at 1"),
        Refusal("the place 0", of_first(0, 1), of_second(0) + END, changed(0), no_end),
        Refusal("the place 0 that the second does not reach", of_first(0), HEADING + END, b"", no_end),
        Refusal("a place that falls in both", of_first(2, 1) + END, of_second(2, 1) + END, changed(2), "line 3 of the first is out of order at 1"),
        Refusal("one that falls beside one without its end", of_first(2, 1) + END, of_second(2, 3), changed(2), "line 3 of the first is out of order at 1"),
        Refusal("the greatest place", of_first(greatest), of_second(greatest) + END, changed(greatest), no_end),
        Refusal("a place of 33 bits", of_first(1, greatest + 1) + END, of_second(1, greatest + 1) + END, changed(1), "line 3 of the first is out of order at 4294967296"),
        Refusal("a zero before a place", of_first(1) + b"02 res=4\n" + END, of_second(1, 2) + END, changed(1), "line 3 of the first is out of order at 02"),
        Refusal("more behind the first's end", of_first(1) + END + entry(2, 4), of_second(1, 2) + END, changed(1), "there is text after the end of the first"),
        Refusal("more behind the second's end", of_first(1, 2) + END, of_second(1) + END + entry(2, 5), changed(1), "there is text after the end of the second"),
        Refusal("a line of the tree that says otherwise", of_first(1) + tree + END, of_second(1) + twice + END, changed(1), "line 5 of the second contradicts an earlier one about dir /d"),
        Refusal("words that are no facts, and unchecked lines", with_words, beside + END,
                b"~ 1 posted res=5\n~ 3 res=4 unchecked=far\n- 5 posted data=31\n+ 5 data=32 posted\n", no_end),
        Refusal("two of version 1", of_first(1).replace(HEADING, FIRST_HEADING), of_second(1).replace(HEADING, FIRST_HEADING), b"", no_end),
        Refusal("version 1 beside version 2", of_first(1).replace(HEADING, FIRST_HEADING) + END, of_second(1) + END, b"", "the first is uring-report 1, the second uring-report 2"),
        Refusal("version 2 beside version 1", of_first(1) + END, of_second(1).replace(HEADING, FIRST_HEADING) + END, b"", "the first is uring-report 2, the second uring-report 1"),
        Refusal("version 3", of_first(1) + END, of_second(1).replace(b" 2\n", b" 3\n", 1) + END, b"", NO_HEADING.format("second")),
        Refusal("a heading without its line feed", HEADING[:-1], of_second(1) + END, b"", no_end),
        Refusal("an empty second", of_first(1) + END, b"", b"", NO_HEADING.format("second")),
        Refusal("an empty first", b"", of_second(1) + END, b"", NO_HEADING.format("first")),
        Refusal("no entries in the second", of_first(1, 2), HEADING + END, b"", no_end),
        Refusal("no entries in the first", HEADING, of_second(1, 2) + END, b"", no_end),
    ]


def of_model(it: Refusal) -> List[Outcome]:
    """The second comparison tells of these what was worked out by hand."""
    return [Outcome("{}, by the second comparison".format(it.name), difference(answer_of(it.one, it.other), reports_refused(it.line, it.early)))]


def by_hand(program: Program) -> List[Outcome]:
    """The program does so of two files, also as JSON. Where it reads both whole it writes nothing: with a trace, and of one input."""
    at = Folder(program)
    for it in refusals():
        one, other = at.put("one", it.one), at.put("other", it.other)
        at.ask(it.name, ["diff", one, other], reports_refused(it.line, it.early))
        at.ask("{}, as JSON".format(it.name), ["diff", "--json", one, other], reports_refused(it.line, objects(it.early)))
        at.ask("{}, with entries".format(it.name), ["diff", "--show", TRACE, one, other], reports_refused(it.line))
        if re.search(rb"^end$", it.one, re.M) and "end of the first" not in it.line and it.one:
            at.ask("{}, in one input".format(it.name), ["diff"], reports_refused(it.line), given=it.one + it.other)
        for words in FORMS:
            at.ask("{}, into a file, by {}".format(it.name, spoken(words)), [*words, one, other, "-o", at.path("out")], Answer(1, b"", reports_refused(it.line).errors))
    at.holds("no file is made", "out", None, ["one", "other"])
    return at.outcomes


class Counted(NamedTuple):
    """Two texts of entries, options, and what is told of them: the lines, the counts of the entries, what is not compared, and the status."""

    name: str
    one: bytes
    other: bytes
    options: Tuple[str, ...]
    told: bytes
    counts: Tuple[int, int, int, int]
    lacks: Tuple[int, int, int] = (0, 0, 0)
    status: int = 0

    def output(self) -> bytes:
        text = "entries {} equal, {} different, {} unchecked, {} given\n".format(*self.counts)
        text += "".join("{} 0 equal, 0 different, 0 unchecked, 0 given\n".format(it) for it in ("tree", "slots", "buffers"))
        text += "not compared: data {} entries, sums {}, large {}\n".format(*self.lacks) if any(self.lacks) else ""
        return self.told + text.encode()


def lines_of(*facts: str) -> bytes:
    """Entries of the places from 1 on, with these facts."""
    return b"".join("{} {}\n".format(place, it).encode() for place, it in enumerate(facts, 1))


def report_of(*facts: str) -> bytes:
    return HEADING + lines_of(*facts) + END


def counted() -> List[Counted]:
    """What is given, unchecked and not compared: each rule where it decides."""
    alike, given, other = "res=4 posted", "res=4 posted given=1", "res=5 posted"
    unseen, unchecked = "res=4 posted completion=unseen", "res=4 posted unchecked=late"
    short_data, whole, long = "res=64 data=31", "res=1 data=31", "res=64 data=31+"
    with_sum, other_sum, alone = long + " data-sum=ab", long + " data-sum=cd", "res=64 data-sum=ab"

    def pair(one: str, two: str) -> Tuple[bytes, bytes]:
        return report_of(one), report_of(two)

    def told(sign: str, facts: str) -> bytes:
        return "{} 1 {}\n".format(sign, facts).encode()

    return [
        Counted("given in the first", *pair(given, alike), (), b"", (0, 0, 0, 1)),
        Counted("given in the second", *pair(alike, given), (), b"", (0, 0, 0, 1)),
        Counted("given in both", *pair(given, given), (), b"", (0, 0, 0, 1)),
        Counted("given, and another result", *pair(given, other), (), told("-", given) + told("+", other), (0, 1, 0, 0), status=4),
        Counted("given, and unchecked", *pair(given, unchecked), (), told("~", unchecked), (0, 0, 1, 0)),
        Counted("given=2 is not given", *pair(alike + " given=2", alike), (), b"", (1, 0, 0, 0)),
        Counted("a result that was not seen", *pair(alike, unseen), (), told("~", unseen), (0, 0, 1, 0)),
        Counted("another result that was not seen", *pair(other, unseen), (), told("~", unseen), (0, 0, 1, 0)),
        Counted("a result that was not seen in the first", *pair(unseen, other), (), told("~", other), (0, 0, 1, 0)),
        Counted("another word of a completion", *pair(alike + " completion=late", alike), (), b"", (1, 0, 0, 0)),
        Counted("a result that was not seen, alone", report_of(alike, unseen), report_of(alike), (), b"~ 2 " + unseen.encode() + b"\n", (1, 0, 1, 0)),
        Counted("bytes that both show", *pair(whole, whole), (STRICT,), b"", (1, 0, 0, 0)),
        Counted("bytes that one does not show", *pair(whole, "res=1"), (), b"", (1, 0, 0, 0), (1, 0, 0)),
        Counted("the same in a strict comparison", *pair(whole, "res=1"), (STRICT,), b"", (1, 0, 0, 0), (1, 0, 0), 4),
        Counted("bytes of which both show the first ones", *pair(long, long), (), b"", (1, 0, 0, 0), (1, 0, 0)),
        Counted("bytes of which one shows the first ones", *pair(short_data, long), (), told("-", short_data) + told("+", long), (0, 1, 0, 0), (1, 0, 0), 4),
        Counted("bytes and their sum", *pair(with_sum, with_sum), (STRICT,), b"", (1, 0, 0, 0)),
        Counted("bytes and another sum", *pair(with_sum, other_sum), (), told("-", with_sum) + told("+", other_sum), (0, 1, 0, 0), status=4),
        Counted("bytes with their sum on one side", *pair(with_sum, long), (), b"", (1, 0, 0, 0), (1, 0, 0)),
        Counted("a sum alone, beside bytes with it", *pair(alone, with_sum), (STRICT,), b"", (1, 0, 0, 0)),
        Counted("a sum beside bytes that are all shown", *pair(alone, short_data), (), b"", (1, 0, 0, 0), (1, 0, 0)),
        Counted("a sum alone, beside nothing", *pair(alone, "res=64"), (), b"", (1, 0, 0, 0), (1, 0, 0)),
        Counted("data without a value is shown", *pair("res=0 data=", "res=0 data="), (STRICT,), b"", (1, 0, 0, 0)),
        Counted("bytes of given entries are not counted", *pair(given + " data=31+", given), (STRICT,), b"", (0, 0, 0, 1)),
        Counted("bytes of unchecked entries are not counted", *pair(alike + " data=31", unchecked), (STRICT,), told("~", unchecked), (0, 0, 1, 0)),
        Counted("bytes of an entry that one lacks are not counted", report_of(alike, long), report_of(alike), (), b"- 2 " + long.encode() + b"\n", (1, 1, 0, 0), status=4),
        Counted("a sum on one side", *pair(alike + " sum=ab", alike), (), b"", (1, 0, 0, 0), (0, 1, 0)),
        Counted("a sum on the other side", *pair(alike, alike + " sum=ab"), (STRICT,), b"", (1, 0, 0, 0), (0, 1, 0), 4),
        Counted("a sum on both sides", *pair(alike + " sum=ab", alike + " sum=ab"), (STRICT,), b"", (1, 0, 0, 0)),
        Counted("large on both sides", *pair(alike + " sum=large", alike + " sum=large"), (STRICT,), b"", (1, 0, 0, 0), (0, 0, 1), 4),
        Counted("each of them", report_of(whole, alike + " sum=ab", alike + " sum=large"), report_of("res=1", alike, alike + " sum=large"), (), b"", (3, 0, 0, 0), (1, 1, 1)),
        *truncated(),
    ]


def truncated() -> List[Counted]:
    """A second report that was cut off."""
    three, rest = of_first(1, 2, 3) + b"tree\ndir /d node=1\n" + END, b"tree\ndir /d node=1\nfile /d/a si"
    third = b"~ " + entry(3, 4)

    def cut(name: str, one: bytes, other: bytes, told: bytes, counts: Tuple[int, int, int, int], status: int = 0) -> Counted:
        return Counted(name, one, other, (TRUNCATED,), told, counts, status=status)

    return [
        cut("cut off between lines", three, of_first(1, 2), third, (2, 0, 1, 0)),
        cut("cut off in a line", three, of_first(1, 2) + b"3 ring=0 us", third, (2, 0, 1, 0)),
        cut("cut off in a line feed", three, of_first(1, 2, 3)[:-1], third, (2, 0, 1, 0)),
        cut("cut off in the tree", three, of_first(1, 2) + rest, third, (2, 0, 1, 0)),
        cut("cut off behind its entries", three, of_first(1, 2, 3), b"", (3, 0, 0, 0)),
        cut("cut off behind its heading", three, HEADING, b"".join(b"~ " + entry(it, 4) for it in (1, 2, 3)), (0, 0, 3, 0)),
        cut("entries before the last one are looked for", three, of_first(1, 3), b"- " + entry(2, 4), (2, 1, 0, 0), 4),
        cut("another result", three, of_first(1) + entry(2, 5), b"- " + entry(2, 4) + b"+ " + entry(2, 5) + third, (1, 1, 1, 0), 4),
        cut("a second that goes on behind the first", of_first(1, 2) + END, of_first(1, 2, 5, 7), b"~ " + entry(5, 4) + b"~ " + entry(7, 4), (2, 0, 2, 0)),
        cut("an entry of the second between those of the first", of_first(1, 3) + END, of_first(1, 2, 3), b"+ " + entry(2, 4), (2, 1, 0, 0), 4),
        cut("an entry of the second before the last of the first, which it passes", of_first(5) + END, of_first(3, 5, 6), b"+ " + entry(3, 4) + b"~ " + entry(6, 4), (1, 1, 1, 0), 4),
        cut("no entries in the first", HEADING + END, of_first(1, 2), b"~ " + entry(1, 4) + b"~ " + entry(2, 4), (0, 0, 2, 0)),
        cut("no entries in the first, and the least place", HEADING + END, of_first(0), b"~ " + entry(0, 4), (0, 0, 1, 0)),
        cut("cut off in a tree without its heading", three, of_first(1, 2) + b"dir /d node=1\nfi", third, (2, 0, 1, 0)),
        cut("a second that is not cut off", three, of_first(1, 2) + END, b"- " + entry(3, 4), (2, 1, 0, 0), 4),
    ]


def refused_when_truncated() -> List[Refusal]:
    """What is refused with `--truncated` too."""
    well = of_first(1, 2) + END
    return [
        Refusal("a first without its end", of_first(1, 2), of_first(1), b"", lacks_end("first")),
        Refusal("a second of version 1 without its end", well.replace(HEADING, FIRST_HEADING), of_first(1).replace(HEADING, FIRST_HEADING), b"", lacks_end("second")),
        Refusal("a heading that is cut off", well, HEADING[:-1], b"", lacks_end("second")),
        Refusal("a heading that is cut off in its word", well, HEADING[:-4], b"", NO_HEADING.format("second")),
        Refusal("a place that falls before the cut", well, of_first(2, 1), b"- " + entry(1, 4), "line 3 of the second is out of order at 1"),
        Refusal("text after the end", well, well + entry(3, 4), b"", "there is text after the end of the second"),
    ]


def by_rules(program: Program) -> List[Outcome]:
    """What is counted by each rule, of two files, as text and as JSON, of one input, and by the second comparison."""
    at = Folder(program)
    for it in counted():
        wanted, files = Answer(it.status, it.output(), b""), [at.put("one", it.one), at.put("other", it.other)]
        at.said("{}, by the second comparison".format(it.name), difference(answer_of(it.one, it.other, it.options), wanted))
        at.ask(it.name, ["diff", *it.options, *files], wanted)
        at.ask("{}, as JSON".format(it.name), [*JSON, *it.options, *files], in_form(JSON, wanted))
        at.ask("{}, in one input".format(it.name), ["diff", *it.options], wanted, given=it.one + it.other)
    for it in refused_when_truncated():
        files = [at.put("one", it.one), at.put("other", it.other)]
        at.said("{}, by the second comparison".format(it.name), difference(answer_of(it.one, it.other, (TRUNCATED,)), reports_refused(it.line, it.early)))
        at.ask("{}, truncated".format(it.name), ["diff", TRUNCATED, *files], reports_refused(it.line, it.early))
    return at.outcomes


# --- Drawn ----------------------------------------------------------------------------------------------------------

def of_pair(program: Program, seed: int) -> Optional[str]:
    """How the program compares a drawn pair otherwise than the second comparison, if it does, in each form. With `--truncated` most second texts are cut."""
    (one, other), options = Pair(seed).texts, OPTIONS[seed // 8 % len(OPTIONS)]
    if TRUNCATED in options and seed % 3:
        other = other[: random.Random("cut {}".format(seed)).randrange(len(other) + 1)]
    wanted, early = answer_of(one, other, options), model_diff.early(one, other)
    if not wanted.output.startswith(early):
        return "by the second comparison: the whole text does not begin with {}".format(short(early))
    return first([told for words in FORMS for told in [of_texts(program, seed, [*words, *options], one, other, in_form(words, wanted))] if told])


def of_texts(program: Program, seed: int, words: List[str], one: bytes, other: bytes, wanted: Answer) -> Optional[str]:
    """The same by some words: by names, with one on standard input, into a file."""
    with tempfile.TemporaryDirectory(prefix="uring-replay-test-") as folder:
        names = [os.path.join(folder, it) for it in ("one", "other", "out")]
        for name, text in zip(names, (one, other)):
            with open(name, "wb") as file:
                file.write(text)
        if seed % 8 == 0:
            return difference(program.run([*words, "-", names[1]], one), wanted)
        if seed % 8 == 1:
            return difference(program.run([*words, names[0], "-"], other), wanted)
        if seed % 8 == 2:
            told = difference(program.run([*words, *names[:2], "-o", names[2]], b""), wanted._replace(output=b""))
            return told or ("the file is made, or is not" if os.path.exists(names[2]) != (wanted.status in (0, 4)) else None)
        return difference(program.run([*words, *names[:2]], b""), wanted)


def kinds(seeds: range) -> List[Outcome]:
    """Of the drawn pairs there are enough of each kind."""
    counts = {"refused behind something": 0, "refused behind nothing": 0, "equal": 0, "different": 0}
    for seed in seeds:
        answer = answer_of(*Pair(seed).texts)
        counts[("refused behind something" if answer.output else "refused behind nothing") if answer.status == 1 else "different" if answer.status else "equal"] += 1
    few = ["{} are {}".format(many, kind) for kind, many in counts.items() if many * 100 < EACH_KIND * len(seeds)]
    return [Outcome("drawn pairs of reports are of each kind", first(few))]


# --- While they come ------------------------------------------------------------------------------------------------

def in_pieces(words: List[str], program: Program, seed: int) -> Optional[str]:
    """How a drawn pair that comes in pieces is served otherwise, if it is: behind each piece, while both stall, all that is told early of what came."""
    texts, source = Pair(seed).texts, random.Random("pieces side by side {}".format(seed))
    given = [0, 0]
    with Fed(program, words, 2) as fed:
        while given != [len(it) for it in texts]:
            side = source.choice([it for it in range(2) if given[it] < len(texts[it])])
            piece = texts[side][given[side] :][: source.choice((1, 9, 60, 200, 2_000))]
            fed.give(piece, side)
            given[side] += len(piece)
            told = fed.unlike(as_asked(words, model_diff.early(texts[0][: given[0]], texts[1][: given[1]])))
            if told:
                return "behind {} and {} bytes {}".format(*given, told)
        return difference(fed.end(), in_form(words, answer_of(*texts)))


# So many entries that differ are more than a pipe takes.
LONG_OUTPUT = 5_000


def stalled(words: List[str], program: Program) -> List[Outcome]:
    """What differs so far comes while both stall, and nothing of what may still be told otherwise."""
    outcomes, how = [], "by {} of {}".format(spoken(words), program.compiler)
    with Fed(program, words, 2) as fed:
        steps: List[Tuple[str, int, bytes, bytes]] = [
            ("headings", 0, HEADING, b""), ("headings", 1, HEADING, b""), ("entries of the first alone", 0, entry(1, 4) + entry(2, 4), b""),
            ("a line without its feed", 1, entry(1, 5)[:-1], b""), ("its feed", 1, b"\n", changed(1)), ("a later entry of the second", 1, entry(3, 5), b"- " + entry(2, 4)),
            ("entries of the second alone", 1, entry(4, 5) + entry(6, 5), b""), ("an entry of the first behind some", 0, entry(6, 4), changed(6)),
            ("the tree of the first", 0, b"tree\ndir /d node=1\n", b""), ("the tree of the second", 1, b"tree\ndir /d node=2\n", b""), ("ends", 0, END, b""), ("ends", 1, END, b""),
        ]
        told = b""
        for what, side, piece, more in steps:
            fed.give(piece, side)
            told += as_asked(words, more)
            wrong = fed.unlike(told)
            if not more and not wrong and fed.reaches(len(told) + 1, QUIET):
                wrong = "it writes {}".format(short(bytes(fed.output[len(told) :])))
            outcomes.append(Outcome("{} of the {} come, and both stall, {}".format(what, ("first", "second")[side], how), wrong))
        behind = b"".join(b"+ " + entry(it, 5) for it in (3, 4))
        counts = b"entries 0 equal, 5 different, 0 unchecked, 0 given\ntree 0 equal, 1 different, 0 unchecked, 0 given\nslots 0 equal, 0 different, 0 unchecked, 0 given\nbuffers 0 equal, 0 different, 0 unchecked, 0 given\n"
        wanted = Answer(4, told + as_asked(words, b"- dir /d node=1\n+ dir /d node=2\n" + behind + counts), b"")
        outcomes.append(Outcome("both end, {}".format(how), difference(fed.end(), wanted)))
    return outcomes


def by_fifos(program: Program) -> List[Outcome]:
    """Both come through named pipes, from writers that wait until these are opened."""
    at = Folder(program)
    texts, names = (of_first(1, 2, 3) + END, of_second(1, 3, 4) + END), [at.path("one"), at.path("other")]
    for name in names:
        os.mkfifo(name)
    writers = [subprocess.Popen(["/bin/sh", "-c", 'cat > "$0"', name], stdin=subprocess.PIPE) for name in names]
    for writer, text in zip(writers, texts):
        writer.stdin.write(text)
        writer.stdin.close()
    at.ask("two named pipes", ["diff", *names], answer_of(*texts))
    for writer in writers:
        writer.kill()
        writer.wait()
    return at.outcomes


def outputs(words: List[str], program: Program) -> List[Outcome]:
    """An output that is full or closed, and a reader that goes away, are faults of their own, also where the reports are refused."""
    at = Folder(program)
    one, cut, other = at.put("one", of_first(*range(9)) + END), at.put("cut", of_first(*range(9))), at.put("other", of_second(*range(9)) + END)
    for to in ("> /dev/full", ">&-", "1< /dev/null"):
        for name in (one, cut):
            at.ask("the output of {} fails, {}".format(spoken(words), to), [*words, name, other], fault("write"), shell='exec "$@" ' + to)
    names = [at.put("long one", of_first(*range(LONG_OUTPUT)) + END), at.put("long other", of_second(*range(LONG_OUTPUT)) + END)]
    goes = '{ "$@"; echo "status $?" >&2; } | head -c 1 > /dev/null'
    at.ask("a reader of {} that goes away".format(spoken(words)), [*words, *names], Answer(0, b"", b"fault: write\nstatus 3\n"), shell=goes)
    with Fed(program, words, 2) as fed:
        fed.give(of_first(1))
        fed.give(of_second(1), 1)
        fed.reaches(1)
        at.said("what came is there, by {}".format(spoken(words)), fed.unlike(as_asked(words, changed(1))))
    with Fed(program, words, 2) as fed:
        fed.give(b"uring-report 9\n" + of_first(1) + END)
        fed.give(b"", 1)
        at.said("a first of no version, whose second is to come, tells nothing by {}".format(spoken(words)), "it writes" if fed.reaches(1, QUIET) else None)
    return at.outcomes


# --- Many entries ---------------------------------------------------------------------------------------------------

# Entries come in blocks of so many, of which one differs.
BLOCK, DIFFERS = 1_000, 500
# How many entries are compared, and how many of a quarter; the most KiB that either takes; how many times the memory, and KiB beside that, four
# times the entries may take; and less than how many times the processor time.
MANY, TIMES, MOST_KIB, MORE, SPARE, MOST_TIMES = 3_000_000, 4, 64_000, 1.25, 2_048, 8.0
SECTIONS = b"tree\nfile /a node=1 size=10\nslots\nslot 0 0 desc=0 node=1 pos=0\nbuffers\n"


def in_blocks(is_second: bool, blocks: int) -> Iterator[bytes]:
    """A report of so many blocks but for its last line, block by block. The first block begins with place 1000."""
    result, other = 4096, 4095 if is_second else 4096
    lines = (b"@%03d ring=0 user=%d res=%d posted data=3031323334353637\n" % (it, it % 7, other if it == DIFFERS else result) for it in range(BLOCK))
    block = b"".join(lines)
    yield HEADING
    for number in range(1, blocks + 1):
        yield block.replace(b"@", b"%d" % number)
    yield SECTIONS


def told_of_blocks(blocks: int) -> bytes:
    told = b"".join(b"%s @%03d ring=0 user=%d res=%d posted data=3031323334353637\n" % (sign, DIFFERS, DIFFERS % 7, it) for sign, it in ((b"-", 4096), (b"+", 4095)))
    return b"".join(told.replace(b"@", b"%d" % number) for number in range(1, blocks + 1))


class Compared(NamedTuple):
    """A long comparison: what is wrong with it, if anything is, its most memory in KiB, and the seconds of a processor."""

    fault: Optional[str]
    peak: int
    seconds: float


def compared(words: List[str], program: Program, reports: Callable[[bool], Iterator[bytes]], early: bytes, ends: Tuple[bytes, bytes], wanted: Answer) -> Compared:
    """Compares two long reports that come through pipes side by side. What is told of entries has to be there before their ends are given."""

    def feed(fed: Fed, side: int) -> None:
        for piece in reports(side > 0):
            fed.give(piece, side)

    with Fed(program, words, 2) as fed:
        feeders = [threading.Thread(target=feed, args=(fed, side)) for side in range(2)]
        for it in feeders:
            it.start()
        late = time.monotonic() + SECONDS
        for it in feeders:
            it.join(max(0.0, late - time.monotonic()))
        if any(it.is_alive() for it in feeders):
            fed.started.kill()
            for it in feeders:
                it.join()
            return Compared("it does not take both side by side: {} bytes came".format(fed.count), 0, 0.0)
        told = fed.unlike(as_asked(words, early))
        peak = fed.peak()
        for side, end in enumerate(ends):
            fed.give(end, side)
        return Compared(told or difference(fed.end(), in_form(words, wanted)), peak, fed.seconds)


def blocks_compared(words: List[str], program: Program, blocks: int, ends: Tuple[bytes, bytes], wanted: Answer) -> Compared:
    """The same of reports in blocks; `wanted` lacks what is told of these."""
    early = told_of_blocks(blocks)
    return compared(words, program, lambda is_second: in_blocks(is_second, blocks), early, ends, wanted._replace(output=early + wanted.output))


def counts_of(equal: int, different: int = 0, tree: int = 1) -> bytes:
    told = "entries {} equal, {} different, 0 unchecked, 0 given\ntree {} equal, 0 different, 0 unchecked, 0 given\nslots {} equal, 0 different, 0 unchecked, 0 given\nbuffers 0 equal, 0 different, 0 unchecked, 0 given\n"
    return told.format(equal, different, tree, tree).encode()


def in_memory(words: List[str], program: Program) -> List[Outcome]:
    """Reports in step take memory that does not grow with them, and time in proportion."""
    outcomes, took, how = [], [], "by {} of {}".format(spoken(words), program.compiler)
    for entries in (MANY // TIMES, MANY):
        wanted = Answer(4, counts_of(entries - entries // BLOCK, entries // BLOCK), b"")
        took.append(blocks_compared(words, program, entries // BLOCK, (END, END), wanted))
        outcomes.append(Outcome("{} entries in step, {}".format(entries, how), took[-1].fault))
    few, many = took
    is_well = many.peak <= min(MOST_KIB, MORE * few.peak + SPARE)
    outcomes.append(Outcome("their memory, {}".format(how), None if is_well else "it is {} KiB, and {} KiB for {} times the entries".format(few.peak, many.peak, TIMES)))
    is_well = many.seconds < MOST_TIMES * few.seconds
    return [*outcomes, Outcome("their time, {}".format(how), None if is_well else "it is {:.1f} seconds, and {:.1f} for {} times the entries".format(few.seconds, many.seconds, TIMES))]


def refused_at_the_end(words: List[str], program: Program) -> List[Outcome]:
    """What was written stands, whatever is wrong at the ends."""
    last = 102 + BLOCK * 100 + len(SECTIONS.splitlines()) - 100
    cases = (
        ("the second has no end", (END, b""), lacks_end("second")), ("the first has no end", (b"", END), lacks_end("first")),
        ("the second goes on", (END, END * 2), "there is text after the end of the second"), ("a place falls", (b"5 res=0\n" + END, END), "line {} of the first is out of order at 5".format(last)),
        ("a file of two sizes", (END, b"file /a size=11\n" + END), "line {} of the second contradicts an earlier one about file /a".format(last)),
    )
    label = "{{}}, behind 100,000 entries, by {} of {}".format(spoken(words), program.compiler)
    return [Outcome(label.format(what), blocks_compared(words, program, 100, ends, reports_refused(line)).fault) for what, ends, line in cases]


def long_lines(is_second: bool) -> Iterator[bytes]:
    """A report of more than 2^30 bytes, in lines of a mebibyte, but for its last line."""
    data = b" ring=0 user=7 posted data=" + b"61" * (1 << 19) + b"\n"
    yield HEADING
    for place in range((1 << 10) + 1):
        yield b"%d" % place + data


def past_the_limit(words: List[str], program: Program) -> List[Outcome]:
    """Two reports have no longest length that is read."""
    took = compared(words, program, long_lines, b"", (END, END), Answer(0, counts_of((1 << 10) + 1, tree=0), b""))
    label = "two reports of more than 2^30 bytes{{}}, by {} of {}".format(spoken(words), program.compiler)
    return [Outcome(label.format(""), took.fault), Outcome(label.format(": their memory"), None if took.peak <= MOST_KIB else "it is {} KiB".format(took.peak))]


# How many entries out of step are timed, and a quarter of them.
OUT_OF_STEP = 200_000


def out_of_step(count: int) -> List[Tuple[str, range, range]]:
    """Places of two reports that are out of step."""
    return [("which take turns", range(0, 2 * count, 2), range(1, 2 * count, 2)), ("of which all of the second come first", range(count, 2 * count), range(count)),
            ("of which all of the first come first", range(count), range(count, 2 * count))]


def in_time(program: Program, case: int) -> List[Outcome]:
    """Reports out of step take time in proportion too. No line is compared, so that the status is 0."""
    at, runs = Folder(program), []
    what = out_of_step(1)[case][0]
    for count in (OUT_OF_STEP, OUT_OF_STEP // TIMES):
        _, *sides = out_of_step(count)[case]
        names = [at.put("{} {}".format(side, count), HEADING + b"".join(entry(it, 4, " unchecked=late") for it in places) + END) for side, places in enumerate(sides)]
        runs.append(Timed(["diff", *names], None))
    at.said("the time of reports {}".format(what), program.outlasts(*runs, MOST_TIMES))
    return at.outcomes


# --- What fails -----------------------------------------------------------------------------------------------------

# The descriptors of two reports, of which the second is named, and of the output; and each which of their calls fails.
FIRST, SECOND, OUTPUT, STEP = 0, 3, 1, 11


def pairs_that_fail() -> List[Tuple[str, bytes, bytes]]:
    one, other = HEADING + b"".join(entry(it, 4) for it in range(0, 40, 2)), HEADING + b"".join(entry(it, 5) for it in range(0, 40, 3))
    sections = b"tree\ndir /d node=1\nfile /d/a size=4\n"
    return [("a pair", one + sections + END, other + sections + END), ("a pair that is refused", one + sections + END, other + sections)]


def is_beginning(output: bytes, wanted: Answer) -> bool:
    return begins(output, wanted.output) or output == wanted.output


def without_memory(shim: Shim, words: List[str], program: Program, name: str, texts: Tuple[bytes, bytes], is_from: bool) -> List[Outcome]:
    """Each growth refused: out of memory, behind a beginning of what is written; or the answer, where the library tries again."""
    at, faults, refusals = Folder(program), [], 0
    wanted, how = in_form(words, answer_of(*texts)), spoken(words)
    words = [*words, at.put("one", texts[0]), at.put("other", texts[1])]
    ample, (count, _, _, _) = shim.run(program, words, b"")
    faults += [] if ample == wanted else ["with ample memory: {}".format(shown(ample))]
    for growth in range(1, count + 2):
        got, (_, refused, _, _) = shim.run(program, words, b"", at=growth, **{"from": int(is_from)})
        refusals += refused > 0
        is_lack = refused and got._replace(output=b"") == fault("memory") and is_beginning(got.output, wanted)
        if not is_lack and not (got == wanted and not (refused and is_from)):
            faults.append("growth {}: {}".format(growth, shown(got)))
    faults += [] if refusals else ["no growth was refused"]
    at.said("{} by {}, growths refused{} ({} of {})".format(name, how, " from one on" if is_from else "", refusals, count), first(faults))
    return at.outcomes


def by_device(shim: Shim, form: List[str], program: Program, name: str, texts: Tuple[bytes, bytes]) -> List[Outcome]:
    """Calls that read one of the reports or write, a byte a call: each fails, is interrupted or would block, behind all that is told of what came; or no more
    comes. The first report is standard input, and the second the first descriptor that is free."""
    at, faults, runs = Folder(program), [], 0
    words, wanted = [*form, "-", at.put("other", texts[1])], in_form(form, answer_of(*texts))
    for on, text in ((FIRST, texts[0]), (SECOND, texts[1]), (OUTPUT, wanted.output)):
        # (an input is read up to a call that gives nothing)
        many = len(text) + (on != OUTPUT)
        undisturbed, (calls,) = shim.run(program, words, texts[0], on=str(on), byte=1)
        faults += [] if undisturbed == wanted and calls >= many else ["undisturbed, {} calls: {}".format(calls, shown(undisturbed))]
        for call in sorted({*range(1, many + 1, STEP), *range(1, min(many, STEP)), many}):
            came = text[: call - 1]
            beside = (came, texts[1]) if on == FIRST else (texts[0], came)
            for how in ("fail", "interrupt", "block", "zero"):
                got, _ = shim.run(program, words, texts[0], on=str(on), how=how, at=call, byte=1)
                runs += 1
                if on == OUTPUT:
                    answers = [fault("write")._replace(output=came)]
                elif how == "zero":
                    answers = [in_form(form, answer_of(*beside)), wanted]
                else:
                    answers = [fault("read")._replace(output=as_asked(form, model_diff.early(*beside)))]
                if got not in answers:
                    faults.append("{} at call {} on {}: {}".format(how, call, on, shown(got)))
    at.said("{} by {}, devices that fail ({} runs)".format(name, spoken(form), runs), first(faults))
    return at.outcomes


def jobs(programs: List[Program]) -> List[Job]:
    whole = programs[0]
    made: List[Job] = [partial(it, words, whole) for words in FORMS for it in (in_memory, past_the_limit)]
    made += [*(partial(in_time, whole, it) for it in range(3)), partial(kinds, range(DRAWN)), *(partial(of_model, it) for it in refusals())]
    for program in programs:
        made += [partial(it, program) for it in (by_hand, by_rules, by_fifos)] + [partial(it, words, program) for words in FORMS for it in (stalled, outputs, refused_at_the_end)]
        for start in (0, days.first_seed()) if program is whole else (0,):
            made += [partial(lot, program, "pairs of reports side by side", of_pair, range(at, at + DRAWN // 2)) for at in (start, start + DRAWN // 2)]
            for words in FORMS:
                made.append(partial(lot, program, "pairs of reports that come in pieces, by {},".format(spoken(words)), partial(in_pieces, words), range(start, start + IN_PIECES)))
    device, refuse = Shim("device", 1), Shim("refuse", 4)
    lacking = device.lacking() or refuse.lacking()
    if lacking:
        return [*made, partial(skipped, "failing devices and out of memory, of two reports", lacking)]
    for words in FORMS:
        for name, *texts in pairs_that_fail():
            made += [partial(without_memory, refuse, words, whole, name, texts, is_from) for is_from in (False, True)]
            made.append(partial(by_device, device, words, whole, name, texts))
    return made
