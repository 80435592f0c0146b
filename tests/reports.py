"""What `diff` refuses, what it passes over, pairs of version 2 by hand and drawn, and that it takes time in proportion to its input."""
import os
from functools import partial
from typing import List, Tuple

import drawn
from drawing import two_reports_by_places
from harness import EXAMPLES, Answer, Job, Outcome, Program, difference, first, read, reports_refused, shown

HEADING, SECOND_HEADING, END = b"uring-report 1\n", b"uring-report 2\n", b"end\n"
NOTHING = "".join(it + " 0 equal, 0 different, 0 unchecked, 0 given\n" for it in ("entries", "tree", "slots", "buffers"))
ENTRY = b"0 user=7 res=4 posted\n"
HELD = (b"slots\n", b"descriptor 3 desc=0\n", b"descriptor 4 desc=1\n", b"buffers\n")
# How many facts a line may have, and how often a line is said beside one with so many, and the processor seconds of each, which are 0.1
# to 0.5 on a busy machine. With each fact looked for among all others it was 55, and with each line compared anew over 100.
FACTS, REPEATED, MOST_SECONDS = 200_000, 20_000, 1.5
# How many pairs of version 2 are drawn, and how many in one lot.
DRAWN, LOT = 900, 300


def report(*lines: bytes) -> bytes:
    return b"".join((HEADING, *lines, END))


def by_places(*lines: bytes) -> bytes:
    return b"".join((SECOND_HEADING, *lines, END))


def counted(entries: int = 0, tree: int = 0, large: int = 0) -> bytes:
    """The counts where no line is different."""
    said = NOTHING.replace("entries 0", "entries {}".format(entries)).replace("tree 0", "tree {}".format(tree))
    return (said + ("not compared: data 0 entries, sums 0, large {}\n".format(large) if large else "")).encode()


# A word more, of a name that both have.
MORE = (report(b"0 res=4 posted\n"), report(b"0 res=4 posted silent\n"))


def refusals() -> List[Tuple[str, bytes, Answer]]:
    """Texts that are not two reports, each with how it is refused."""
    well = report(ENTRY)
    return [
        ("a second report with no end", well + HEADING + ENTRY, reports_refused("the second has no end")),
        ("a second report that is cut in its end", well + well[:-2], reports_refused("the second has no end")),
        ("a third report", well * 3, reports_refused("there is text after the end of the second")),
        ("an empty line behind the end", well * 2 + b"\n", reports_refused("there is text after the end of the second")),
        ("another result in a later line", well + report(ENTRY, b"1 user=8\n", b"0 user=7 res=5 posted\n"),
         reports_refused("line 4 of the second contradicts an earlier one about 0")),
        ("a later line that tells more", well + report(ENTRY, b"0 user=7 res=4 posted op=22\n"),
         reports_refused("line 3 of the second contradicts an earlier one about 0")),
        ("another size of a file", report(b"file /a size=1\n", b"file /a size=2\n") + well,
         reports_refused("line 3 of the first contradicts an earlier one about file /a")),
        ("a long subject with odd bytes", well + report(b"file /\x1b\xff" + b"x" * 150 + b" a=1\n", b"file /\x1b\xff" + b"x" * 150 + b" a=2\n"),
         reports_refused("line 3 of the second contradicts an earlier one about file /??{}+".format("x" * 120))),
        ("a subject with the last visible letter and its neighbours", well + report(b"file /\x1f~\x7f a=1\n", b"file /\x1f~\x7f a=2\n"),
         reports_refused("line 3 of the second contradicts an earlier one about file /?~?")),
        ("a subject of 128 bytes", well + report(b"x" * 128 + b" a=1\n", b"x" * 128 + b" a=2\n"), reports_refused("line 3 of the second contradicts an earlier one about " + "x" * 128)),
        ("nothing behind an end without a line feed", well[:-1], reports_refused("the second does not begin with uring-report 1")),
        ("a later line before an end that lacks", report(ENTRY, b"0 user=8\n") + HEADING, reports_refused("the second has no end")),
    ]


def refusals_by_places() -> List[Tuple[str, bytes, Answer]]:
    """The same of version 2."""
    one, two, ten = (b"%d ring=0 user=7 res=4 posted\n" % place for place in (1, 2, 10))
    well, greatest = by_places(one, two, ten), b"4294967295 ring=0 user=7 posted\n"
    cases = [
        ("a place that falls", by_places(one, ten, two) + well, "line 4 of the first is out of order at 2"),
        ("a place twice", well + by_places(one, two, two), "line 4 of the second is out of order at 2"),
        ("a place that falls behind the tree", well + by_places(two, b"tree\n", b"dir /d\n", one), "line 5 of the second is out of order at 1"),
        ("an entry of no place", well + by_places(one, b"x ring=0\n"), "line 3 of the second is out of order at x"),
        ("a zero before a place", well + by_places(b"01 ring=0\n"), "line 2 of the second is out of order at 01"),
        ("a plus before a place", well + by_places(b"+1 ring=0\n"), "line 2 of the second is out of order at +1"),
        ("a place of 33 bits", well + by_places(greatest, b"4294967296 ring=0\n"), "line 3 of the second is out of order at 4294967296"),
        ("a place of many digits", well + by_places(b"1" * 200 + b" ring=0\n"), "line 2 of the second is out of order at {}+".format("1" * 128)),
        ("a second that falls and has no end", well + by_places(ten, one)[:-4], "the second has no end"),
        ("another target of a link", well + by_places(one, b"tree\n", b"link /l to=a\n", b"link /l to=b\n"), "line 5 of the second contradicts an earlier one about link /l"),
        ("version 1 beside version 2", report(ENTRY) + well, "the first is uring-report 1, the second uring-report 2"),
        ("version 2 beside version 1", well + report(ENTRY), "the first is uring-report 2, the second uring-report 1"),
        ("another version beside one that falls", report(ENTRY) + by_places(ten, one), "line 3 of the second is out of order at 1"),
        ("another version beside one that says otherwise", report(ENTRY, b"0 user=8\n") + well, "the first is uring-report 1, the second uring-report 2"),
        ("version 3", well + by_places(one).replace(b"report 2", b"report 3"), "the second does not begin with uring-report 1"),
    ]
    return [(name, text, reports_refused(told)) for name, text, told in cases]


def comparisons() -> List[Tuple[str, bytes, Answer]]:
    """Reports that are compared, each pair with what is told of it."""
    large = b"file /a size=16777217 sum=large"
    places = [b"%d ring=1 user=7 res=4 posted\n" % place for place in (0, 9, 10, 4_294_967_295)]
    with_sum, other_sum = (large + b" tree-sum=" + it * 32 + b"\n" for it in (b"ab", b"cd"))
    return [
        ("a repeated line", report(ENTRY, ENTRY) + report(b"0 posted res=4 user=7\n", ENTRY), Answer(0, counted(entries=1), b"")),
        ("no line feed at the end", report(ENTRY) + report(ENTRY)[:-1], Answer(0, counted(entries=1), b"")),
        ("two recordings at other times", report(ENTRY[:-1] + b" submitted=5 completed=9\n") + report(ENTRY[:-1] + b" submitted=6 completed=10\n"),
         Answer(0, counted(entries=1), b"")),
        ("a large file", report(b"tree\n", large + b"\n") * 2, Answer(0, counted(tree=1, large=1), b"")),
        ("a large file with its sum on one side", report(b"tree\n", large + b"\n") + report(b"tree\n", with_sum), Answer(0, counted(tree=1, large=1), b"")),
        ("a large file with its sum", report(b"tree\n", with_sum) * 2, Answer(0, counted(tree=1), b"")),
        ("a large file with another sum", report(b"tree\n", with_sum) + report(b"tree\n", other_sum),
         Answer(4, b"- " + with_sum + b"+ " + other_sum + one_different("tree"), b"")),
        ("places of version 2, the greatest one too", by_places(*places) * 2, Answer(0, counted(entries=4), b"")),
        ("places of version 1 in any order", report(*places[::-1]) + report(*places), Answer(0, counted(entries=4), b"")),
        ("headings and empty lines on one side", report(b"ring 0\n", ENTRY, b"\n", b"ring 1\n", b"\n") + report(ENTRY), Answer(0, counted(entries=1), b"")),
        ("a tree on the first side alone", report(ENTRY, b"tree\n", b"dir /d\n") + report(ENTRY), Answer(0, counted(entries=1), b"")),
        ("a tree on the second side alone", report(ENTRY) + report(ENTRY, b"tree\n", b"dir /d\n"), Answer(0, counted(entries=1), b"")),
        *(("a word more on one side", one + other, Answer(4, b"- " + one[len(HEADING) : -len(END)] + b"+ " + other[len(HEADING) : -len(END)] + one_different("entries"), b""))
          for one, other in (MORE, MORE[::-1])),
        ("descriptors and buffers by their numbers", report(*HELD, b"buffer 0 0 len=16\n", b"buffer 0 1 len=8\n") + report(HELD[0], HELD[1], b"descriptor 4 desc=2\n", *HELD[3:], b"buffer 0 0 len=16\n", b"buffer 0 1 len=9\n"),
         Answer(4, b"- descriptor 4 desc=1\n+ descriptor 4 desc=2\n- buffer 0 1 len=8\n+ buffer 0 1 len=9\n"
                + b"".join(b"%s 0 equal, 0 different, 0 unchecked, 0 given\n" % it for it in (b"entries", b"tree")) + b"slots 1 equal, 1 different, 0 unchecked, 0 given\nbuffers 1 equal, 1 different, 0 unchecked, 0 given\n", b"")),
        ("names on one side", report(b"0 user=7 res=-2 posted name=OPENAT errno=ENOENT\n") + report(b"0 user=7 res=-2 posted op=18\n"),
         Answer(0, counted(entries=1), b"")),
    ]


def one_different(section: str) -> bytes:
    """The counts where one line of a section is different, and no other is compared."""
    return counted().replace("{} 0 equal, 0".format(section).encode(), "{} 0 equal, 1".format(section).encode())


def told(program: Program, name: str, given: bytes, wanted: Answer) -> List[Outcome]:
    return [Outcome("diff of {} by {}".format(name, program.compiler), difference(program.run(["diff"], given), wanted))]


def examples_by_places() -> List[Tuple[str, bytes, Answer]]:
    """The pairs of version 2 in examples/compared/, with what is told of them."""
    at = os.path.join(EXAMPLES, "compared")
    names = sorted(it[: -len(".told")] for it in os.listdir(at) if it.endswith(".told"))
    return [(name, read(at, name + ".first") + read(at, name + ".second"), Answer(4, read(at, name + ".told"), b"")) for name in names]


def drawn_by_places(program: Program, seeds: range) -> List[Outcome]:
    """Drawn pairs of version 2, as the second comparison gives."""
    faults = ["seed {}: {}".format(seed, told) for seed in seeds for told in [drawn.as_compared(program, two_reports_by_places(seed))] if told]
    return [Outcome("diff of drawn reports of version 2, {} to {}, by {}".format(seeds[0], seeds[-1], program.compiler), first(faults))]


def quick(program: Program, name: str, given: bytes, wanted: Answer) -> List[Outcome]:
    """A pair of reports that takes no time to speak of."""
    label = "diff of {} by {}".format(name, program.compiler)
    got = program.run(["diff"], given)
    seconds = program.least(["diff"], given, MOST_SECONDS)
    late = None if seconds < MOST_SECONDS else "it took {:.1f} seconds".format(seconds)
    return [Outcome(label, difference(got, wanted)), Outcome(label + ", in time", late if got.status == wanted.status else shown(got))]


def many() -> List[Tuple[str, bytes, Answer]]:
    facts = [b"f%d=1" % number for number in range(FACTS)]
    line, turned = (b"0 " + b" ".join(it) + b"\n" for it in (facts, facts[::-1]))
    return [
        ("a line of many facts and the same in reversed order", report(line) + report(turned), Answer(0, counted(entries=1), b"")),
        ("a line of many facts, said again in reversed order", report(line, turned) + report(line), Answer(0, counted(entries=1), b"")),
        ("a line said often beside one of many facts", report(*[b"0 f1=1\n"] * REPEATED) + report(line), Answer(0, counted(entries=1), b"")),
    ]


def jobs(programs: List[Program]) -> List[Job]:
    made: List[Job] = []
    for program in programs:
        made += [partial(told, program, *case) for case in (*refusals(), *refusals_by_places(), *comparisons(), *examples_by_places())]
        made += [partial(drawn_by_places, program, range(at, at + LOT)) for at in range(0, DRAWN if program is programs[0] else LOT, LOT)]
        # Rattle's own compiler makes slower programs.
        made += [partial(quick, program, *case) for case in many()] if program is programs[0] else []
    return made
