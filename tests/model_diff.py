"""How two reports differ, by docs/FORMAT.md alone: a second comparison."""
import re
from itertools import takewhile
from typing import Dict, Iterator, List, NamedTuple, Optional, Tuple

VERSIONS, END = {b"uring-report 1": 1, b"uring-report 2": 2}, b"end"
# What stands behind these names is no fact of a line; and the most bytes of a subject that are shown.
TIMES, MOST_SHOWN = (b"submitted", b"completed"), 128
SECTIONS = (b"entries", b"tree", b"slots", b"buffers")
# What a line of a section is counted as, in the order of the counts.
COUNTED = ("equal", "different", "unchecked", "given")
HEADINGS = (b"uring-report", b"ring", b"tree", b"slots", b"buffers", b"end", b"")
# Of a first word the section of its line, and how many words its subject has; of any other the line is an entry.
KINDS = {b"dir": (b"tree", 2), b"file": (b"tree", 2), b"link": (b"tree", 2), b"slot": (b"slots", 3), b"descriptor": (b"slots", 2), b"buffer": (b"buffers", 3)}
# The greatest place that a line can have.
MOST_PLACE = (1 << 32) - 1


class Refused(Exception):
    """Texts that are not two reports."""


class Line(NamedTuple):
    text: bytes
    section: bytes
    subject: Tuple[bytes, ...]
    facts: Tuple[bytes, ...]

    def has(self, name: bytes) -> bool:
        return name in map(name_of, self.facts)

    def is_unchecked(self) -> bool:
        return self.has(b"unchecked") or b"completion=unseen" in self.facts

    def is_given(self) -> bool:
        return b"given=1" in self.facts

    def shows_data(self) -> bool:
        """Whether all bytes that an entry read are shown."""
        return any(name_of(it) == b"data" and not it.endswith(b"+") for it in self.facts)

    def is_past(self, end: Optional[int]) -> bool:
        """Whether this is an entry behind the end of the entries of the other report, of two of which one was cut off."""
        place = place_of(self.subject[0]) if self.section == b"entries" else None
        return end is not None and place is not None and place >= end

    def fits(self, fact: bytes) -> bool:
        return fact in self.facts or name_of(fact) not in map(name_of, self.facts)

    def agrees(self, other: "Line") -> bool:
        return all(map(other.fits, self.facts)) and all(map(self.fits, other.facts))

    def lacks(self, other: "Line") -> Tuple[bool, bool, bool]:
        """What of this line and the other is not compared, since one does not have it: the bytes of an entry, a sum, the bytes of a large file."""
        both = (self, other)
        has_bytes = any(it.has(name) for it in both for name in (b"data", b"data-sum"))
        has_read = all(it.has(b"data-sum") for it in both) or all(it.shows_data() for it in both)
        is_large = all(b"sum=large" in it.facts for it in both) and not all(it.has(b"tree-sum") for it in both)
        return has_bytes and not has_read, self.has(b"sum") != other.has(b"sum"), is_large


def name_of(fact: bytes) -> bytes:
    return fact.split(b"=", 1)[0] if b"=" in fact else b""


class Report:
    """The lines of a report without those that repeat what an earlier one says."""

    def __init__(self, side: str, lines: List[bytes]) -> None:
        self.sections = {b"entries", *(it.split(b" ")[0] for it in lines)}
        # Behind which place nothing is known of the entries of the other report, where one of the two was cut off.
        self.end: Optional[int] = None
        self.first: Dict[Tuple[bytes, ...], Line] = {}
        for number, text in enumerate(lines, 1):
            if text.split(b" ")[0] in HEADINGS:
                continue
            line = line_of(text)
            if set(self.first.setdefault(line.subject, line).facts) != set(line.facts):
                raise Refused("line {} of the {} contradicts an earlier one about {}".format(number, side, shown(b" ".join(line.subject))))
        self.lines = list(self.first.values())


def shown(subject: bytes) -> str:
    letters = "".join(chr(it) if 32 <= it <= 126 else "?" for it in subject[:MOST_SHOWN])
    return letters + "+" if len(subject) > MOST_SHOWN else letters


def line_of(text: bytes) -> Line:
    words = tuple(text.split(b" "))
    section, count = KINDS.get(words[0], (b"entries", 1))
    return Line(text, section, words[:count], tuple(it for it in words[count:] if name_of(it) not in TIMES))


def report_in(side: str, lines: List[bytes]) -> List[bytes]:
    """The lines of a text ahead of its first line `end`, behind which nothing may stand. In version 2 places rise."""
    if not lines or lines[0] not in VERSIONS:
        raise Refused("the {} does not begin with uring-report 1".format(side))
    if END not in lines:
        raise Refused("the first has no line end" if side == "first" else "the second has no end")
    end = lines.index(END)
    if lines[end + 1 :] not in ([], [b""]):
        raise Refused("there is text after the end of the {}".format(side))
    if VERSIONS[lines[0]] == 2:
        refuse_unless_rising(side, lines[:end])
    return lines[:end]


def place_of(word: bytes) -> Optional[int]:
    """The place that a first word is: decimal, without a zero before it."""
    is_place = re.fullmatch(rb"0|[1-9][0-9]{0,9}", word) and int(word) <= MOST_PLACE
    return int(word) if is_place else None


def refuse_unless_rising(side: str, lines: List[bytes]) -> None:
    last = -1
    for number, line in enumerate(lines, 1):
        word = line.split(b" ")[0]
        if word in HEADINGS or word in KINDS:
            continue
        place = place_of(word)
        if place is None or place <= last:
            raise Refused("line {} of the {} is out of order at {}".format(number, side, shown(word)))
        last = place


def is_entry(line: bytes) -> bool:
    word = line.split(b" ")[0]
    return word not in HEADINGS and word not in KINDS


def closed(lines: List[bytes]) -> Optional[List[bytes]]:
    """A report of version 2 that was cut off, as it is taken: its entries in whole lines, and an end. None where it has an end, or another version."""
    whole = lines[:-1]
    if END in lines or not whole or VERSIONS.get(whole[0]) != 2:
        return None
    return [whole[0], *takewhile(is_entry, whole[1:]), END]


def reports(first: List[bytes], second: List[bytes], truncated: bool) -> Tuple[Report, Report]:
    cut = closed(second) if truncated else None
    second = cut or second
    both = [(side, report_in(side, lines)) for side, lines in (("first", first), ("second", second))]
    versions = [VERSIONS[lines[0]] for lines in (first, second)]
    if versions[0] != versions[1]:
        raise Refused("the first is uring-report {}, the second uring-report {}".format(*versions))
    one, two = (Report(side, lines) for side, lines in both)
    if cut:
        for it in (one, two):
            it.end = 1 + max((int(line.subject[0]) for line in it.lines if line.section == b"entries"), default=-1)
    return one, two


def two_reports(text: bytes, truncated: bool) -> Tuple[Report, Report]:
    """Those of one input: the first goes to the first line `end`."""
    lines = text.split(b"\n")
    second = lines.index(END) + 1 if END in lines else len(lines)
    return reports(lines[:second], lines[second:], truncated)


def lone(sign: bytes, line: Line, end: Optional[int]) -> Tuple[str, List[bytes]]:
    """What a line is whose subject the other text lacks, and what is told of it."""
    return ("unchecked", [b"~ " + line.text]) if line.is_unchecked() or line.is_past(end) else ("different", [sign + line.text])


def compared(line: Line, other: Optional[Line], has_section: bool, end: Optional[int] = None) -> Tuple[str, List[bytes]]:
    """What a line of the first text is to the second, and what is told of it."""
    if other is None:
        return lone(b"- ", line, end) if has_section else ("", [])
    if line.is_unchecked() or other.is_unchecked():
        return "unchecked", [b"~ " + other.text]
    if not line.agrees(other):
        return "different", [b"- " + line.text, b"+ " + other.text]
    return "given" if line.is_given() or other.is_given() else "equal", []


class Judged(NamedTuple):
    """What a line is, what is told of it, and what of it is not compared."""

    section: bytes
    what: str
    told: List[bytes]
    lacks: Tuple[bool, bool, bool] = (False, False, False)


def judged(one: Report, two: Report) -> Iterator[Judged]:
    for line in one.lines:
        other = two.first.get(line.subject)
        what, told = compared(line, other, line.section in two.sections, two.end)
        yield Judged(line.section, what, told, line.lacks(other)) if other and what in ("equal", "different") else Judged(line.section, what, told)
    for line in two.lines:
        if line.subject not in one.first and line.section in one.sections:
            yield Judged(line.section, *lone(b"+ ", line, one.end))


def difference(text: bytes, strict: bool, truncated: bool) -> Tuple[bytes, bool]:
    """What `diff` tells of two reports in one input, and whether they pass; or it is Refused."""
    return told_of(*two_reports(text, truncated), strict)


def difference_of_two(first: bytes, second: bytes, strict: bool, truncated: bool) -> Tuple[bytes, bool]:
    """The same of two texts."""
    return told_of(*reports(first.split(b"\n"), second.split(b"\n"), truncated), strict)


def told_of(one: Report, two: Report, strict: bool) -> Tuple[bytes, bool]:
    each = list(judged(one, two))
    told = [line for it in each for line in it.told]
    for section in SECTIONS:
        counts = ("{} {}".format(sum(it.section == section and it.what == what for it in each), what) for what in COUNTED)
        told.append(section + b" " + ", ".join(counts).encode())
    lacks = [sum(it.lacks[kind] for it in each) for kind in range(3)]
    told += [b"not compared: data %d entries, sums %d, large %d" % tuple(lacks)] if any(lacks) else []
    passes = not any(it.what == "different" for it in each) and not (strict and any(lacks))
    return b"".join(it + b"\n" for it in told), passes


def front(text: bytes) -> Dict[int, Line]:
    """The entries that come first behind the heading of version 2, by their places. They go up to the first line that is no entry whose place rises.
    A line counts once its line feed is there."""
    heading, *lines = text.split(b"\n")[:-1] or [b""]
    entries: Dict[int, Line] = {}
    for line in lines if VERSIONS.get(heading) == 2 else ():
        place = place_of(line.split(b" ")[0])
        if place is None or place <= next(reversed(entries), -1):
            break
        entries[place] = line_of(line)
    return entries


def early(first: bytes, second: bytes) -> bytes:
    """What `diff` of two texts tells before they end, and where they are refused: that of the entries in the front of the first that the front of the
    second reaches. It has an entry of that place, or of a later one."""
    one, two = front(first), front(second)
    reached = [place for place in one if place <= max(two, default=-1)]
    told = [line for place in reached for line in compared(one[place], two.get(place), True)[1]]
    return b"".join(it + b"\n" for it in told)
