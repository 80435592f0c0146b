"""Pairs of reports of version 2, drawn at random."""
import random
from typing import List

import model_diff

HEADING, FIRST_HEADING, END = b"uring-report 2\n", b"uring-report 1\n", b"end\n"


def entry(place: int, result: int, more: str = "") -> bytes:
    return "{} ring=0 user=7 res={} posted{}\n".format(place, result, more).encode()


class Pair:
    """Two reports of version 2 of one trace, drawn at random: in step or out of step, half of the pairs with a fault in one of them or in both."""

    def __init__(self, seed: int) -> None:
        self.source = random.Random("side by side {}".format(seed))
        most = self.source.choice((12, 40, 40, 200, model_diff.MOST_PLACE))
        places = sorted(self.source.sample(range(most + 1), min(most, self.source.choice((0, 1, 3, 10, 10, 30)))))
        entries, others = [[b"%d" % it, *self.facts()] for it in places], self.others()
        self.is_equal = self.chance(6)
        # (how many in a hundred entries each leaves out)
        self.texts = [self.report(entries, others, 0 if self.is_equal else self.source.choice((0, 0, 0, 10, 50, 90))) for _ in range(2)]
        if self.chance(2):
            which = self.source.randrange(2)
            for it in (which, 1 - which)[: 1 + self.chance(6)]:
                self.texts[it] = self.faulty(self.texts[it])

    def chance(self, often: int) -> bool:
        """Whether one in so many comes."""
        return self.source.randrange(often) == 0

    def facts(self) -> List[bytes]:
        words = [b"ring=%d" % self.source.randrange(3), b"user=%d" % self.source.randrange(9), b"res=%d" % self.source.choice((0, 4, 512, -2)), b"posted"]
        return words + [it for often, it in ((3, self.source.choice((b"data=3132", b"data=3132+"))), (4, b"submitted=5"), (4, b"completed=8"), (9, b"unchecked=late"), (5, b"given=1"), (9, b"completion=unseen"), (4, b"data-sum=ab")) if self.chance(often)]

    def others(self) -> List[List[List[bytes]]]:
        """The lines of each section behind the entries, as words."""
        large = [b"sum=large", *([b"tree-sum=ab"] if self.chance(2) else [])]
        tree = [[b"dir", b"/d", b"node=1"], [b"file", b"/d/a", b"node=2", b"size=4", b"sum=cd"], [b"file", b"/e", b"size=9", *large], [b"link", b"/l", b"to=a"]]
        slots, buffers = [[b"slot", b"0", b"3", b"desc=0", b"pos=4"], [b"descriptor", b"5", b"desc=1"]], [[b"buffer", b"0", b"0", b"len=16"]]
        return [[[name], *lines] for name, lines in ((b"tree", tree), (b"slots", slots), (b"buffers", buffers))]

    def again(self, words: List[bytes], subject: int) -> List[bytes]:
        """A line, which may have other facts."""
        made, kind = list(words), 3 if self.is_equal else self.source.randrange(16)
        at = self.source.randrange(subject, len(words)) if len(words) > subject else 0
        if kind == 0 and at:
            made[at] += b"1"
        elif kind == 1 and at:
            del made[at]
        elif kind == 2:
            made += [self.source.choice((b"op=22", b"unchecked=far", b"silent", b"res=4", b"given=1", b"data=33+", b"data-sum=cd", b"sum=cd"))]
        elif kind == 3:
            made[subject:] = self.source.sample(words[subject:], len(words) - subject)
        return made

    def report(self, entries: List[List[bytes]], others: List[List[List[bytes]]], left_out: int) -> bytes:
        lines = [self.again(it, 1) for it in entries if self.source.randrange(100) >= left_out]
        behind = self.source.randrange(len(lines) + 1) if self.chance(4) else len(lines)
        late, lines = lines[behind:], lines[:behind]
        if self.chance(8):
            lines.insert(self.source.randrange(len(lines) + 1), self.source.choice(([b"ring", b"0"], [b""], [b"dir", b"/e", b"node=3"])))
        for heading, *section in others:
            if not self.chance(8):
                subject = 3 if heading in ([b"slots"], [b"buffers"]) else 2
                lines += [heading, *(self.again(it, subject) for it in section if self.is_equal or not self.chance(8))]
        at = self.source.randrange(behind, len(lines) + 1)
        lines[at:at] = late
        return HEADING + b"".join(b" ".join(it) + b"\n" for it in lines) + (END[:-1] if self.chance(16) else END)

    def faulty(self, text: bytes) -> bytes:
        """A report with a fault, mostly one that it is refused for."""
        lines, kind = text.splitlines(keepends=True), self.source.randrange(8)
        at = self.source.randrange(1, len(lines))
        if kind == 0:
            return text[: self.source.randrange(len(text))]
        if kind == 1:
            return text + self.source.choice((b"\n", entry(9, 4), text))
        if kind == 2:
            lines[0] = self.source.choice((FIRST_HEADING, b"uring-report 3\n", b"tree\n"))
        elif kind == 3:
            lines.insert(at, self.source.choice((b"x ring=0\n", b"01 ring=0\n", b"4294967296 ring=0\n", b"0 res=4\n", b"+1\n")))
        elif kind == 4:
            lines.insert(at, self.source.choice(lines))
        elif kind == 5:
            lines[at:at] = [b"dir /d node=8\n", b"dir /d node=9\n"]
        elif kind == 6:
            other = self.source.randrange(1, len(lines))
            lines[at], lines[other] = lines[other], lines[at]
        else:
            del lines[-1]
        return b"".join(lines)
