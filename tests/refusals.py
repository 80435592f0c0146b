"""Why the prover refuses a must-fail edit, by what `rt` and the checker say of it.

An edit shows something of a contract only where a goal of the changed code is refused: one that is false for values that the checker names, or one that it
searched to the end and did not prove. A kept proof that no longer fits says nothing of the goal, which another proof may meet; nor does a search at a limit.
"""
import enum
import re
from typing import Iterable, Optional


class Kind(enum.Enum):
    """Why an edit is refused, or that it is not."""

    FALSE = "a goal is false for values that the checker names"
    OPEN = "a goal is not proved by a search that came to its end"
    LIMIT = "a search came to a limit, so nothing is known of its goal"
    PROOF = "a kept proof no longer fits, so nothing is known of its goal"
    UNKNOWN = "the checker does not say why"
    PROVED = "the crate is still proved"
    BAD = "it cannot be applied, compiled or read"
    UNTRIED = "it was not tried"


# Those that show that a contract refuses the edit.
SHOWN = (Kind.FALSE, Kind.OPEN)
# Those that are refused, and do not show it.
UNCLEAR = (Kind.LIMIT, Kind.PROOF, Kind.UNKNOWN)

GOAL = re.compile(r"^note: \S+:\d+:\d+: (it is not proved that |`search` found no proof)")
PROOF = re.compile(r"^(note: )?(\./)?proofs/\S+:\d+:\d+: ")
# `rt` cuts a line, so the beginning of what follows a goal has to do.
FALSE = re.compile(r"`\); t")
LIMIT = re.compile(r"`\); `|gave up at one of its limits")
# What `rt` says of an edit, before the first line of the checker.
TRIED = re.compile(r"(?:rt: )?must-fail ([^:]*): (.*)")
REFUSED = "refused, as it must be"
BY_LIMIT = REFUSED + " (only by a limit"
BY_RT = (
    ("BAD EDIT", Kind.BAD),
    ("NOT TRIED", Kind.UNTRIED),
    ("NOT REFUSED", Kind.PROVED),
    (BY_LIMIT, Kind.LIMIT),
    (REFUSED + " (only because a proof file names", Kind.PROOF),
)


def of_line(line: str) -> Kind:
    """What a line of the checker tells of the goal that it is about."""
    if PROOF.match(line):
        return Kind.PROOF
    if not GOAL.match(line) or "`)" not in line:
        return Kind.UNKNOWN
    if FALSE.search(line):
        return Kind.FALSE
    return Kind.LIMIT if LIMIT.search(line) else Kind.OPEN


def of_lines(lines: Iterable[str]) -> Kind:
    """What the lines of a check that refuses the crate tell: the one that tells most of a goal."""
    kinds = {of_line(it) for it in lines}
    return next((it for it in (Kind.FALSE, Kind.OPEN, Kind.LIMIT, Kind.PROOF) if it in kinds), Kind.UNKNOWN)


class Told:
    """What `rt` tells of an edit: its name, as NAME/FILE.edit, and the kind."""

    def __init__(self, name: str, kind: Kind) -> None:
        self.name, self.kind = name, kind


def told_by(line: str) -> Optional[Told]:
    """What a line of `rt` tells of an edit, if it is about one."""
    found = TRIED.fullmatch(line)
    if not found:
        return None
    for words, kind in BY_RT:
        if found[2].startswith(words):
            return Told(found[1], kind)
    if not found[2].startswith(REFUSED):
        return None
    return Told(found[1], of_line(found[2][len(REFUSED) :].partition(": ")[2]))
