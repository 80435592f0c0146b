"""What `rt ci` says, line by line: what it counted, and what it passes over that a gate must not."""
import re
from typing import List

import refusals
from harness import Count, Outcome
from refusals import UNCLEAR, Kind


class Told:
    """What was read of the text of `rt ci` so far."""

    def __init__(self) -> None:
        self.crate = ""
        self.last = ""
        self.outcomes: List[Outcome] = []
        # The edits of which its line does not show that a goal is refused.
        self.unshown: List[str] = []

    def read(self, text: str) -> None:
        """Takes the next line."""
        self.crate = text[3:] if text.startswith("== ") else self.crate
        self.last = text or self.last
        if "imports that nothing uses" in text:
            fault = "its proofs or specs have some: `rt tidy` in the crate removes them"
            self.outcomes.append(Outcome("no unused imports in {}".format(self.crate), fault))
        edit = refusals.told_by(text)
        if edit and (edit.kind is Kind.BAD or refusals.BY_LIMIT in text):
            # `rt ci` says so, and goes on.
            self.outcomes.append(Outcome("the edit {}".format(edit.name), edit.kind.value))
        elif edit and edit.kind in UNCLEAR:
            self.unshown.append(edit.name)

    def end(self, status: int, count: Count) -> None:
        """Adds up what the last line counted, once the command has ended with this status."""
        counted = re.fullmatch(r"(\d+) passed, (\d+) failed", self.last)
        for outcome in self.outcomes:
            count.add(outcome)
        if not counted:
            count.add(Outcome("rt ci", "it ended with status {}, and its last line has no counts: {!r}".format(status, self.last)))
            return
        count.passed += int(counted[1])
        count.failed += int(counted[2])
        if counted[1] == "0":
            count.add(Outcome("rt ci", "it passed nothing"))
        if status and counted[2] == "0":
            count.add(Outcome("rt ci", "it ended with status {}".format(status)))
