#!/usr/bin/env python3
"""The must-fail edits of the crates, which the prover has to refuse.

    tests/edits.py                 looks at every edit: each text that it replaces stands once in its file, and it has its day
    tests/edits.py --compile       compiles all edits together, without proofs
    tests/edits.py NAME ..         tries all edits of these crates by the prover
    tests/edits.py --all           tries all edits of all crates
    tests/edits.py --day YYYY-MM-DD    tries those that ./test tries on this day

`rt ci` tries the edits in crates/NAME/must-fail. Those in crates/NAME/edits are tried in turn, by the day (edit_days.py), over the libraries that `rt ci` or
`rt check` left in crates/NAME/out. Ends with 1 where an edit does not do what it is to.
"""
import argparse
import fnmatch
import shutil
import sys
from typing import List

sys.dont_write_bytecode = True

import edit_days
import edits_together
import planted_edits
from days import DAY, day_of, written
from edit_files import Edit, looked_at
from edit_trials import Tried, fault_of, faults_of, listed, minutes, try_all, unshown
from harness import Job, Outcome, Program, say
from refusals import Kind


def look() -> List[str]:
    """What is wrong with edits that cannot be applied, that no day tries, or that are listed and gone."""
    edits, faults = looked_at()
    names = [it.name for it in edits]
    gone = ["tests/unshown_edits.txt: {} is no edit".format(it) for it in unshown() if not fnmatch.filter(names, it)]
    return faults + edit_days.without_a_day(edits) + gone


def tell(tried: List[Tried], took: float) -> None:
    """Says what was tried, and how each was refused."""
    for it in tried:
        say("edit {}: {}: {}".format(it.edit.name, it.kind.value, it.text[:200]))
    kinds = ", ".join("{}: {}".format(kind.value, count) for kind in Kind for count in [sum(it.kind is kind for it in tried)] if count)
    say("edits tried: {} ({}); processor minutes: {:.1f}".format(len(tried), kinds or "none", took))
    if took > edit_days.MOST_MINUTES:
        say("note: more than {} minutes: another row of tests/edit_days.py may have room".format(edit_days.MOST_MINUTES))


def tried_and_told(edits: List[Edit]) -> List[Tried]:
    """Tries edits, and says how each was refused."""
    before = minutes()
    tried = try_all(edits)
    tell(tried, minutes() - before)
    return tried


def of_the_day() -> List[Outcome]:
    """Tries the edits of the day. One that does not show anything of a contract fails."""
    edits, _ = looked_at()
    today = edit_days.of_day(edits, DAY[0])
    say("edits of {}: {} of {} in turn".format(written(), len(today), sum(map(len, edit_days.in_turn(edits).values()))))
    for crate in dict.fromkeys(it.crate for it in today):
        say("  {}: {}".format(crate, sum(it.crate == crate for it in today)))
    return [outcome(it, edits) for it in tried_and_told(today)]


def again(names: List[str]) -> List[Outcome]:
    """Tries edits of which `rt ci` did not say enough: it shows one line of what the checker says. Those that are listed stay as they are."""
    edits, _ = looked_at()
    return [outcome(it, edits) for it in tried_and_told([it for it in edits if it.name in names and not listed(it)])]


def outcome(tried: Tried, edits: List[Edit]) -> Outcome:
    """Whether an edit is refused as it is to be; of one that is not, when it was tried before."""
    name, fault = "the edit {} is refused by a goal".format(tried.edit.name), fault_of(tried, listed(tried.edit))
    before = fault and edit_days.last_tried(tried.edit, edits, DAY[0])
    return Outcome(name, "{}\nit was last tried on {}".format(fault, before) if before else fault)


def compiles() -> List[Outcome]:
    """All edits compile, in one build or a few."""
    if not shutil.which("rt"):
        return [Outcome("each edit compiles", skipped="there is no command rt")]
    edits, _ = looked_at()
    faults = edits_together.stale(edits)
    return [Outcome("each of {} edits compiles".format(len(edits)), "\n".join(faults) or None)]


def jobs(programs: List[Program]) -> List[Job]:
    return [compiles, *planted_edits.jobs()]


def main() -> int:
    words = argparse.ArgumentParser(description=__doc__, formatter_class=argparse.RawDescriptionHelpFormatter)
    words.add_argument("names", nargs="*", metavar="NAME")
    words.add_argument("--compile", action="store_true")
    words.add_argument("--all", action="store_true")
    words.add_argument("--day", type=day_of)
    given = words.parse_args()
    edits, _ = looked_at()
    lacking = [it for it in given.names if it not in {edit.crate for edit in edits}]
    if lacking:
        words.error("{} has no edits".format(lacking[0]))
    faults: List[str] = []
    if given.compile:
        faults = edits_together.stale(edits)
    elif given.names or given.all or given.day is not None:
        chosen = [it for it in edits if given.all or it.crate in given.names] or edit_days.of_day(edits, given.day)
        faults = faults_of(tried_and_told(chosen))
    else:
        faults = look()
    for fault in faults:
        print(fault)
    return 1 if faults else 0


if __name__ == "__main__":
    sys.exit(main())
