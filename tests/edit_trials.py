"""Tries must-fail edits by the prover, and says which of them show something of a contract."""
import fnmatch
import os
import resource
from concurrent.futures import ThreadPoolExecutor
from typing import Dict, List, NamedTuple, Optional

import prover
from edit_files import TOP, Edit
from refusals import SHOWN, UNCLEAR, Kind

# The edits that are refused and do not show why.
UNSHOWN = os.path.join(TOP, "tests", "unshown_edits.txt")


class Tried(NamedTuple):
    """An edit, and what its try came to."""

    edit: Edit
    kind: Kind
    text: str


def try_crate(name: str, edits: List[Edit], crate: prover.Crate, top: str = TOP) -> List[Tried]:
    """Tries edits of one crate, one after another, over what the ones before it kept."""
    with prover.Prover(crate, top) as one:
        if not (one.is_ready() or one.made_ready()):
            return [Tried(it, Kind.UNTRIED, "{} is not proved without an edit".format(name)) for it in edits]
        return [Tried(it, *one.tried(it)) for it in edits]


def try_all(edits: List[Edit], top: str = TOP, workers: int = 0) -> List[Tried]:
    """Tries edits, some crates side by side."""
    crates, of_crate = prover.crates(top), {}
    for edit in edits:
        of_crate.setdefault(edit.crate, []).append(edit)
    with ThreadPoolExecutor(workers or len(os.sched_getaffinity(0))) as pool:
        each = [pool.submit(try_crate, name, those, crates[name], top) for name, those in sorted(of_crate.items(), key=lambda it: -len(it[1]))]
        return [tried for it in each for tried in it.result()]


def minutes() -> float:
    """The processor minutes of what this process started and what has ended."""
    used = resource.getrusage(resource.RUSAGE_CHILDREN)
    return (used.ru_utime + used.ru_stime) / 60


def unshown() -> Dict[str, Kind]:
    """The listed edits: patterns of their names, and the kind of each, or UNTRIED where it is not known."""
    with open(UNSHOWN, encoding="utf-8") as file:
        lines = [it.split() for it in file if it.strip() and not it.startswith("#")]
    return {name: Kind[kind] for name, kind in lines}


def listed(edit: Edit) -> Optional[Kind]:
    """The kind that an edit is listed with."""
    return next((kind for name, kind in unshown().items() if fnmatch.fnmatch(edit.name, name)), None)


def fault_of(tried: Tried, is_listed: Optional[Kind]) -> Optional[str]:
    """Why an edit is not refused as it is to be: by a goal, or, where it is listed, without showing why."""
    if tried.kind in SHOWN:
        return "a goal shows it now, so it goes from tests/unshown_edits.txt: {}".format(tried.text) if is_listed in UNCLEAR else None
    return None if is_listed and tried.kind in UNCLEAR else "{}: {}".format(tried.kind.value, tried.text)


def faults_of(tried: List[Tried]) -> List[str]:
    """What is wrong with some edits."""
    found = ((it.edit.path, fault_of(it, listed(it.edit))) for it in tried)
    return ["{}: {}".format(path, fault) for path, fault in found if fault]
