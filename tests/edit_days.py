"""Which edits the prover tries on which day, so that all are tried within fourteen days.

The edits in crates/NAME/must-fail are tried by each `rt ci`. Of the others each day has the crates of its row, and some edits of the crates whose contracts
carry most. Nothing is kept of what was tried: the day says it, and `git log` what stood there then.
"""
import datetime
import os
import subprocess
from typing import Dict, List, Set

import edit_files
from edit_files import TOP, Edit

# Of these crates some edits are tried each day, and all on the day of a change.
DAILY = ("op_meaning", "foot_print", "wave_pick", "extent_bytes")
# The other crates, by the day.
DAYS = (
    ("trace_format",),
    ("chain_plan", "depend_log"),
    ("report_diff",),
    ("depend_report", "text_words", "finite_maps"),
    ("replay_report",),
    ("diff_stream", "entry_checks"),
    ("world_parts",),
    ("file_tree", "text_lines"),
    ("trace_records",),
    ("ring_tables", "item_index"),
    ("replay_program", "uring_replay"),
    ("records_text", "text_records"),
    ("round_scheduler", "round_report", "replay_stream"),
    ("trace_text", "text_trace", "program_words"),
)
CYCLE = len(DAYS)
# What a day's crates may take.
MOST_MINUTES = 25


def date_of(day: int) -> str:
    return str(datetime.date(1970, 1, 1) + datetime.timedelta(day))


def in_turn(edits: List[Edit]) -> Dict[str, List[Edit]]:
    """The edits that `rt ci` does not try, by crate."""
    found: Dict[str, List[Edit]] = {}
    for edit in edits:
        if edit.path.split(os.sep)[2] == edit_files.IN_TURN:
            found.setdefault(edit.crate, []).append(edit)
    return found


def share(edits: List[Edit], day: int) -> List[Edit]:
    """Some edits of a crate of which each day has some: as many as it takes to try all in a cycle."""
    count = -(-len(edits) // CYCLE)
    return [edits[it % len(edits)] for it in range(day * count, (day + 1) * count)] if edits else []


def due(edits: List[Edit], day: int) -> List[Edit]:
    """What the day alone says is tried."""
    of_crate = in_turn(edits)
    found = [it for name in DAYS[day % CYCLE] for it in of_crate.get(name, [])]
    return found + [it for name in DAILY for it in share(of_crate.get(name, []), day)]


def without_a_day(edits: List[Edit]) -> List[str]:
    """What the rows lack: each crate with edits in turn stands in them once."""
    rows = [*DAILY, *(name for row in DAYS for name in row)]
    found = ["{}: it has edits and no day in tests/edit_days.py".format(it) for it in in_turn(edits) if it not in rows]
    found += ["{}: it has no edits, or two days, in tests/edit_days.py".format(it) for it in dict.fromkeys(rows) if it not in in_turn(edits) or rows.count(it) > 1]
    return found


def git(words: List[str], top: str) -> str:
    """What git says, or nothing where there is none."""
    try:
        ran = subprocess.run(["git", *words], cwd=top, stdout=subprocess.PIPE, stderr=subprocess.DEVNULL)
    except OSError:
        return ""
    return ran.stdout.decode("utf-8", "replace").strip()


def changed(day: int, top: str = TOP) -> Set[str]:
    """The files of crates that a commit of the day changed, or that stand otherwise than the last commit has them."""
    since = "--since={}T00:00:00Z".format(date_of(day))
    said = git(["log", "--format=", "--name-only", since, "--", "crates"], top).splitlines()
    return {*said, *git(["diff", "--name-only", "HEAD", "--", "crates"], top).splitlines()}


def of_day(edits: List[Edit], day: int, top: str = TOP) -> List[Edit]:
    """The edits that are tried on a day: those that are due, those that changed, and all of a crate in DAILY that changed."""
    files, found, of_crate = changed(day, top), due(edits, day), in_turn(edits)
    crates = {it.split("/")[1] for it in files}
    more = [it for those in of_crate.values() for it in those if it.path in files or it.crate in DAILY and it.crate in crates]
    return found + [it for it in more if it not in found]


def last_tried(edit: Edit, edits: List[Edit], day: int, top: str = TOP) -> str:
    """When an edit was last due before a day, and the commit that stood there then; nothing of one that each run tries, or where there was none."""
    for before in range(day - 1, day - 2 * CYCLE, -1):
        if edit in due(edits, before):
            commit = git(["log", "-1", "--format=%h", "--until={}T23:59:59Z".format(date_of(before))], top)
            return commit and "{}, at commit {}".format(date_of(before), commit)
    return ""
