"""Tests of the tools that try must-fail edits: planted edits in a small repository, words of the checker that were kept, and days."""
import os
import subprocess
import tempfile
from functools import partial
from typing import Dict, List

import edit_days
import edit_files
import edit_trials
import edits_together
import gate
import prover
import refusals
from days import today
from edit_files import Edit
from harness import Job, Outcome
from refusals import Kind

SMALL = {
    "crates.txt": "small:\nuring_replay: small\n",
    "crates/uring_replay/src/main.rt": "#![tactic(auto)]\n\nfn main() {}\n",
    "crates/small/src/lib.rt": "#![tactic(auto)]\n"
    "ghost use Rattle.std.specs.Prelude.{◌≡◌, ◌≤◌, ◌+◌};\n\n"
    "pub fn after(n: u32) -> u32\n    requires { n ≤ 9 }\n    ensures { result ≡ n + 1 }\n{\n    n + 1\n}\n",
}
# Edits of the small crate: what each puts in the place of `n + 1`, and the file's name.
PLANTED = {"another_value": "n + 2", "the_same_value": "1 + n", "a_name_that_is_gone": "m + 1"}
PROVED = {"another_value": Kind.FALSE, "the_same_value": Kind.PROVED, "a_name_that_is_gone": Kind.BAD}

GOAL = "note: src/desk.rt:90:1: it is not proved that what the function ensures holds when it returns (`returns-clause-all`)"
# Lines of the checker, by what they tell.
SAMPLES = (
    (GOAL + "; the facts known there allow values at which this goal is false", Kind.FALSE),
    (GOAL, Kind.OPEN),
    ("note: src/desk.rt:148:5: `search` found no proof (`invariant_of-result`)", Kind.OPEN),
    (GOAL + "; `search` gave up at one of its limits", Kind.LIMIT),
    ("./proofs/desk/Desk/draw/Answers.antt:10:39: error: `fetch_add-found-requires`: as printed, the two types differ only where one has `0`", Kind.PROOF),
    ("./proofs/desk/Desk/draw/Answers.antt:10:158: error: `fetch_add-found-requires`: record `After` has no field `if-seat`", Kind.PROOF),
    ("logic=not-proved", Kind.UNKNOWN),
)
# Lines of `rt`, which cuts what the checker says, by what they tell.
BY_RT = (
    ("rt: must-fail desk/a.edit: refused, as it must be: " + (GOAL + "; the facts known there allow values")[:160], Kind.FALSE),
    ("rt: must-fail desk/a.edit: refused, as it must be: " + (GOAL + "; `search` gave up")[:150], Kind.LIMIT),
    ("rt: must-fail desk/a.edit: refused, as it must be: " + GOAL.replace("clause-all", "clause-" + 60 * "a")[:160], Kind.UNKNOWN),
    ("rt: must-fail desk/a.edit: refused, as it must be", Kind.UNKNOWN),
    ("rt: must-fail desk/a.edit: refused, as it must be (only because a proof file names what the edit took away): proofs/a.antt:1:1: x", Kind.PROOF),
    ("rt: must-fail desk/a.edit: refused, as it must be (only by a limit of the prover, which gave no verdict): src/a.rt:1:1: error", Kind.LIMIT),
    ("rt: must-fail desk/a.edit: NOT REFUSED: the crate is still proved with this edit", Kind.PROVED),
    ("rt: must-fail desk/a.edit: BAD EDIT: an 'old:' text is in src/desk.rt 0 times, and not once", Kind.BAD),
    ("rt: must-fail desk/a.edit: NOT TRIED: its check was killed", Kind.UNTRIED),
)


def small_repository(top: str) -> List[Edit]:
    """Makes a repository of two crates, and gives its edits."""
    files = dict(SMALL)
    for name, new in PLANTED.items():
        files["crates/small/edits/{}.edit".format(name)] = "file: src/lib.rt\nold:     n + 1\nnew:     {}\n".format(new)
    for name, text in files.items():
        os.makedirs(os.path.dirname(os.path.join(top, name)), exist_ok=True)
        with open(os.path.join(top, name), "w", encoding="utf-8") as file:
            file.write(text)
    name = ["-c", "user.name=tests", "-c", "user.email=tests@localhost"]
    for words in (["init", "-q"], ["add", "-A"], [*name, "commit", "-q", "-m", "planted"]):
        subprocess.run(["git", *words], cwd=top, check=True)
    return edit_files.looked_at(top)[0]


def wanted(name: str, found: object, should_be: object) -> Outcome:
    return Outcome(name, None if found == should_be else "{!r}, and not {!r}".format(found, should_be))


def planted_stale() -> List[Outcome]:
    """Of three edits the compiler finds the one that names what is not there."""
    with tempfile.TemporaryDirectory(prefix="edits-") as top:
        edits = small_repository(top)
        told = edits_together.stale(edits, partial(edits_together.faults_of, top=top))
    return [wanted("a planted edit that does not compile is found", [it.split(":")[0] for it in told], ["crates/small/edits/a_name_that_is_gone.edit"])]


def planted_proved() -> List[Outcome]:
    """Of three edits the prover takes the one that means the same, and refuses another by a goal that is false."""
    with tempfile.TemporaryDirectory(prefix="edits-") as top:
        tried = edit_trials.try_all(small_repository(top), top)
    found = {os.path.basename(it.edit.path)[: -len(".edit")]: it.kind for it in tried}
    faults = [it.split(":")[0] for it in edit_trials.faults_of(tried)]
    return [
        wanted("planted edits by the prover", found, PROVED),
        wanted("those that are told", faults, ["crates/small/edits/a_name_that_is_gone.edit", "crates/small/edits/the_same_value.edit"]),
    ]


def edit(name: str, *numbers: int) -> Edit:
    return Edit("small", "crates/small/edits/{}.edit".format(name), {("crates/small/src/lib.rt", it): name for it in numbers})


def builds() -> List[Outcome]:
    """Edits of one line stand in different builds; what does not compile together is compiled alone."""
    one, two, other = edit("one", 1), edit("two", 1, 2), edit("other", 3)
    apart = [{it.path for it in build} for build in edits_together.put_together([one, two, other])]

    def compiled(edits: List[Edit]) -> List[edits_together.Fault]:
        # `one` and `other` do not go together, and `two` is stale.
        names = {it.path for it in edits}
        where = [3] if {one.path, other.path} <= names else [2] if two.path in names else []
        return [edits_together.Fault(("crates/small/src/lib.rt", it), "error: planted") for it in where]

    def elsewhere(edits: List[Edit]) -> List[edits_together.Fault]:
        return [edits_together.Fault(("crates/other/src/lib.rt", 1), "error: planted")] if other in edits else []

    told = edits_together.stale([one, two, other], compiled)
    broken = edits_together.stale([one], lambda edits: [edits_together.Fault(("", 0), "all fails")])
    return [
        wanted("two edits of a line are in two builds", apart, [{one.path, other.path}, {two.path}]),
        wanted("what is stale, beside what does not go together", [it.split(":")[0] for it in told], [two.path]),
        wanted("what is stale by a fault elsewhere", [it.split(":")[0] for it in edits_together.stale([one, two, other], elsewhere)], [other.path]),
        wanted("crates that do not compile", broken, ["the crates do not compile without an edit: all fails"]),
    ]


def unfit() -> List[Outcome]:
    """Edits that cannot be applied, or that change no code."""
    texts = {
        "nothing": "",
        "gone": "file: src/lib.rt\nold: m + 1\nnew: m + 2\n",
        "twice": "file: src/lib.rt\nold: n\nnew: m\n",
        "elsewhere": "file: src/other.rt\nold: n\nnew: m\n",
        "words": "file: crates.txt\nold: small\nnew: m\n",
    }
    found: Dict[str, bool] = {}
    with tempfile.TemporaryDirectory(prefix="edits-") as top:
        small_repository(top)
        for name, text in texts.items():
            with open(os.path.join(top, "crates/small/edits", name + ".edit"), "w", encoding="utf-8") as file:
                file.write(text)
        faults = edit_files.looked_at(top)[1]
        found = {name: any("/{}.edit: ".format(name) in it for it in faults) for name in [*texts, *PLANTED]}
    return [wanted("edits that cannot be applied", found, {**dict.fromkeys(texts, True), **dict.fromkeys(PLANTED, False)})]


def kinds() -> List[Outcome]:
    """What lines of the checker and of `rt` tell, and what the gate makes of them."""
    told = gate.Told()
    for line, _ in BY_RT:
        told.read(line)
    return [
        wanted("kinds by the checker", [refusals.of_line(it) for it, _ in SAMPLES], [it for _, it in SAMPLES]),
        wanted("kinds by rt", [refusals.told_by(it).kind for it, _ in BY_RT], [it for _, it in BY_RT]),
        wanted("the kind that tells most", refusals.of_lines([it for it, _ in SAMPLES[1:]]), Kind.OPEN),
        wanted("what the gate fails: a bad edit, and one that a limit of the prover refuses", len(told.outcomes), 2),
        wanted("what the gate is not shown", len(told.unshown), sum(it in refusals.UNCLEAR for _, it in BY_RT) - 1),
    ]


def places() -> List[Outcome]:
    """The functions in which lines stand, and the modules of files."""
    lines = SMALL["crates/small/src/lib.rt"].split("\n")
    named = [prover.function_at(lines, number) for number in (2, 4, 6, 8, 9, 10)]
    modules = [prover.module_of("crates/small/src/" + it) for it in ("lib.rt", "a.rt", "a/mod.rt", "a/b.rt")]
    return [
        wanted("the functions of lines", named, ["", "after", "after", "after", "", ""]),
        wanted("the modules of files", modules, ["", "a", "a", "a::b"]),
    ]


def faults() -> List[Outcome]:
    """Which kinds fail: of edits that are not listed, of those that are, and of those that nobody has looked at."""
    fails = {
        listed: {kind for kind in Kind if edit_trials.fault_of(edit_trials.Tried(edit("one", 1), kind, ""), listed)}
        for listed in (None, Kind.PROOF, Kind.UNTRIED)
    }
    others = {Kind.PROVED, Kind.BAD, Kind.UNTRIED}
    shown, unclear = set(refusals.SHOWN), set(refusals.UNCLEAR)
    return [wanted("kinds that fail", fails, {None: others | unclear, Kind.PROOF: others | shown, Kind.UNTRIED: others})]


def days() -> List[Outcome]:
    """Every edit is due within a cycle, whatever day it begins with."""
    edits, _ = edit_files.looked_at()
    all_in_turn = {it.path for those in edit_days.in_turn(edits).values() for it in those}
    missed = [first for first in range(edit_days.CYCLE) if {it.path for day in range(edit_days.CYCLE) for it in edit_days.due(edits, first + day)} != all_in_turn]
    with tempfile.TemporaryDirectory(prefix="edits-") as top:
        planted = {it.path for it in small_repository(top)}
        now = {it for it in edit_days.changed(today(), top) if it.endswith(".edit")}
        later = edit_days.changed(today() + 2, top)
        with open(os.path.join(top, "crates/small/src/lib.rt"), "a", encoding="utf-8") as file:
            file.write("\n")
        touched = edit_days.changed(today() + 2, top)
        commit = subprocess.run(["git", "log", "-1", "--format=%h"], cwd=top, stdout=subprocess.PIPE, check=True).stdout.decode().strip()
        some = edit_days.due(edits, today())[0]
        last = edit_days.last_tried(some, edits, today() + edit_days.CYCLE, top)
        before_all = edit_days.last_tried(some, edits, today(), top)
    return [
        wanted("each edit is due within a cycle", missed, []),
        wanted("when an edit was last due, and the commit", (last, before_all), ("{}, at commit {}".format(edit_days.date_of(today()), commit), "")),
        wanted("what a commit of the day changed", now, planted),
        wanted("what none changed, and what is not committed", (later, touched), (set(), {"crates/small/src/lib.rt"})),
        wanted("a crate without a day is told", len(edit_days.without_a_day([edit("one", 1)])), 1 + len(edit_days.DAILY) + sum(map(len, edit_days.DAYS))),
    ]


def jobs() -> List[Job]:
    return [planted_stale, planted_proved, builds, unfit, kinds, places, faults, days]
