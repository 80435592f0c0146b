"""Asks the prover about one function of a crate that an edit changed: whether it is still proved, and which of its goals are refused.

A function is proved from its own body and the contracts of those that it calls. So the changed functions decide, and only these and what they call are checked,
over what earlier checks of the crate kept in a folder. The libraries below are those in crates/NAME/out, as `rt ci` or `rt check` left them.
"""
import os
import re
import shutil
import subprocess
import tempfile
from typing import Dict, Iterable, List, NamedTuple, Optional, Set

import refusals
from edit_files import TOP, Edit
from edits_together import changed
from refusals import Kind

PARTS = ("src", "specs", "proofs")
FUNCTION = re.compile(r"^(\s*)(?:pub(?:\([a-z]+\))? )?(?:const )?fn (\w+)")
NOTE = re.compile(r"(?:note: )?\S+:\d+:\d+: ")
# What is said of a text that cannot be read, where one that is only false reads well.
UNREAD = re.compile(r".*\berror\[|(?:\./)?(?:src|specs)/\S+:\d+:\d+: error: .*(?:is not in scope|has no field|is no name|is missing|expected the end)")
KEPT_PROOF = re.compile(r"(?:note: )?(?:\./)?(proofs/\S+/Answers\.antt):\d+:\d+: ")


class Crate(NamedTuple):
    """A crate of crates.txt: its name, the crates and the libraries of the kit that it stands on, and those of all crates below."""

    name: str
    crates: List[str]
    libraries: List[str]
    below: List[str]


class Found(NamedTuple):
    """What a try of an edit came to."""

    kind: Kind
    text: str


def kit() -> str:
    """The folder of the kit."""
    return os.path.dirname(subprocess.run(["rt", "doc"], stdout=subprocess.PIPE, check=True).stdout.decode().strip())


def crates(top: str = TOP) -> Dict[str, Crate]:
    """The crates by their names. Each line of crates.txt names all crates that are needed, also those below others."""
    lines = {}
    with open(os.path.join(top, "crates.txt"), encoding="utf-8") as file:
        for line in file:
            head, _, below = line.partition("#")[0].partition(":")
            if head.strip():
                lines[head.split()[0]] = below.split()
    found: Dict[str, Crate] = {}

    def all_below(name: str) -> List[str]:
        own = [it for it in lines[name] if it in lines]
        return list(dict.fromkeys([it for one in own for it in [*all_below(one), one]]))

    for name, words in lines.items():
        found[name] = Crate(name, [it for it in words if it in lines], ["std", *(it for it in words if it not in lines)], all_below(name))
    return found


class Prover:
    """Checks copies of a crate. Used as a context: what the checks kept goes at its end."""

    def __init__(self, crate: Crate, top: str = TOP) -> None:
        self.crate, self.top, self.kit = crate, top, kit()
        self.folder = os.path.join(top, "crates", crate.name)

    def __enter__(self) -> "Prover":
        self.room = tempfile.mkdtemp(prefix="edits-")
        return self

    def __exit__(self, *_) -> None:
        shutil.rmtree(self.room, ignore_errors=True)

    def words(self) -> List[str]:
        """The words of a check of the crate."""
        is_program = os.path.exists(os.path.join(self.folder, "src", "main.rt"))
        words = ["--crate-name", self.crate.name, "src/main.rt" if is_program else "src/lib.rt", "-L", "dependency={}/rlibs".format(self.kit)]
        for name in self.crate.libraries:
            words += ["--extern", "{0}={1}/rlibs/{0}.rlib".format(name, self.kit)]
        for name in self.crate.below:
            rlibs = os.path.join(self.top, "crates", name, "out", "rlib")
            words += ["-L", "dependency={}".format(rlibs)]
            words += ["--extern", "{0}={1}/{0}.rlib".format(name, rlibs)] if name in self.crate.crates else []
        logic = ["--antt-project", "{}/rattle/logic/antt-project.json".format(self.kit), "--logic-built", "{}/logic_built".format(self.kit)]
        return [*words, *logic, "--jobs", "1", "--incremental", os.path.join(self.room, "kept")]

    def check(self, edit: Edit, only: Iterable[str], without: Iterable[str] = ()) -> subprocess.CompletedProcess:
        """Checks some functions of the crate with an edit, and without some of its files."""
        with tempfile.TemporaryDirectory(prefix="rt-edit-{}-".format(os.getpid())) as copy:
            for part in PARTS:
                if os.path.isdir(os.path.join(self.folder, part)):
                    shutil.copytree(os.path.join(self.folder, part), os.path.join(copy, part))
            for path in without:
                os.remove(os.path.join(copy, path))
            files: Dict[str, Dict[int, str]] = {}
            for (at, number), line in edit.lines.items():
                files.setdefault(os.path.relpath(at, os.path.join("crates", self.crate.name)), {})[number] = line
            for at, lines in files.items():
                if at not in without:
                    changed(os.path.join(copy, at), lines)
            words = [os.path.join(self.kit, "bin", "rattle"), "check", *self.words()]
            words += [word for it in only for word in ("--only", it)]
            how = {"stdin": subprocess.DEVNULL, "stdout": subprocess.PIPE, "stderr": subprocess.STDOUT}
            return subprocess.run(words, cwd=copy, errors="replace", **how)

    def is_ready(self) -> bool:
        """Whether the libraries below are there, so that the crate can be checked."""
        return self.check(Edit(self.crate.name, "", {}), [""]).returncode == 0

    def made_ready(self) -> bool:
        """Has the crates below checked that have to be, and says whether this one can be checked then."""
        how = {"stdin": subprocess.DEVNULL, "stdout": subprocess.DEVNULL, "stderr": subprocess.DEVNULL}
        return subprocess.run(["rt", "check"], cwd=self.folder, **how).returncode == 0 and self.is_ready()

    def tried(self, edit: Edit) -> Found:
        """Tries an edit. Where a kept proof no longer fits, its goals are searched without it."""
        for only in (self.functions(edit), self.modules(edit), []):
            ran = self.check(edit, only)
            # The name of a function may fit several; and what is proved alone is tried with all that calls it.
            if ran.returncode not in (0, 2):
                break
        found = kind_of(ran)
        if found.kind is not Kind.PROOF:
            return found
        kept = sorted({it[1] for it in map(KEPT_PROOF.match, ran.stdout.splitlines()) if it})
        return self.searched(edit, only, kept) or found

    def searched(self, edit: Edit, only: List[str], kept: List[str]) -> Optional[Found]:
        """What a search of the goals of these kept proofs shows: one that is false, or one that is open with the edit alone."""
        if not kept:
            return None
        ran = self.check(edit, only, kept)
        lines = [it for it in ran.stdout.splitlines() if NOTE.match(it)]
        false = [it for it in lines if refusals.of_line(it) is Kind.FALSE]
        if false:
            return Found(Kind.FALSE, false[0])
        before = goals(self.check(Edit(edit.crate, "", {}), only, kept).stdout)
        opened = [it for it in lines if refusals.of_line(it) is Kind.OPEN and not goals(it) <= before]
        return Found(Kind.OPEN, opened[0]) if opened else None

    def functions(self, edit: Edit) -> List[str]:
        """The names of the functions that an edit changes, or none if it changes what stands in no function."""
        found = []
        for at, number in sorted(edit.lines):
            if at.startswith("crates/{}/src/".format(self.crate.name)):
                with open(os.path.join(self.top, at), encoding="utf-8") as file:
                    found.append(function_at(file.read().split("\n"), number))
        return list(dict.fromkeys(found)) if all(found) else []

    def modules(self, edit: Edit) -> List[str]:
        """The modules that it changes."""
        return list(dict.fromkeys(module_of(at) for at, _ in sorted(edit.lines) if at.startswith("crates/{}/src/".format(self.crate.name))))


def function_at(lines: List[str], number: int) -> str:
    """The name of the function in which a line stands, or nothing."""
    name, end = "", ""
    for line in lines[:number]:
        found = FUNCTION.match(line)
        if found:
            name, end = found[2], found[1] + "}"
        elif line == end:
            name, end = "", ""
    return name


def module_of(at: str) -> str:
    """The path of a file's module, below the crate."""
    path = at.split("/src/", 1)[1][: -len(".rt")]
    return "" if path in ("lib", "main") else re.sub("/mod$", "", path).replace("/", "::")


def goals(said: str) -> Set[str]:
    """The goals that the checker's words name as not proved."""
    found = (re.match(r"note: (\S+): .*?(\(`[^`]*`\))", it) for it in said.splitlines() if refusals.GOAL.match(it))
    return {"{} {}".format(it[1], it[2]) for it in found if it}


def kind_of(ran: subprocess.CompletedProcess) -> Found:
    """What a check of an edited crate came to."""
    lines = ran.stdout.rstrip("\n").split("\n")
    last = lines[-1] if lines else ""
    told = [it for it in lines if NOTE.match(it) and (": error" in it or it.startswith("note: "))]
    if ran.returncode == 0:
        return Found(Kind.PROVED, last)
    unread = [it for it in lines if UNREAD.match(it)]
    if ran.returncode == 1 and unread:
        return Found(Kind.BAD, unread[0])
    if ran.returncode == 3:
        return Found(Kind.LIMIT, last)
    if ran.returncode != 1 or not told:
        return Found(Kind.UNTRIED, "the check ended with {}: {}".format(ran.returncode, last))
    kind = refusals.of_lines(told)
    return Found(kind, next((it for it in told if refusals.of_line(it) is kind), told[0]))
