"""Compiles all must-fail edits at once, without proofs: one that no longer compiles would be refused for that alone, whatever the contract says.

Edits that change different lines stand together in one copy of the crates, which is compiled as the tests of the program are, with every other crate below
it. Where that fails, the edits at the places that the compiler names are compiled one by one. Those that compile alone get a build of their own with others.
"""
import os
import re
import shutil
import subprocess
import tempfile
from typing import Callable, Dict, Iterator, List, NamedTuple

from edit_files import TOP, Edit, Place

# The crate of the program: it comes above all others.
PROGRAM = "uring_replay"
# A program is compiled from what its tests reach, and all crates are read for it. So one empty test makes the build short.
EMPTY_TEST = "\n#[test]\nfn compiles() {}\n"
ERROR = re.compile(r"(\S+?):(\d+):\d+: (error.*)")


class Fault(NamedTuple):
    """What the compiler says, and where; nowhere if it did not come to an end."""

    place: Place
    text: str


# Compiles the crates with some edits, and gives the faults.
Compiler = Callable[[List[Edit]], List[Fault]]


def put_together(edits: List[Edit]) -> List[List[Edit]]:
    """The edits in as few builds as that takes: no two in one build change the same line."""
    builds: List[List[Edit]] = []
    for edit in edits:
        for build in builds:
            if not any(edit.lines.keys() & it.lines.keys() for it in build):
                build.append(edit)
                break
        else:
            builds.append([edit])
    return builds


def copied(folder: str, top: str = TOP) -> None:
    """Copies what git has of the crates, as it stands."""
    listed = subprocess.run(["git", "ls-files", "-z", "crates", "crates.txt", "HANDLES"], cwd=top, stdout=subprocess.PIPE, check=True)
    for name in filter(None, listed.stdout.decode("utf-8").split("\0")):
        if os.path.exists(os.path.join(top, name)):
            to = os.path.join(folder, name)
            os.makedirs(os.path.dirname(to), exist_ok=True)
            shutil.copyfile(os.path.join(top, name), to)


def changed(path: str, lines: Dict[int, str]) -> None:
    """Puts these lines into a file."""
    with open(path, encoding="utf-8") as file:
        text = file.read().split("\n")
    for number, line in lines.items():
        text[number - 1] = line
    with open(path, "w", encoding="utf-8") as file:
        file.write("\n".join(text))


def above_all(text: str) -> str:
    """The lines of crates.txt with every crate and library below the program."""
    names, libraries, lines = [], [], []
    for line in text.splitlines():
        head, _, below = line.partition("#")[0].partition(":")
        if head.strip():
            names.append(head.split()[0])
            libraries += below.split()
        if not head.split()[:1] == [PROGRAM]:
            lines.append(line)
    every = dict.fromkeys([*(it for it in names if it != PROGRAM), *libraries])
    return "\n".join([*lines, "{}: {}".format(PROGRAM, " ".join(every)), ""])


def faults_of(edits: List[Edit], top: str = TOP) -> List[Fault]:
    """Compiles the crates with these edits."""
    with tempfile.TemporaryDirectory(prefix="edits-") as folder:
        folder = os.path.realpath(folder)
        copied(folder, top)
        files: Dict[str, Dict[int, str]] = {}
        for edit in edits:
            for (at, number), line in edit.lines.items():
                files.setdefault(at, {})[number] = line
        for at, lines in files.items():
            changed(os.path.join(folder, at), lines)
        with open(os.path.join(folder, "crates.txt"), encoding="utf-8") as file:
            text = above_all(file.read())
        with open(os.path.join(folder, "crates.txt"), "w", encoding="utf-8") as file:
            file.write(text)
        crate = os.path.join(folder, "crates", PROGRAM)
        with open(os.path.join(crate, "src", "main.rt"), "a", encoding="utf-8") as file:
            file.write(EMPTY_TEST)
        ran = subprocess.run(["rt", "try", "--test"], cwd=crate, stdin=subprocess.DEVNULL, stdout=subprocess.PIPE, stderr=subprocess.STDOUT)
        said = ran.stdout.decode("utf-8", "replace")
        return list(placed(said, folder)) if ran.returncode else []


def placed(said: str, folder: str) -> Iterator[Fault]:
    """The faults that the compiler names, by the place in the repository."""
    found = [ERROR.match(line) for line in said.splitlines()]
    if not any(found):
        yield Fault(("", 0), said[-1000:])
    for it in filter(None, found):
        # Files of the crate that is compiled are named from its own folder.
        at = os.path.normpath(os.path.join(folder, "crates", PROGRAM, it[1]))
        yield Fault((os.path.relpath(at, folder), int(it[2])), it[3])


def at_fault(edits: List[Edit], fault: Fault) -> List[Edit]:
    """The edits to look at for a fault: those of its line, or of its file."""
    at, _ = fault.place
    by_line = [it for it in edits if fault.place in it.lines]
    return by_line or [it for it in edits if any(file == at for file, _ in it.lines)]


def stale(edits: List[Edit], compiled: Compiler = faults_of) -> List[str]:
    """Compiles all edits, and tells which do not compile."""
    told: List[str] = []
    for build in put_together(edits):
        faults = compiled(build)
        if faults and not told and compiled([]):
            return ["the crates do not compile without an edit: {}".format(faults[0].text)]
        told += stale_of(build, faults, compiled)
    return told


def stale_of(build: List[Edit], faults: List[Fault], compiled: Compiler) -> List[str]:
    """Which edits of a build that has these faults do not compile alone: those at the places of the faults, or else in one of its halves."""
    if not faults:
        return []
    if len(build) == 1:
        return ["{}: it does not compile: {}: {}".format(build[0].path, faults[0].place[0], faults[0].text)]
    suspects = [it for it in build if any(it in at_fault(build, fault) for fault in faults)]
    parts = [[it] for it in suspects] + [[it for it in build if it not in suspects]]
    if not suspects:
        parts = [build[: len(build) // 2], build[len(build) // 2 :]]
    return [why for part in parts if part for why in stale_of(part, compiled(part), compiled)]
