"""The must-fail edits as files: which there are, what each puts where, and why one cannot be applied.

An edit has a line `file: PATH`, below its crate's folder, and pairs of lines `old: TEXT` and `new: TEXT`. Each old text stands once in that file, as the
pairs before left it. A text is within one line, so an edit changes lines and moves none.
"""
import os
import re
from typing import Dict, Iterator, List, NamedTuple, Tuple

TOP = os.path.dirname(os.path.dirname(os.path.abspath(__file__)))
# The edits that `rt ci` tries, and those that are tried in turn (edit_days.py).
ALWAYS, IN_TURN = "must-fail", "edits"
LINE = re.compile(r"(file|old|new):(?: (.*))?")

# A file below the top, and the number of a line in it.
Place = Tuple[str, int]


class Edit(NamedTuple):
    """An edit: its crate, its file below the top, and each line that it changes, with what stands there then."""

    crate: str
    path: str
    lines: Dict[Place, str]

    @property
    def name(self) -> str:
        """As `rt must-fail` names it."""
        return "{}/{}".format(self.crate, os.path.basename(self.path))


class Unfit(ValueError):
    """Why an edit cannot be applied, or would show nothing of the code."""


def paths(top: str = TOP) -> Iterator[str]:
    """The files of all edits, below the top."""
    for crate in sorted(os.listdir(os.path.join(top, "crates"))):
        for folder in (ALWAYS, IN_TURN):
            at = os.path.join("crates", crate, folder)
            for name in sorted(os.listdir(os.path.join(top, at))) if os.path.isdir(os.path.join(top, at)) else ():
                yield os.path.join(at, name)


def text_of(path: str) -> str:
    try:
        with open(path, encoding="utf-8") as file:
            return file.read()
    except OSError as error:
        raise Unfit("{}: {}".format(os.path.basename(path), error.strerror))


def read(path: str, top: str = TOP) -> Edit:
    """The edit in a file."""
    crate = path.split(os.sep)[1]
    was: Dict[str, str] = {}
    texts: Dict[str, str] = {}
    at = old = ""
    for line in text_of(os.path.join(top, path)).splitlines():
        said = LINE.fullmatch(line)
        word, text = (said[1], said[2] or "") if said else ("", "")
        if word == "file":
            at = os.path.join("crates", crate, text)
            if at not in was:
                was[at] = texts[at] = text_of(os.path.join(top, at))
        elif word == "old":
            old = text
            if texts.get(at, "").count(old) != 1:
                raise Unfit("it replaces {!r}, which stands {} times".format(old, texts.get(at, "").count(old)))
        elif word == "new":
            texts[at] = texts[at].replace(old, text)
    return Edit(crate, path, changed(crate, was, texts))


def changed(crate: str, was: Dict[str, str], texts: Dict[str, str]) -> Dict[Place, str]:
    """The lines that an edit changes. They are of code: an edit of a contract's words alone would show nothing of the function."""
    found = {}
    for at, text in texts.items():
        pairs = enumerate(zip(was[at].split("\n"), text.split("\n")), 1)
        found.update({(at, number): new for number, (old, new) in pairs if old != new})
    if not found:
        raise Unfit("it changes nothing")
    source, proofs = ("crates/{}/{}/".format(crate, it) for it in ("src", "proofs"))
    if not any(at.startswith(source) for at, _ in found):
        raise Unfit("it changes no code: an edit of a definition or a proof shows nothing of a function")
    for at, _ in found:
        if not at.startswith((source, proofs)):
            raise Unfit("it changes {}, and an edit changes code".format(at))
    return found


def looked_at(top: str = TOP) -> Tuple[List[Edit], List[str]]:
    """All edits that can be applied, and what is wrong with the others."""
    edits, faults = [], []
    for path in paths(top):
        try:
            if not path.endswith(".edit"):
                raise Unfit("its name does not end in .edit")
            edits.append(read(path, top))
        except Unfit as fault:
            faults.append("{}: {}".format(path, fault))
    return edits, faults
