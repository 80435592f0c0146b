"""Plays traces for tools: replays one, plays it in a directory, and tells what differs."""
import os
import re
import subprocess
import tempfile
from typing import Dict, List, NamedTuple, Optional, Sequence

from traces import sums_option

# How a trace is played: one chain at a time; in rounds; in rounds, in threads of the kernel's; in flight, in threads.
MODES = ("chains", "rounds", "threads", "flight")
SECTIONS = ("entries", "tree", "slots", "buffers")
UNTRIED, DIFFERENT, SECONDS = 77, 4, 300
OPCODES = {0: "NOP", 1: "READV", 2: "WRITEV", 3: "FSYNC", 4: "READ_FIXED", 5: "WRITE_FIXED", 17: "FALLOCATE", 18: "OPENAT", 19: "CLOSE", 22: "READ", 23: "WRITE",
           35: "RENAMEAT", 36: "UNLINKAT", 37: "MKDIRAT", 39: "LINKAT", 55: "FTRUNCATE"}
# Opcodes whose result is a number of bytes or of a descriptor: which one says little of a difference.
COUNTED = ("READV", "WRITEV", "READ_FIXED", "WRITE_FIXED", "OPENAT", "READ", "WRITE")


class Failed(Exception):
    """What could not be replayed, played or compared, and why; with the status of the player where it is its own."""

    def __init__(self, why: str, status: int = 3) -> None:
        super().__init__(why)
        self.status = status


class Lacking(Failed):
    """A program that cannot be run at all, so that no other trace is tried."""


class Play(NamedTuple):
    """A play beside its answers: both texts, the lines that differ as `diff` tells them, and what kinds of differences there are."""

    report: bytes
    played: bytes
    difference: bytes
    lines: List[str]
    kinds: List[str]


def ran(words: Sequence[str], given: bytes = b"") -> subprocess.CompletedProcess:
    try:
        return subprocess.run(words, input=given, stdout=subprocess.PIPE, stderr=subprocess.PIPE, timeout=SECONDS)
    except OSError as error:
        raise Lacking("{}: {}".format(words[0], error.strerror)) from None
    except subprocess.TimeoutExpired:
        raise Failed("{} took more than {} seconds".format(words[0], SECONDS)) from None


def name_of(opcode: str) -> str:
    return OPCODES.get(int(opcode), "opcode-" + opcode)


def facts_of(line: str, opcode: str) -> str:
    """What a line says of an entry's end, in general: a number of bytes is N, and bytes and their sum are the fact's name."""
    words = []
    for word in line.split()[2:]:
        if word.startswith("res="):
            words.append("N" if opcode in COUNTED and not word.startswith("res=-") and word != "res=0" else word[4:])
        elif word in ("posted", "silent"):
            words.append(word)
        elif word.startswith(("data=", "data-sum=")):
            words.append(word.split("=")[0])
    return " ".join(words)


def kinds_of(lines: Sequence[str]) -> List[str]:
    """The kinds of the differences that `diff` tells, in order: of an entry its opcode and both ends, else the first word of its line."""
    found: Dict[str, None] = {}
    before = ""
    for line in lines:
        sign, text = line[0], line[2:]
        first = text.split()[0] if text.split() else ""
        if sign == "-":
            before = text
            if not first.isdigit():
                found[first] = None
        elif first.isdigit():
            opcode = re.search(r" op=(\d+)", text)
            name = name_of(opcode[1]) if opcode else "entry"
            found["{} {} -> {}".format(name, facts_of(before, name), facts_of(text, name))] = None
        elif before.split()[:2] != text.split()[:2]:
            found["more " + first] = None
    return list(found)


class Lab:
    """A replayer, a player, a directory and a mode."""

    def __init__(self, replayer: str, player: str, directory: str, mode: str, words: Sequence[str] = ()) -> None:
        self.replayer, self.player, self.directory, self.mode, self.words = replayer, player, directory, mode, list(words)
        self.folder = tempfile.TemporaryDirectory(prefix="uring-lab-")

    def file(self, name: str, text: bytes) -> str:
        path = os.path.join(self.folder.name, name)
        with open(path, "wb") as opened:
            opened.write(text)
        return path

    def answers(self, trace: bytes) -> Optional[bytes]:
        """The report of a trace, or None where it is refused."""
        got = ran([self.replayer, "serial", sums_option(trace)], trace)
        if got.returncode not in (0, 1):
            raise Failed(got.stderr.decode("utf-8", "replace").strip())
        return None if got.returncode else got.stdout

    def play(self, trace: bytes) -> Optional[Play]:
        """Plays a trace, and compares; None where it is refused."""
        report = self.answers(trace)
        if report is None:
            return None
        words = [self.player, "--quiet", "--directory", self.directory, "--expected", self.file("expected", report), *self.words]
        command = {"rounds": "rounds", "threads": "rounds", "flight": "depends"}.get(self.mode)
        if command:
            words += ["--" + command, self.file(command, ran([self.replayer, command], trace).stdout)]
        if self.mode in ("threads", "flight"):
            words.append("--async")
        got = ran([*words, self.file("trace", trace)])
        if got.returncode:
            said = got.stderr.decode("utf-8", "replace").strip().splitlines()
            raise Failed(said[-1] if said else "the player ended with {}".format(got.returncode), got.returncode)
        return self.compared(report, got.stdout)

    def compared(self, report: bytes, played: bytes) -> Play:
        got = ran([self.replayer, "diff"], report + played)
        if got.returncode not in (0, DIFFERENT):
            raise Failed(got.stderr.decode("utf-8", "replace").strip())
        lines = [it for it in got.stdout.decode("utf-8", "replace").splitlines() if it[:2] in ("- ", "+ ")]
        return Play(report, played, got.stdout, lines, kinds_of(lines))
