"""Builds the player, and plays traces with it: see docs/PLAYING.md."""
import copy
import os
import re
import shutil
import subprocess
import tempfile
from typing import Dict, List, NamedTuple, Optional, Sequence

from harness import TOP, Answer, Program, shown
from shims import Shim
from traces import sums_option

SOURCES, SHARED = (os.path.join(TOP, "tools", it) for it in ("uring_play", "shared"))
UNTRIED, SECONDS = 77, 120
# Traces whose reads bring more bytes are played without the sums of these, but for what tries them.
MOST_SUMMED = 1 << 28
# One chain at a time; in rounds; in rounds in threads of the kernel's; each chain once all that it waits for has finished, in threads.
MODES = ("chains", "rounds", "threads", "flight")
SECTIONS = ("entries", "tree", "slots", "buffers")


class Compared(NamedTuple):
    """A play held against the answers: what is wrong, if anything is, or why it could not be tried; of each section how many lines are equal,
    different, unchecked and given; the words of those that are unchecked; and of how many entries the bytes were not compared."""

    fault: Optional[str]
    untried: Optional[str]
    counts: Dict[str, List[int]]
    words: List[str]
    uncompared: int


class Player:
    """The player, built into a folder that goes with it; it plays there, and where a file system in memory is, there too."""

    def __init__(self) -> None:
        self.folder = tempfile.TemporaryDirectory(prefix="uring-play-test-")
        self.shared = tempfile.TemporaryDirectory(prefix="uring-play-test-", dir="/dev/shm") if os.access("/dev/shm", os.W_OK) else None
        self.program = os.path.join(self.folder.name, "uring_play")
        self.system = Shim("system", 0)
        self.environment = dict(os.environ)
        self.words = ["--quiet"]

    def directories(self) -> List[str]:
        return [self.folder.name, *([self.shared.name] if self.shared else [])]

    def lacking(self) -> Optional[str]:
        """Builds it, or says why that cannot be."""
        compiler = os.environ.get("CC") or next((it for it in ("cc", "gcc", "clang") if shutil.which(it)), "")
        if not compiler:
            return "there is no C compiler"
        sources = [os.path.join(at, it) for at in (SOURCES, SHARED) for it in sorted(os.listdir(at)) if it.endswith(".c")]
        options = os.environ.get("CFLAGS", "-O1").split()
        words = [*compiler.split(), "-std=gnu11", "-D_GNU_SOURCE", *options, "-pthread", "-I", SHARED, "-o", self.program, *sources]
        try:
            ran = subprocess.run(words, stdin=subprocess.DEVNULL, stdout=subprocess.PIPE, stderr=subprocess.STDOUT)
        except OSError as error:
            return "the C compiler {} does not run: {}".format(compiler, error.strerror)
        if ran.returncode:
            return "the C compiler made no uring_play: {}".format(ran.stdout.decode("utf-8", "replace")[-300:])
        return self.system.lacking()

    def lacking_in_system(self, trace: str) -> Optional[str]:
        """Why nothing can be played here, found out by trying."""
        tried = self.play([trace])
        return tried.errors.decode("utf-8", "replace").strip() if tried.status == UNTRIED else None

    def with_less(self, **settings: int) -> "Player":
        """The same player on a system that gives less, behind tests/system.c."""
        other = copy.copy(self)
        other.environment = {**self.environment, "LD_PRELOAD": self.system.file, **{"SYSTEM_" + it.upper(): str(value) for it, value in settings.items()}}
        return other

    def with_summary(self) -> "Player":
        """The same player, which tells its summary."""
        other = copy.copy(self)
        other.words = []
        return other

    def play(self, words: Sequence[str], given: bytes = b"", directory: str = "") -> Answer:
        command = [self.program, *self.words, "--directory", directory or self.folder.name, *words]
        ran = subprocess.run(command, input=given, stdout=subprocess.PIPE, stderr=subprocess.PIPE, timeout=SECONDS, env=self.environment)
        return Answer(ran.returncode, ran.stdout, ran.stderr)

    def steered(self, trace: bytes, report: bytes, words: Sequence[str] = (), rounds: bytes = b"", directory: str = "", depends: bytes = b"") -> Answer:
        """Plays a trace by its report and, where there are any, its rounds or its dependencies."""
        with tempfile.TemporaryDirectory(dir=self.folder.name) as folder:
            given: List[str] = []
            for option, text in (("--expected", report), ("--rounds", rounds), ("--depends", depends)):
                if text or option == "--expected":
                    path = os.path.join(folder, option[2:])
                    given += [option, path]
                    with open(path, "wb") as file:
                        file.write(text)
            return self.play([*given, *words], trace, directory)

    def played(self, program: Program, trace: bytes, report: bytes, mode: str, directory: str, words: Sequence[str] = ()) -> Answer:
        """Plays a trace by its report in a mode."""
        rounds = program.run(["rounds"], trace).output if mode in ("rounds", "threads") else b""
        depends = program.run(["depends"], trace).output if mode == "flight" else b""
        in_threads = ["--async"] if mode in ("threads", "flight") else []
        return self.steered(trace, report, [*in_threads, *words], rounds, directory, depends)

    def compared(self, program: Program, trace: bytes, report: bytes, mode: str, directory: str, words: Sequence[str] = ()) -> Compared:
        """Plays a trace in a mode, and holds it against its report. The sums of much that is read take long, and are left out."""
        fewer = ["--no-read-sums"] if bytes_read(report) > MOST_SUMMED else []
        found = against(program, report, self.played(program, trace, report, mode, directory, [*words, *fewer]))
        is_thin = b" data-sum=" in report and found.uncompared and not fewer and not found.fault
        return found._replace(fault="the bytes of {} entries are not compared".format(found.uncompared)) if is_thin else found


def bytes_read(report: bytes) -> int:
    """How many bytes the reads of more than 32 bytes brought."""
    return sum(int(it) for it in re.findall(rb" res=(\d+) (?:posted|silent) data=[0-9a-f]*\+", report))


def answers(program: Program, trace: bytes) -> Answer:
    """The report of a trace with sums: with those of reads where these do not take long."""
    plain = program.run(["serial", "--sums"], trace)
    if plain.status or bytes_read(plain.output) > MOST_SUMMED or sums_option(trace) == "--sums":
        return plain
    return program.run(["serial", sums_option(trace)], trace)


def against(program: Program, report: bytes, got: Answer) -> Compared:
    """What was played beside the report, by `diff`."""
    counts: Dict[str, List[int]] = {it: [0, 0, 0, 0] for it in SECTIONS}
    if got.status == UNTRIED:
        return Compared(None, got.errors.decode("utf-8", "replace").strip(), counts, [], 0)
    if got.status or got.errors:
        return Compared(shown(got), None, counts, [], 0)
    found = program.run(["diff"], report + got.output)
    lines = found.output.decode("utf-8", "replace").splitlines()
    uncompared = lines.pop() if lines and lines[-1].startswith("not compared: ") else "not compared: data 0 entries"
    for section, line in zip(SECTIONS, lines[-len(SECTIONS):]):
        counts[section] = [int(it) for it in line.replace(",", "").split()[1::2]]
    is_well = found.status == 0 and not found.errors and not any(it[1] for it in counts.values())
    words = [it.split("unchecked=")[1].split()[0] for it in got.output.decode("utf-8", "replace").splitlines() if " unchecked=" in it]
    differing = [it for it in lines[:-len(SECTIONS)] if not it.startswith("~")]
    fault = None if is_well else "{} {}".format(shown(found), differing[:4])
    return Compared(fault, None, counts, words, int(uncompared.split()[3]))
