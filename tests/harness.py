"""Runs a built program, and counts what passes."""
import math
import os
import subprocess
import tempfile
import threading
from concurrent.futures import ThreadPoolExecutor
from typing import Callable, Dict, List, NamedTuple, Optional, Sequence, Tuple, Union

import callgrind

TOP = os.path.dirname(os.path.dirname(os.path.abspath(__file__)))
EXAMPLES = os.path.join(TOP, "examples")
BUILT = os.path.join(TOP, "crates", "uring_replay", "out", "uring_replay")
# A run that has not ended by then hangs.
SECONDS = 120
# Of how many runs the least processor time is compared with that of others; and of how many where it is not as it should be, and instructions
# cannot be counted.
FEW_RUNS, MOST_RUNS = 3, 15
# The system counts a process's own time by ticks of some hundredths of a second or less, so a shorter run may seem to take none.
SHORTEST = 0.02


class Answer(NamedTuple):
    """How a run of the program ended, and what it wrote."""

    status: int
    output: bytes
    errors: bytes


class Outcome(NamedTuple):
    """A test: its name, and what is wrong, or why it was skipped."""

    name: str
    fault: Optional[str] = None
    skipped: Optional[str] = None


Job = Callable[[], List[Outcome]]
Words = Sequence[Union[str, bytes]]
Input = Union[bytes, str, None]


class Program(NamedTuple):
    """A built program, and which compiler built it."""

    file: str
    compiler: str

    def run(self, words: Words, given: Input, environment: Optional[Dict[str, str]] = None, shell: str = "") -> Answer:
        """Runs the program on an input: bytes, or the path of a file. `shell` is what a shell does in its place,
        with "$@" for the program and its words."""
        command = [self.file, *words]
        environment = environment or {"PATH": os.environ.get("PATH", os.defpath)}
        if shell:
            command = ["/bin/sh", "-c", shell, "sh", *command]
        with tempfile.TemporaryFile() as output, tempfile.TemporaryFile() as errors, opened(given) as source:
            started = subprocess.Popen(command, stdin=source, stdout=output, stderr=errors, env=environment, close_fds=False)
            status, _ = ended(started)
            output.seek(0)
            errors.seek(0)
            return Answer(status, output.read(), errors.read())

    def seconds(self, words: Words, given: Input) -> float:
        """The processor time of a run on an input, without what the system took; infinite where the run failed, and no less than what ticks tell apart."""
        with opened(given) as source:
            status, seconds = ended(subprocess.Popen([self.file, *words], stdin=source, stdout=subprocess.DEVNULL))
            return max(seconds, SHORTEST) if status == 0 else math.inf


    def least(self, words: Words, given: Input, most: float) -> float:
        """The processor time of a run on an input: the least of a few runs, up to one that takes less than is allowed. What else a machine does makes
        a run longer."""
        took = math.inf
        for _ in range(FEW_RUNS):
            took = min(took, self.seconds(words, given))
            if took < most:
                break
        return took

    def instructions(self, words: Words, given: Input) -> float:
        """Those of a run on an input; infinite where it failed."""
        with opened(given) as source:
            return callgrind.instructions([self.file, *words], source) or math.inf

    def outlasts(self, slow: "Timed", plain: "Timed", most: float, counts: bool = True) -> Optional[str]:
        """How long a run takes beside another, where that is so many times its processor time or more; or that one of them fails. What else a
        machine does makes a run longer, and one that uses much memory more so. So where times say that it is too long, instructions decide; or,
        where these do not go with the time, more runs."""
        took = base = math.inf
        for runs in range(1, MOST_RUNS + 1):
            took, base = min(took, self.seconds(*slow)), min(base, self.seconds(*plain))
            if runs >= FEW_RUNS and took < most * base < math.inf:
                return None
            if runs == FEW_RUNS and counts and not callgrind.lacking():
                many, few = self.instructions(*slow), self.instructions(*plain)
                is_well = many < most * few < math.inf
                return None if is_well else "{:.3f} seconds and {} instructions, and {:.3f} and {}".format(took, many, base, few)
        return "{:.3f} seconds, and {:.3f}".format(took, base)


class Timed(NamedTuple):
    """A run whose time counts."""

    words: Words
    given: Input


RUNS = [0]


def ended(started: subprocess.Popen) -> Tuple[int, float]:
    """The status of a run, less than 0 where a signal ended it, as SIGKILL where it hung; and its processor time."""
    RUNS[0] += 1
    guard = threading.Timer(SECONDS, started.kill)
    guard.start()
    try:
        _, status, used = os.wait4(started.pid, 0)
    finally:
        guard.cancel()
    started.returncode = os.waitstatus_to_exitcode(status)
    return started.returncode, used.ru_utime


def opened(given: Input):
    """The input as an open file."""
    if isinstance(given, str):
        return open(given, "rb")
    file = tempfile.TemporaryFile()
    file.write(given or b"")
    file.seek(0)
    return file


def spoken(words: Words) -> str:
    return " ".join(word if isinstance(word, str) else repr(word)[2:-1] for word in words) or "(no words)"


def shown(answer: Answer) -> str:
    """An answer in one line."""
    return "status {}, output {}, errors {}".format(answer.status, short(answer.output), short(answer.errors))


def short(text: bytes) -> str:
    return repr(text[:120])[1:] + (" and {} more bytes".format(len(text) - 120) if len(text) > 120 else "")


def first(faults: List[str]) -> Optional[str]:
    """The first faults of a sweep in one line, or none where there are none."""
    return "; ".join([*faults[:3], *(["and {} more".format(len(faults) - 3)] if len(faults) > 3 else [])]) or None


def difference(got: Answer, wanted: Answer) -> Optional[str]:
    """What is wrong with an answer, if anything is."""
    if got == wanted:
        return None
    if got.status == wanted.status and got.errors == wanted.errors:
        pairs = zip(got.output, wanted.output)
        at = next((at for at, (one, other) in enumerate(pairs) if one != other), min(len(got.output), len(wanted.output)))
        line = wanted.output.count(b"\n", 0, at) + 1
        return "the output differs at byte {}, line {}: {}, wanted {}".format(at, line, short(got.output[at:]), short(wanted.output[at:]))
    return "{}; wanted {}".format(shown(got), shown(wanted))


def begins(output: bytes, whole: bytes) -> bool:
    """Whether an output is a beginning of another one, and not all of it."""
    return whole.startswith(output) and output != whole


def refused(line: str, output: bytes = b"") -> Answer:
    """The answer for a trace that is refused, behind what is written before."""
    return Answer(1, output, "trace refused: {}\n".format(line).encode())


def reports_refused(line: str, output: bytes = b"") -> Answer:
    """The answer of `diff` for what is not two reports, behind what is written before."""
    return Answer(1, output, "reports refused: {}\n".format(line).encode())


def fault(cause: str) -> Answer:
    """The answer where something failed that is no matter of the trace."""
    return Answer(3, b"", "fault: {}\n".format(cause).encode())


def read(*names: str) -> bytes:
    with open(os.path.join(EXAMPLES, *names), "rb") as file:
        return file.read()


def two_reports(name: str) -> bytes:
    """What `diff` reads, of an example: its report, and its report with sums; of one of version 3 that with other results."""
    report = read(name + ".report")
    return report + (read(name + ".sums") if os.path.exists(os.path.join(EXAMPLES, name + ".sums")) else report.replace(b" res=", b" res=1"))


def input_of(words: Words, name: str) -> Input:
    """What the program reads of an example: `make` its text; of one without a report `diff` reads the trace, and refuses it."""
    if words[0] == "make":
        return read(name + ".text")
    is_told = words[0] == "diff" and os.path.exists(os.path.join(EXAMPLES, name + ".report"))
    return two_reports(name) if is_told else os.path.join(EXAMPLES, name + ".trace")


def with_entries(name: str) -> List[str]:
    """The words of `diff` with the entries of an example."""
    return ["diff", "--show", os.path.join(EXAMPLES, name + ".trace")]


def processors() -> int:
    return len(os.sched_getaffinity(0))


class Count:
    """How many tests passed, failed and were skipped."""

    def __init__(self) -> None:
        self.passed = 0
        self.failed = 0
        self.skips: List[Outcome] = []

    def add(self, outcome: Outcome) -> None:
        if outcome.fault is not None:
            self.failed += 1
            say("FAILED: {}: {}".format(outcome.name, outcome.fault))
        elif outcome.skipped is not None:
            self.skips.append(outcome)
        else:
            self.passed += 1

    def run(self, jobs: List[Job]) -> None:
        """Runs jobs side by side, one a processor."""
        with ThreadPoolExecutor(processors()) as pool:
            for outcomes in pool.map(guarded, jobs):
                for outcome in outcomes:
                    self.add(outcome)

    def join(self, other: "Count") -> None:
        self.passed += other.passed
        self.failed += other.failed
        self.skips += other.skips

    def line(self) -> str:
        return "{} passed, {} failed".format(self.passed, self.failed) + (", {} skipped".format(len(self.skips)) if self.skips else "")


# How a reason begins that is no lack of the machine: a compiler is there, and what is to be tested does not build.
MADE_NO = "the C compiler made no "


def skipped(name: str, why: str) -> List[Outcome]:
    return [Outcome(name, why) if why.startswith(MADE_NO) else Outcome(name, skipped=why)]


def guarded(job: Job) -> List[Outcome]:
    """What a job gives, or that it failed."""
    try:
        return job()
    except Exception as error:
        given = getattr(job, "args", ())
        name = getattr(getattr(job, "func", job), "__name__", "a test")
        return [Outcome("{} {}".format(name, repr(given)[:200]), "the test itself failed: {!r}".format(error))]


def say(text: str) -> None:
    print(text, flush=True)
