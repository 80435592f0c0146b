"""Recorded traces of examples/, and the recorder itself: what the programs give is what the kernel gave."""
import hashlib
import os
import shutil
import subprocess
import tempfile
from functools import partial
from typing import Dict, List, NamedTuple, Optional, Sequence, Tuple

import model_records
from harness import EXAMPLES, TOP, Answer, Job, Outcome, Program, difference, first, shown, skipped, spoken

# Where recordings are kept, by what is given to --format.
FOLDERS = {"2": os.path.join(EXAMPLES, "recorded"), "3": os.path.join(EXAMPLES, "version_3", "recorded")}
SOURCES, SHARED = (os.path.join(TOP, "tools", it) for it in ("uring_record", "shared"))
# Whether a program that has no `diff` fails here; if not, the comparison in this file stands alone.
NEEDS_DIFF = True
# What sixteen.c ends with where the kernel lacks what it needs, and the recorder where it failed.
UNTRIED, FAILED = 77, 125
SECONDS = 60
SECTIONS = {"dir": "tree", "file": "tree", "slot": "slots", "descriptor": "slots", "buffer": "buffers"}
HEADINGS = ("uring-report", "ring", "tree", "slots", "buffers", "end")
PARTS = ("entries", "tree", "slots", "buffers")
RUNS: Sequence[Sequence[str]] = (["run"], ["run", "--workers", "2", "--window", "4"])


# --- Two reports, compared ----------------------------------------------------------------------------------------

class Line(NamedTuple):
    """A line of a report: the part that it belongs to, what it is about, and what it says of it."""

    part: str
    subject: Tuple[str, ...]
    facts: Dict[str, str]
    text: str


class Compared(NamedTuple):
    """How many lines of each part are equal, different, unchecked and given, what differs, and how many entries read bytes, how many sums and how many
    large files are not compared, since one report does not have them."""

    counts: Dict[str, List[int]]
    differing: List[str]
    lacks: List[int]

    def lines(self) -> str:
        told = "".join("{} {} equal, {} different, {} unchecked, {} given\n".format(part, *self.counts[part]) for part in PARTS)
        return told + ("not compared: data {} entries, sums {}, large {}\n".format(*self.lacks) if any(self.lacks) else "")


def line_of(text: str) -> Line:
    words = text.split(" ")
    length = {"slot": 3, "buffer": 3, "ring": 2, "dir": 2, "file": 2, "descriptor": 2}.get(words[0], 1)
    facts = {}
    for word in words[length:]:
        name, equals, value = word.partition("=")
        facts[name if equals else ""] = value if equals else word
    return Line(SECTIONS.get(words[0], "entries"), tuple(words[:length]), facts, text)


def read_report(text: str) -> Tuple[Dict[Tuple[str, ...], Line], List[str]]:
    """The lines of a report by their subjects, without headings, and the parts that it has."""
    lines = [line_of(line) for line in text.split("\n")[:-1]]
    parts = ["entries", *(it.subject[0] for it in lines if it.subject[0] in PARTS)]
    return {it.subject: it for it in lines if it.subject[0] not in HEADINGS}, parts


def agree(one: Line, other: Line) -> bool:
    return all(other.facts.get(name, value) == value for name, value in one.facts.items())


def is_unchecked(it: Optional[Line]) -> bool:
    return it is not None and ("unchecked" in it.facts or it.facts.get("completion") == "unseen")


def lacking(one: Line, other: Line) -> Tuple[bool, bool, bool]:
    """Whether the bytes of an entry, a sum and the bytes of a large file are not compared."""
    both = (one.facts, other.facts)
    is_read = all("data-sum" in it for it in both) or all(not it.get("data", "+").endswith("+") for it in both)
    is_large = all(it.get("sum") == "large" for it in both) and not all("tree-sum" in it for it in both)
    return any("data" in it or "data-sum" in it for it in both) and not is_read, ("sum" in one.facts) != ("sum" in other.facts), is_large


def compared(report: str, kernel: str) -> Compared:
    """Each line of either text: equal, different, unchecked or given."""
    (ours, our_parts), (theirs, their_parts) = read_report(report), read_report(kernel)
    counts = {part: [0, 0, 0, 0] for part in PARTS}
    differing, lacks = [], [0, 0, 0]
    for subject in [*ours, *(it for it in theirs if it not in ours)]:
        one, other = ours.get(subject), theirs.get(subject)
        part = (one or other).part
        if part not in our_parts or part not in their_parts:
            continue
        is_pair = one is not None and other is not None
        if is_unchecked(one) or is_unchecked(other):
            counts[part][2] += 1
        elif is_pair and agree(one, other) and "1" in (one.facts.get("given"), other.facts.get("given")):
            counts[part][3] += 1
        else:
            is_equal = is_pair and agree(one, other)
            counts[part][0 if is_equal else 1] += 1
            differing += [] if is_equal else [sign + it.text for sign, it in (("- ", one), ("+ ", other)) if it]
            lacks = [count + lack for count, lack in zip(lacks, lacking(one, other))] if is_pair else lacks
    return Compared(counts, differing, lacks)


# --- Recorded traces ----------------------------------------------------------------------------------------------

def read_file(path: str) -> bytes:
    with open(path, "rb") as file:
        return file.read()


def diff(program: Program, report: bytes, kernel: bytes, wanted: str, label: str) -> Outcome:
    """The program's own comparison: status 0 and the same counts."""
    got = program.run(["diff"], report + kernel)
    name = "{}: diff by {}".format(label, program.compiler)
    if got.status == 2 and not NEEDS_DIFF:
        return Outcome(name, skipped="the program has no diff")
    is_well = got.status == 0 and not got.errors and got.output.decode("utf-8", "replace").endswith(wanted)
    return Outcome(name, None if is_well else "{}; wanted status 0 and {!r}".format(shown(got), wanted))


def replayed(program: Program, trace: bytes, kernel: bytes, wanted: Optional[str], label: str) -> List[Outcome]:
    """A recorded trace by one program. Without counts that are wanted, nothing may differ."""
    checked = program.run(["check"], trace)
    is_accepted = checked.status == 0 and checked.output.startswith(b"ok ")
    serial, sums = program.run(["serial"], trace), program.run(["serial", "--sums"], trace)
    outcomes = [Outcome("{}: check by {}".format(label, program.compiler), None if is_accepted else shown(checked))]
    for words, answer in ((["compare"], Answer(0, b"equal\n", b"")), (["run", "--sums"], sums), *((it, serial) for it in RUNS)):
        got = program.run(words, trace)
        outcomes.append(Outcome("{}: {} by {}".format(label, spoken(words), program.compiler), difference(got, answer)))
    found = compared(sums.output.decode("utf-8", "replace"), kernel.decode("utf-8", "replace"))
    fault = shown(sums) if sums.status else first(found.differing)
    if not fault and wanted is not None and found.lines() != wanted:
        fault = "it has {!r}, wanted {!r}".format(found.lines(), wanted)
    if not fault and not found.counts["entries"][0]:
        fault = "there is no entry to compare"
    outcomes.append(Outcome("{}: as the kernel, by {}".format(label, program.compiler), fault))
    outcomes.append(diff(program, sums.output, kernel, found.lines(), label))
    return outcomes


def recorded(program: Program, path: str) -> List[Outcome]:
    name = os.path.relpath(path, EXAMPLES)
    try:
        trace, kernel, wanted = (read_file(path + ending) for ending in (".trace", ".kernel", ".diff"))
    except FileNotFoundError as error:
        return [Outcome("{} by {}".format(name, program.compiler), "{} is missing".format(error.filename))]
    return replayed(program, trace, kernel, wanted.decode(), name)


def by_second_replayer(path: str) -> List[Outcome]:
    """The second replayer agrees with the kernel as the program does."""
    trace, kernel, wanted = (read_file(path + ending) for ending in (".trace", ".kernel", ".diff"))
    found = compared(model_records.report(trace).decode(), kernel.decode())
    fault = None if found.lines() == wanted.decode() else "it has {!r}, wanted {!r}".format(found.lines(), wanted.decode())
    return [Outcome("{}: by the second replayer".format(os.path.relpath(path, EXAMPLES)), fault)]


# --- The recorder -------------------------------------------------------------------------------------------------

class Tools:
    """The recorder and the programs of its test, built into a folder that goes with it."""

    def __init__(self) -> None:
        self.folder = tempfile.TemporaryDirectory(prefix="uring-record-test-")

    def file(self, name: str) -> str:
        return os.path.join(self.folder.name, name)

    def lacking(self) -> Optional[str]:
        """Builds them, or says why they cannot be built."""
        compiler = os.environ.get("CC") or next((it for it in ("cc", "gcc", "clang") if shutil.which(it)), "")
        if not compiler:
            return "there is no C compiler"
        sources = [os.path.join(at, it) for at in (SOURCES, SHARED) for it in sorted(os.listdir(at)) if it.endswith(".c")]
        tests = {it: [os.path.join(SOURCES, "test", it + ".c")] for it in ("sixteen", "sums")}
        tests["sums"].append(os.path.join(SHARED, "sha256.c"))
        for name, files in {"uring_record": sources, **tests}.items():
            words = [*compiler.split(), "-std=gnu11", "-D_GNU_SOURCE", "-O1", "-I", SOURCES, "-I", SHARED, "-o", self.file(name), *files]
            try:
                ran = subprocess.run(words, stdin=subprocess.DEVNULL, stdout=subprocess.PIPE, stderr=subprocess.STDOUT)
            except OSError as error:
                return "the C compiler {} does not run: {}".format(compiler, error.strerror)
            if ran.returncode:
                return "the C compiler made no {}: {}".format(name, ran.stdout.decode("utf-8", "replace")[-300:])
        return None

    def record(self, words: Sequence[str], command: Sequence[str], name: str) -> Answer:
        """Records a command in an empty directory; its trace and results are of-NAME.trace and of-NAME.kernel."""
        root = self.file("of-" + name)
        os.mkdir(root)
        given = [self.file("uring_record"), "-o", root + ".trace", "-k", root + ".kernel", *words, "--", *command]
        return ran_in(root, given)


def ran_in(folder: str, words: Sequence[str], given: bytes = b"") -> Answer:
    ran = subprocess.run(words, cwd=folder, input=given, stdout=subprocess.PIPE, stderr=subprocess.PIPE, timeout=SECONDS)
    return Answer(ran.returncode, ran.stdout, ran.stderr)


def lacking_in_system(tools: Tools) -> Optional[str]:
    """Why nothing can be recorded here, found out by trying."""
    os.mkdir(tools.file("tried"))
    alone = ran_in(tools.file("tried"), [tools.file("sixteen")])
    if alone.status == UNTRIED:
        return "the kernel gives no io_uring, or lacks an opcode: {}".format(alone.errors.decode("utf-8", "replace").strip())
    traced = tools.record([], ["true"], "true")
    said = traced.errors.decode("utf-8", "replace").strip()
    return "the command cannot be traced: {}".format(said) if traced.status == FAILED else None


def sixteen(tools: Tools, programs: List[Program], words: Sequence[str]) -> List[Outcome]:
    """All sixteen calls, recorded, replayed and compared."""
    label = "the sixteen calls, {}".format(spoken(words))
    name = "sixteen" + "".join(words)
    got = tools.record(words, [tools.file("sixteen")], name)
    said = got.errors.decode("utf-8", "replace")
    if got.status:
        return [Outcome(label, shown(got))]
    faults = ["it lacks {!r}".format(it) for it in (SAID_OF_2 if "--format" in words else SAID) if it not in said]
    if (ORDER in said) == ("--drain" in words):
        faults.append("with --drain, and only there, entries are in order: {!r}".format(said))
    outcomes = [Outcome(label + ": the summary", first(faults))]
    trace, kernel = (read_file(tools.file("of-" + name + it)) for it in (".trace", ".kernel"))
    for opcode in (0, 1, 2, 3, 4, 5, 17, 18, 19, 22, 23, 35, 36, 37, 39, 55):
        told = " op={} submitted=".format(opcode).encode() in kernel
        outcomes.append(Outcome("{}: opcode {} is told".format(label, opcode), None if told else "no line has op={}".format(opcode)))
    for program in programs:
        outcomes += replayed(program, trace, kernel, None, label)
    return outcomes


# What the summary of sixteen.c has to say: an entry outside, a position that lseek(2) moved, two in flight at once.
SAID, SAID_OF_2 = ("opcode 1", " and 1 seek between submissions"), ("opcode 1", "a position that ordinary calls moved is made right")
ORDER = "requests in flight at once touch the same name"


def statuses(tools: Tools) -> List[Outcome]:
    """The command's own status is passed on; 125 to 127 are the recorder's."""
    plain = tools.file("plain")
    with open(plain, "wb"):
        pass
    cases = (
        ("the command's status", [], ["sh", "-c", "exit 3"], 3),
        ("a signal that ends the command", [], ["sh", "-c", "kill -9 $$"], 137),
        ("a command that is not there", [], ["/nonexistent/command"], 127),
        ("a command that cannot be executed", [], [plain], 126),
        ("no command", [], [], FAILED),
        ("a wrong option", ["--bogus"], ["true"], FAILED),
        ("a root that is not there", ["--root", "/nonexistent"], ["true"], FAILED),
        ("a root that is the system's", ["--root", "/"], ["true"], FAILED),
        ("a file that cannot be written", ["--output", "/nonexistent/a.trace"], ["true"], FAILED),
    )
    outcomes = []
    for at, (label, words, command, wanted) in enumerate(cases):
        got = tools.record(words, command, "status{}".format(at))
        is_well = got.status == wanted and (wanted not in (FAILED, 126, 127) or b"uring_record: " in got.errors)
        outcomes.append(Outcome("the recorder: {}".format(label), None if is_well else "{}, wanted status {}".format(shown(got), wanted)))
    helped = ran_in(tools.folder.name, [tools.file("uring_record"), "--help"])
    is_well = helped.status == 0 and not helped.errors and helped.output.startswith(b"Usage: uring_record ")
    return [*outcomes, Outcome("the recorder: --help", None if is_well else shown(helped))]


# FIPS 180-4's examples, and those of the cryptographic toolkit of NIST for it.
VECTORS = (
    (b"", "e3b0c44298fc1c149afbf4c8996fb92427ae41e4649b934ca495991b7852b855"),
    (b"abc", "ba7816bf8f01cfea414140de5dae2223b00361a396177a9cb410ff61f20015ad"),
    (b"abcdbcdecdefdefgefghfghighijhijkijkljklmklmnlmnomnopnopq", "248d6a61d20638b8e5c026930c3e6039a33ce45964ff2167f6ecedd419db06c1"),
    (b"a" * 1000000, "cdc76e5c9914fb9281a1c7e284d73e67f1809a48a497200e046d39ccc7112cd0"),
)


def sha256(tools: Tools) -> List[Outcome]:
    """The recorder's SHA-256 by the known vectors, and by Python's at each length about a block, in pieces of any size."""
    faults = []
    lengths = [*range(50, 70), 119, 120, 128]
    cases = [(text, sum, piece) for text, sum in VECTORS for piece in ("64", "1000")]
    cases += [(text, hashlib.sha256(text).hexdigest(), "7") for text in (bytes(range(it)) for it in lengths)]
    for text, wanted, piece in cases:
        got = ran_in(tools.folder.name, [tools.file("sums"), piece], text)
        if got != Answer(0, wanted.encode() + b"\n", b""):
            faults.append("{} bytes: {}, wanted {}".format(len(text), shown(got), wanted))
    return [Outcome("the recorder: sha256", first(faults))]


def recorder(programs: List[Program]) -> List[Outcome]:
    """The recorder's own test."""
    tools = Tools()
    lacking = tools.lacking()
    if lacking:
        return skipped("the recorder", lacking)
    outcomes = sha256(tools)
    lacking = lacking_in_system(tools)
    if lacking:
        return outcomes + skipped("the recorder", lacking)
    for words in ([], ["--drain"], ["--wait"], ["--format", "2"]):
        outcomes += sixteen(tools, programs, words)
    return outcomes + statuses(tools)


def traces_in(folder: str) -> List[str]:
    """The paths of the recordings of a folder, without their ending."""
    return [os.path.join(folder, it[:-6]) for it in sorted(os.listdir(folder)) if it.endswith(".trace")]


def strays(folder: str) -> List[Outcome]:
    """Whether each file beside the recorded traces belongs to one."""
    traces = traces_in(folder)
    beside = (os.path.join(folder, it) for it in sorted(os.listdir(folder)) if it.endswith((".kernel", ".diff")))
    outcomes = [Outcome(os.path.relpath(it, EXAMPLES), "it belongs to no trace") for it in beside if it.rsplit(".", 1)[0] not in traces]
    return outcomes if traces else [*outcomes, Outcome(os.path.relpath(folder, EXAMPLES), "there is no trace in it")]


def jobs(programs: List[Program]) -> List[Job]:
    each = [partial(recorded, program, path) for program in programs for folder in FOLDERS.values() for path in traces_in(folder)]
    second = [partial(by_second_replayer, it) for it in traces_in(FOLDERS["3"])]
    return [*(partial(strays, it) for it in FOLDERS.values()), partial(recorder, programs), *second, *each]
