"""What the recorder does not know is marked: programs that are recorded, replayed and compared with what the kernel gave."""
import hashlib
import math
import os
import re
import shutil
import subprocess
import sys
import tempfile
import time
from functools import partial
from typing import Dict, List, NamedTuple, Optional, Sequence

import recorder
from harness import TOP, Answer, Job, Outcome, Program, first, say, shown, skipped, spoken
from mounted import Passthrough
from recorded import SHARED, SOURCES, UNTRIED, Tools, lacking_in_system, ran_in, read_file

# Each mode of marks.c, or of ordinary.c: in version 2 why entries are outside, in version 3 why they are given or outside, and how many lines of entries
# are equal there at least, or given and alike. Where it is whole, nothing is outside in version 3.
class Mode(NamedTuple):
    name: str
    marks: Sequence[str] = ()
    given: Sequence[str] = ()
    marks_of_3: Sequence[str] = ()
    equal: int = 1
    program: str = "marks"
    is_whole: bool = False


MODES = (
    Mode("through_a_link", ["path"], ["path"], equal=60),
    Mode("links", ["opcode", "link"], ["opcode", "link"], equal=3, is_whole=True),
    Mode("elsewhere", ["path", "descriptor"], ["path", "descriptor"], equal=8),
    # (version 3 tells the slot that the kernel chose, and the file that a slot got by such an opcode)
    Mode("chosen_slots", ["slot", "descriptor"], ["slot"], equal=20),
    Mode("open_by_how", ["opcode", "descriptor"], ["opcode"], equal=8),
    Mode("passed_on", ["opcode", "descriptor"], ["opcode", "descriptor"], equal=6),
    Mode("beyond", ["descriptor"], ["descriptor"], ["changed"], 6),
    Mode("alike", ["opcode", "user"], ["opcode"], ["order"], 6),
    Mode("alike_given", ["user", "descriptor"], marks_of_3=["user", "chain"], equal=1),
    Mode("into_the_queue", ["changed"], marks_of_3=["changed"]),
    Mode("unseen", ["descriptor", "chain"], ["descriptor"], ["unseen"], 5),
    # (no completion of it is seen)
    Mode("many_completions", ["opcode"], ["opcode"], equal=0),
    Mode("refused", ["system", "memory", "flags", "polled"], ["system", "memory", "flags", "polled"], equal=5),
    Mode("chains", ["chain", "opcode", "descriptor"], ["opcode"], equal=8),
    Mode("other_root", equal=3),
    Mode("huge", ["large", "descriptor"], ["large", "descriptor"], ["large"], 5),
    Mode("ends_meanwhile"),
    Mode("closed_meanwhile", equal=0),
    Mode("changed_meanwhile", equal=90),
    # (what these wrote is in their file)
    Mode("written_late", equal=9),
    Mode("written_away", ["late"], marks_of_3=["late"], equal=3),
    Mode("paths", equal=25, program="ordinary"),
    Mode("appends", equal=22, program="ordinary"),
    Mode("by_process", ["changed"], marks_of_3=["changed"], equal=14, program="ordinary"),
    Mode("by_handle", equal=5, program="ordinary"),
    Mode("made", equal=12, program="ordinary"),
    Mode("named_late", ["descriptor", "path"], ["descriptor"], ["path"], 3, "ordinary"),
    Mode("ranges", ["changed"], marks_of_3=["changed"], equal=5, program="ordinary"),
    Mode("clears", ["changed"], marks_of_3=["changed"], program="ordinary"),
    Mode("clones", ["changed"], marks_of_3=["changed"], equal=4, program="ordinary"),
    Mode("submits", ["changed"], marks_of_3=["changed"], program="ordinary"),
    Mode("own_names", ["changed"], marks_of_3=["changed"], equal=3, program="ordinary"),
    Mode("over_links", ["link"], ["link"], equal=40, is_whole=True),
    Mode("links_in_chains", ["opcode", "link", "path", "chain"], ["opcode", "link", "path", "chain"], equal=14, is_whole=True),
)
# Where a directory is after such entries is not known, and so the results have no tree.
NO_TREE = Mode("moved_beside", ["order"], marks_of_3=["order"], equal=0)
# Names, links among them, that are made, moved and taken away as they are drawn.
SEEDS = range(12)
VERSION_2 = ["--format", "2"]
OPTIONS: Sequence[Sequence[str]] = ([], ["--drain"], ["--wait"], VERSION_2, [*VERSION_2, "--nop"], ["--version-1"])
# What recording may cost: so many reads of memory an entry by depth, beside those of the start, which are the same on every machine;
# and so many times the program alone. Machines differ in what a stop costs, from 2 to 3 times at depth 32, so that is a bound of the order.
READS_AT_DEPTH, START, AT_DEPTH_32 = {1: 3.0, 32: 0.1}, 50, 5.0
# By how many runs each; and by how many more, with a pause before each, where that is not so, as other programs may be busy for a while.
TRIES, MORE_TRIES, PAUSE = 12, 30, 1.0


class Recording(NamedTuple):
    """What was recorded of a program, and what its replay gives beside it."""

    got: Answer
    kernel: str
    compared: Answer


def build(tools: Tools, names: Sequence[str]) -> Optional[str]:
    """Builds programs of the test folder; says why that fails."""
    compiler = os.environ.get("CC") or next((it for it in ("cc", "gcc", "clang") if shutil.which(it)), "")
    for name in names:
        source = os.path.join(SOURCES, "test", name + ".c")
        words = [*compiler.split(), "-std=gnu11", "-D_GNU_SOURCE", "-O1", "-I", SOURCES, "-I", SHARED, "-o", tools.file(name), source, "-lpthread"]
        ran = subprocess.run(words, stdin=subprocess.DEVNULL, stdout=subprocess.PIPE, stderr=subprocess.STDOUT)
        if ran.returncode:
            return "the C compiler made no {}: {}".format(name, ran.stdout.decode("utf-8", "replace")[-300:])
    return None


def record(tools: Tools, program: Program, name: str, words: Sequence[str], command: Sequence[str]) -> Recording:
    """Records a command in a directory of its own, and compares."""
    try:
        got = tools.record(words, command, name)
    except subprocess.TimeoutExpired:
        return Recording(Answer(-1, b"", b"it does not end"), "", Answer(-1, b"", b""))
    path = tools.file("of-" + name)
    if not os.path.exists(path + ".kernel"):
        return Recording(got, "", Answer(-1, b"", got.errors))
    sums = program.run(["serial", "--sums"], path + ".trace")
    kernel = read_file(path + ".kernel")
    return Recording(got, kernel.decode("utf-8", "replace"), program.run(["diff"], sums.output + kernel))


def equal_entries(compared: Answer) -> int:
    """How many lines of entries are equal, or given and alike."""
    found = re.search(rb"^entries (\d+) equal, \d+ different, \d+ unchecked, (\d+) given$", compared.output, re.M)
    return int(found[1]) + int(found[2]) if found else -1


def mode(tools: Tools, program: Program, mode: Mode, words: Sequence[str]) -> Outcome:
    """One program: nothing differs, what is said to be outside is, and what is told stays told."""
    label = "marks: {}, {}".format(mode.name, spoken(words))
    made = record(tools, program, mode.name + "".join(words), words, [tools.file(mode.program), mode.name])
    if made.got.status == UNTRIED:
        return Outcome(label, skipped=made.got.errors.decode("utf-8", "replace").split("\n")[0])
    if made.got.status or made.compared.status:
        return Outcome(label, "{}; diff: {}".format(shown(made.got), shown(made.compared)))
    if words not in ([], VERSION_2):
        return Outcome(label)
    lacking = [it for it in (mode.marks if words else mode.marks_of_3) if "unchecked={}".format(it) not in made.kernel]
    faults = ["no line has unchecked={}".format(it) for it in lacking]
    if not words:
        said = re.search(rb"^uring_record: given: \d+(.*)$", made.got.errors, re.M)
        faults += ["none is given by " + it for it in mode.given if not said or ", {} ".format(it).encode() not in said[1]]
        faults += ["it is outside, and given: " + it for it in entry_lines(made.kernel) if " given=1" in it and " unchecked=" in it]
        if equal_entries(made.compared) < mode.equal:
            faults.append("fewer than {} entries are equal: {}".format(mode.equal, shown(made.compared)))
        faults += ["it is outside: " + it for it in made.kernel.split("\n") if mode.is_whole and " unchecked=" in it]
    return Outcome(label, first(faults))


def drawn(tools: Tools, program: Program, seed: int) -> Outcome:
    """Any names: no line of the replay differs."""
    words = [[], VERSION_2][seed % 2]
    label = "marks: any_links {}, {}".format(seed, spoken(words))
    made = record(tools, program, "any_links{}".format(seed), words, [tools.file("marks"), "any_links", str(seed)])
    return Outcome(label, "{}; diff: {}".format(shown(made.got), shown(made.compared)) if made.got.status or made.compared.status else None)


def entry_lines(kernel: str) -> List[str]:
    return [it for it in kernel.split("\n") if it[:1].isdigit()]


# What a shell and git do to a tree behind one read of a ring.
SCRIPT = """set -e
"$0" reads
git init -q .
git config user.email a@b && git config user.name a && git config gc.auto 0
mkdir -p src/sub/ && echo text > src/a && cp src/a src/sub/b && mv src/sub/ src/other/ && mkdir none/ && rmdir none/
git add . && git commit -qm one && echo more >> src/a && git commit -qam two && git branch -q side && git checkout -q side
git mv src/a src/c && git commit -qm three && git checkout -q - && git merge -q side && git tag -a -m tag v1 && git gc -q && git prune
cd src && ln ../src/c ../d && rm -rf ../src/other/ && cd ..
cp -r src copy/ && mv copy/ moved/ && rm -rf src/
"""


def shell_and_git(tools: Tools, program: Program) -> List[Outcome]:
    """Many ordinary calls: all of them are told, and nothing differs."""
    outcomes = []
    for words in ([], VERSION_2):
        label = "marks: a shell and git, {}".format(spoken(words))
        if not shutil.which("git"):
            outcomes += skipped(label, "there is no git")
            continue
        made = record(tools, program, "git" + "".join(words), words, ["sh", "-c", SCRIPT, tools.file("ordinary")])
        fault = None if not made.got.status and not made.compared.status and " unchecked=" not in made.kernel else "{}; diff: {}".format(shown(made.got), shown(made.compared))
        outcomes.append(Outcome(label, fault or (None if equal_entries(made.compared) > 200 else "few entries are equal: {}".format(shown(made.compared)))))
    return outcomes


def facts(tools: Tools) -> List[Outcome]:
    """What the lines of entries have: a completion that was not seen, and times."""
    kernel = read_file(tools.file("of-unseen") + ".kernel").decode()
    faults = []
    unseen = [it for it in entry_lines(kernel) if "completion=unseen" in it]
    if len(unseen) < 30:
        faults.append("{} lines have completion=unseen".format(len(unseen)))
    faults += ["it tells more: " + it for it in unseen if re.search(r" (res=|posted|silent|completed=)", it)]
    for line in entry_lines(kernel):
        submitted, completed = re.search(r" submitted=(\d+)", line), re.search(r" completed=(\d+)$", line)
        if "by=recorder" in line:
            continue
        if not submitted or (" posted" in line) != bool(completed):
            faults.append("it lacks a time: " + line)
        elif completed and int(completed[1]) < int(submitted[1]):
            faults.append("it completed before it was submitted: " + line)
    return [Outcome("marks: completions that are not seen, and times", first(faults))]


def no_tree(tools: Tools, program: Program) -> List[Outcome]:
    """A directory of which it is not known where it is: the results tell no tree."""
    outcomes = [mode(tools, program, NO_TREE, words) for words in ([], VERSION_2)]
    told = [name for name in ("moved_beside", "moved_beside" + "".join(VERSION_2)) if "\ntree\n" in read_file(tools.file("of-" + name) + ".kernel").decode()]
    return [*outcomes, Outcome("marks: no tree where a directory is in doubt", "there is one: {}".format(told) if told else None)]


def seldom_told(tools: Tools) -> Outcome:
    """Bytes that another thread changes all the time are not told, but where it was not running (they are compared then)."""
    kernel = read_file(tools.file("of-changed_meanwhile") + ".kernel").decode()
    told = [it for it in entry_lines(kernel) if " data=" in it and " op=22" in it]
    return Outcome("marks: bytes that another thread changes", "{} reads of 100 are told".format(len(told)) if len(told) > 20 else None)


def plot(tools: Tools) -> Outcome:
    """The plot of docs/RECORDING.md draws a bar for each entry that completed."""
    with open(os.path.join(TOP, "docs", "RECORDING.md"), encoding="utf-8") as file:
        script = re.search(r"```python\n(.*?)```", file.read(), re.S)
    kernel = read_file(tools.file("of-through_a_link") + ".kernel")
    got = ran_in(tools.folder.name, [sys.executable, "-c", script[1] if script else ""], kernel)
    is_well = got.status == 0 and got.output.count(b"<rect ") == kernel.count(b" completed=") > 0
    return Outcome("marks: the plot of the times", None if is_well else shown(got))


# --- Sums of large files --------------------------------------------------------------------------------------------

PIECE = 1 << 24
# What sums of holes may take in processor time: 64 GiB that are read and hashed take several times that.
MOST_SECONDS = 30


def tree_sum(path: str) -> str:
    """By docs/FORMAT.md: the sum of the sums of the pieces of 16 MiB."""
    whole = hashlib.sha256()
    with open(path, "rb") as file:
        for piece in iter(lambda: file.read(PIECE), b""):
            whole.update(hashlib.sha256(piece).digest())
    return whole.hexdigest()


def all_sums(tools: Tools) -> Outcome:
    """--all-sums adds tree sums to files over 16 MiB, and only then."""
    root = tools.file("sums-root")
    os.mkdir(root)
    sizes = {"edge": PIECE, "over": PIECE + 1, "two": 2 * PIECE, "holes": 5 * PIECE + 7}
    for name, size in sizes.items():
        with open(os.path.join(root, name), "wb") as file:
            file.truncate(size)
            for at in (0, size - 1) if name != "holes" else (3 * PIECE + 5, size - 1):
                file.seek(at)
                file.write(b"x")
    seconds = 0.0
    with open(os.path.join(root, "sparse"), "wb") as file:
        file.truncate(1 << 36)
    faults = []
    for words in ([], ["--all-sums"]):
        given = [tools.file("uring_record"), *words, "-o", root + ".trace", "-k", root + ".kernel", "--", "true"]
        got = recorder.ran_in(root, given)
        seconds += got.seconds
        lines = [] if got.status else read_file(root + ".kernel").decode().split("\n")
        for name, size in sizes.items():
            told = "sum=large" if size > PIECE else "sum="
            wanted = " tree-sum=" + tree_sum(os.path.join(root, name)) if words and size > PIECE else ""
            line = next((it for it in lines if it.startswith("file /{} size={} {}".format(name, size, told))), "")
            if not line or line.partition(told)[2] != wanted and size > PIECE or "tree-sum" in line and not wanted:
                faults.append("{}: {!r}, wanted {!r}".format(spoken(words), line, wanted))
    zeros = hashlib.sha256(hashlib.sha256(bytes(PIECE)).digest() * (1 << 12)).hexdigest()
    if "file /sparse size={} sum=large tree-sum={}".format(1 << 36, zeros) not in lines:
        faults.append("a file of holes has another sum")
    if seconds > MOST_SECONDS:
        faults.append("holes are read: it took {:.0f} seconds".format(seconds))
    return Outcome("marks: --all-sums", first(faults))


# --- Sums of reads --------------------------------------------------------------------------------------------------

CONTENT = bytes((7 * at + at // 256) % 251 for at in range(10_000)) + bytes(10_000)
# By user_data the bytes of each read of tools/uring_record/test/reads.c that has a sum: those of few bytes, of vectors that share memory and of more
# than may wait to be summed have none.
SUMMED: Dict[int, bytes] = {1: CONTENT[10:110], 3: CONTENT[200:245], 4: CONTENT[300:360], 6: CONTENT[500:564], 7: CONTENT[600:603],
                            **{8 + at: CONTENT[1_000 * at:1_000 * at + 1_000] for at in range(8)}, 17: CONTENT[8_000:13_000]}
UNSUMMED = (b"a read whose vectors share memory: its bytes are not told", b"a read of more bytes than can wait to be summed: they have no sum")
WITH_SUMS = (([], True), (["--wait"], True), (VERSION_2, True), (["--no-read-sums"], False), (["--no-data"], False))


def read_sums(tools: Tools, program: Program, words: Sequence[str], has_sums: bool) -> Outcome:
    """One recording: the sums are those of the bytes, and nothing differs from its replay."""
    label = "marks: sums of reads, {}".format(spoken(words))
    made = record(tools, program, "reads" + "".join(words), words, [tools.file("reads")])
    if made.got.status == UNTRIED:
        return Outcome(label, skipped=shown(made.got))
    if made.got.status or made.compared.status:
        return Outcome(label, "{}; diff: {}".format(shown(made.got), shown(made.compared)))
    faults = other_sums(made.kernel, SUMMED if has_sums else {})
    faults += ["it lacks the note {!r}".format(it) for it in UNSUMMED if has_sums and it not in made.got.errors]
    return Outcome(label, first(faults))


def other_sums(kernel: str, brought: Dict[int, bytes]) -> List[str]:
    """What of the sums of results are not those of these bytes, which stand by user_data."""
    found = {int(user): text for user, text in re.findall(r"^\d+ (?:ring=\d+ )?user=(\d+) .* data-sum=([0-9a-f]{64}) ", kernel, re.M)}
    wanted = {user: hashlib.sha256(it).hexdigest() for user, it in brought.items()}
    return ["entry {}: {}, wanted {}".format(it, found.get(it), wanted.get(it)) for it in sorted({*found, *wanted}) if found.get(it) != wanted.get(it)]


def wrong_reads(tools: Tools, program: Program) -> Outcome:
    """Recorded through a file system that changes the last byte of each read of 33 to 4,096 bytes: the sums are those of the wrong bytes, and a report
    with sums of reads differs in these lines alone."""
    label, path = "marks: sums of reads, of wrong bytes", tools.file("wrong")
    with Passthrough(["corrupt"]) as there:
        if there.lacking:
            return Outcome(label, skipped=there.lacking)
        got = ran_in(there.mount, [tools.file("uring_record"), "-o", path + ".trace", "-k", path + ".kernel", "--", tools.file("reads")])
    if got.status:
        return Outcome(label, shown(got))
    kernel, report = read_file(path + ".kernel"), program.run(["serial", "--sums"], path + ".trace").output
    wrong = {user: it[:-1] + bytes([it[-1] ^ 1]) for user, it in SUMMED.items() if 32 < len(it) <= 4_096}
    compared = program.run(["diff"], report + kernel)
    differing = len(wrong) if b" data-sum=" in report else 0
    is_well = re.search(rb"^entries \d+ equal, %d different" % differing, compared.output, re.M) and re.search(rb"^tree \d+ equal, 0 different", compared.output, re.M)
    return Outcome(label, first(other_sums(kernel.decode(), {**SUMMED, **wrong})) or (None if is_well else shown(compared)))


# --- Cost -----------------------------------------------------------------------------------------------------------

def submitted(tools: Tools, words: Sequence[str], before: Sequence[str]) -> Dict[str, float]:
    """Runs the submitter; gives nanoseconds an entry, and how often the recorder read its memory."""
    with tempfile.TemporaryDirectory(dir=tools.folder.name) as root:
        try:
            got = ran_in(root, [*before, tools.file("submitter"), *words])
        except subprocess.TimeoutExpired:
            return {"entry": math.inf, "reads": math.inf}
    found = re.search(rb"entry (\d+)", got.output)
    said = re.search(rb"(\d+) reads of memory", got.errors)
    return {"entry": float(found[1]) if found else math.inf, "reads": float(said[1]) if said else math.inf}


def times(tools: Tools, words: Sequence[str], before: Sequence[str], beside: Sequence[str], wanted: float) -> float:
    """How many times as long the submitter takes under one command as under another: the least of each, from as many runs as
    it takes to be what is wanted, since other programs of this machine only make a run longer."""
    one, other = math.inf, math.inf
    for tried in range(TRIES + (MORE_TRIES if wanted else 0)):
        if tried >= TRIES:
            time.sleep(PAUSE)
        one = min(one, submitted(tools, words, before)["entry"])
        other = min(other, submitted(tools, words, beside)["entry"])
        if one <= wanted * other:
            break
    return one / other if other < math.inf else math.inf


def cost(tools: Tools) -> List[Outcome]:
    """What recording costs: reads of memory an entry, and time at depth 32 beside the program alone."""
    path = tools.file("cost")
    recording = [tools.file("uring_record"), "--verbose", "-o", path + ".trace", "-k", path + ".kernel", "--"]
    outcomes = []
    for kind in ("read", "write"):
        for depth, most in READS_AT_DEPTH.items():
            count = 4000 if depth == 1 else 8000
            reads = (submitted(tools, [kind, str(depth), str(count)], recording)["reads"] - START) / count
            fault = None if reads <= most else "{:.2f} an entry".format(reads)
            outcomes.append(Outcome("cost: {} at depth {}, reads of memory an entry".format(kind, depth), fault))
        found = times(tools, [kind, "32", "8000"], recording, [], AT_DEPTH_32)
        say("cost: {} at depth 32 takes {:.1f} times as long as alone".format(kind, found))
        fault = None if found <= AT_DEPTH_32 else "{:.2f} times the program alone".format(found)
        outcomes.append(Outcome("cost: {} at depth 32".format(kind), fault))
    beside = times(tools, ["read", "1", "4000"], recording, [tools.file("stops")], 0.0)
    say("cost: at depth 1 recording takes {:.1f} times as long as a tracer that only stops and goes on".format(beside))
    return outcomes


def marked(programs: List[Program]) -> List[Outcome]:
    tools = Tools()
    lacking = tools.lacking() or build(tools, ("marks", "ordinary", "reads", "stops", "submitter"))
    if lacking:
        return skipped("the recorder's marks", lacking)
    outcomes = [all_sums(tools)]
    lacking = lacking_in_system(tools)
    if lacking:
        return outcomes + skipped("the recorder's marks", lacking)
    program = programs[0]
    for words in OPTIONS:
        outcomes += [mode(tools, program, it, words) for it in MODES]
    outcomes += [drawn(tools, program, it) for it in SEEDS]
    outcomes += [*(read_sums(tools, program, *it) for it in WITH_SUMS), wrong_reads(tools, program)]
    outcomes += no_tree(tools, program)
    return [*outcomes, *shell_and_git(tools, program), *facts(tools), seldom_told(tools), plot(tools), *cost(tools)]


def jobs(programs: List[Program]) -> List[Job]:
    return [partial(marked, programs)]
