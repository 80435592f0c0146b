"""The recorder harms no program, and tells its limits: programs alone and recorded, and what is written of them."""
import math
import os
import re
import resource
import shutil
import signal
import subprocess
import tempfile
import time
from functools import partial
from threading import Lock, Timer
from typing import Callable, Dict, List, NamedTuple, Optional, Sequence, Tuple

from harness import MOST_RUNS, Answer, Job, Outcome, Program, first, shown, skipped, spoken
from recorded import SHARED, SOURCES, UNTRIED, Tools, lacking_in_system, read_file

# Versions 1 and 2 of the trace have other limits than version 3, and are written in another way: at the end.
VERSION_2 = ["--format", "2"]
# Nothing here takes longer by itself: what does, hangs.
SECONDS = 60
SIGNALLED = 128
NOBODY = 65534
MOST_NAMES, MOST_PLACES = 65535, 1048576
# So many names need more room than 16 bytes each.
NAMES_WITHOUT_ROOM = 500
# A call with one user_data for all entries may cost so many times one with a user_data for each; less than this is noise.
TIMES, NOISE = 2.0, 0.3
SANITIZE = ["-fsanitize=address,undefined", "-fno-sanitize-recover=all"]


class Ran(NamedTuple):
    """How a run ended, and what it cost in processor time; no status for one that hung."""

    status: Optional[int]
    output: bytes
    errors: bytes
    seconds: float

    def said(self) -> str:
        return self.errors.decode("utf-8", "replace")


class Built(Tools):
    """The recorder, also one that tells its own faults, and the programs of the tests."""

    def __init__(self) -> None:
        super().__init__()
        self.reason = self.lacking() or self.build() or lacking_in_system(self)
        os.chmod(self.folder.name, 0o755)

    def compile(self, name: str, files: List[str], words: Sequence[str] = ()) -> Optional[str]:
        compiler = os.environ.get("CC") or next(it for it in ("cc", "gcc", "clang") if shutil.which(it))
        given = [*compiler.split(), "-std=gnu11", "-D_GNU_SOURCE", "-O1", *words, "-I", SOURCES, "-I", SHARED, "-o", self.file(name), *files, "-lpthread"]
        ran = subprocess.run(given, stdin=subprocess.DEVNULL, stdout=subprocess.PIPE, stderr=subprocess.STDOUT)
        return "the C compiler made no {}: {}".format(name, ran.stdout.decode("utf-8", "replace")[-300:]) if ran.returncode else None

    def build(self) -> Optional[str]:
        sources = [os.path.join(at, it) for at in (SOURCES, SHARED) for it in sorted(os.listdir(at)) if it.endswith(".c")]
        if self.compile("strict_record", sources, ["-g", *SANITIZE]): # (a compiler may have no sanitizers)
            shutil.copy(self.file("uring_record"), self.file("strict_record"))
        return self.compile("bad", [os.path.join(SOURCES, "test", "bad.c")]) or self.compile("harm", [os.path.join(SOURCES, "test", "harm.c")])

    def directory(self, name: str) -> str:
        path = self.file(name)
        os.mkdir(path)
        os.chmod(path, 0o777)
        return path


LOCK = Lock()
BUILT: List[Built] = []


def tools() -> Built:
    """What all parts use, built by the first of them."""
    with LOCK:
        if not BUILT:
            BUILT.append(Built())
        return BUILT[0]


# --- Runs -----------------------------------------------------------------------------------------------------------

def ran_in(folder: str, words: Sequence[str], given: Sequence[Tuple[float, int]] = (), user: Optional[int] = None, most: Optional[int] = None) -> Ran:
    """Runs words in a folder, sends signals after so many seconds each, and kills what does not end. No file may have more than the most bytes."""
    as_user: Dict = {} if user is None else {"user": user, "group": user, "extra_groups": []}
    environment = {**os.environ, "ASAN_OPTIONS": "detect_leaks=0"}
    if most is not None:
        as_user["preexec_fn"] = lambda: resource.setrlimit(resource.RLIMIT_FSIZE, (most, resource.RLIM_INFINITY))
    with tempfile.TemporaryFile() as output, tempfile.TemporaryFile() as errors:
        started = subprocess.Popen(words, cwd=folder, stdin=subprocess.DEVNULL, stdout=output, stderr=errors, env=environment, **as_user)
        killed = []
        guard = Timer(SECONDS, lambda: killed.append(started.kill()))
        guard.start()
        for seconds, number in given:
            time.sleep(seconds)
            started.send_signal(number)
        _, status, used = os.wait4(started.pid, 0)
        guard.cancel()
        code = started.returncode = os.waitstatus_to_exitcode(status)
        output.seek(0)
        errors.seek(0)
        return Ran(None if killed else code if code >= 0 else SIGNALLED - code, output.read(), errors.read(), used.ru_utime + used.ru_stime)


def fault_of(ran: Ran) -> str:
    return "it hangs" if ran.status is None else shown(Answer(ran.status, ran.output, ran.errors[-600:]))


def accepted(program: Program, trace: str) -> Optional[str]:
    """Why a trace is not accepted."""
    if not os.path.exists(trace):
        return "there is no trace"
    checked = program.run(["check"], trace)
    return None if checked.status == 0 and checked.output.startswith(b"ok ") else shown(checked)


def replayed(program: Program, path: str) -> Optional[str]:
    """Why the replay of a trace differs from what the kernel gave."""
    sums = program.run(["serial", "--sums"], path + ".trace")
    compared = program.run(["diff"], sums.output + read_file(path + ".kernel"))
    return None if sums.status == 0 and compared.status == 0 else "{}; diff: {}".format(shown(sums), shown(compared))


class Recording(NamedTuple):
    """A recording in a directory of its own, with its trace and results beside it, and what is wrong with them."""

    ran: Ran
    path: str
    fault: Optional[str]


def record(program: Program, name: str, words: Sequence[str], command: Sequence[str], recorder: str = "uring_record") -> Recording:
    built = tools()
    path = built.directory(name)
    given = [built.file(recorder), "-o", path + ".trace", "-k", path + ".kernel", *words, "--", *command]
    ran = ran_in(path, given)
    fault = fault_of(ran) if ran.status is None else accepted(program, path + ".trace") or replayed(program, path)
    return Recording(ran, path, fault)


def record_strictly(program: Program, name: str, words: Sequence[str], command: Sequence[str]) -> Recording:
    """A recording by the recorder that checks itself, of a program that has to end well."""
    made = record(program, name, words, command, "strict_record")
    return made._replace(fault=fault_of(made.ran)) if made.ran.status or "runtime error" in made.ran.said() else made


def same(program: Program, mode: Sequence[str], words: Sequence[str], recorder: str = "uring_record", compares: bool = True) -> Outcome:
    """A program ends as it does alone, and says the same."""
    built = tools()
    label = "the recorder: {}, {}".format(spoken([os.path.basename(mode[0]), *mode[1:]]), spoken(words))
    name = "-".join([os.path.basename(it) for it in mode] + list(words) + [recorder]).replace("/", "_")
    alone = ran_in(built.directory(name + "-alone"), mode)
    if alone.status == UNTRIED:
        return Outcome(label, skipped=alone.said().split("\n")[0])
    made = record(program, name, words, mode, recorder)
    if made.ran.status == UNTRIED: # (the kernel had no memory for a ring)
        return Outcome(label, skipped=made.ran.said().split("\n")[0])
    fault = made.fault if compares else None if made.ran.status is None else accepted(program, made.path + ".trace")
    if made.ran[:2] != alone[:2]:
        fault = "{}, wanted {}".format(fault_of(made.ran), fault_of(alone))
    if "ERROR: AddressSanitizer" in made.ran.said() or "runtime error" in made.ran.said():
        fault = made.ran.said()[-600:]
    return Outcome(label, fault)


# --- Parts ----------------------------------------------------------------------------------------------------------

def rings(program: Program) -> List[Outcome]:
    """Rings one after another and side by side, as many as version 2 has and more."""
    harm = tools().file("harm")
    cases = [["64"], ["65"], ["1000"], ["64", "open"], ["65", "open"], ["400", "open"]]
    outcomes = [same(program, [harm, "rings", *it], [*VERSION_2, *words]) for it in cases for words in ([], ["--wait"])]
    told = program.run(["check"], tools().file("harm-rings-1000---format-2-uring_record") + ".trace").output
    # (a ring that is closed gives its number to a later one: two entries of each are recorded)
    return [*outcomes, Outcome("the recorder: 1,000 rings one after another are told", None if told.startswith(b"ok 2000 ") else repr(told))]


def harmless(program: Program) -> List[Outcome]:
    """What a program and its threads can see of the recorder."""
    harm = tools().file("harm")
    cases = (["last-end"], ["last-end", "socket"], ["two-threads"], ["two-threads", "waits"], ["locks"], ["executes"], ["meanwhile"], ["registers"], ["sqpoll"], ["another-issuer"], ["untraced"])
    quiet = [same(program, [harm, "quiet"], words) for words in ([], ["--drain"], [*VERSION_2, "--drain"])]
    return [*quiet, *(same(program, [harm, *it], words) for it in cases for words in ([], ["--wait"]))]


def bad(program: Program, words: Sequence[str]) -> List[Outcome]:
    """Programs that keep to nothing. What they do to their rings no recorder knows: the traces are to be accepted."""
    built = tools()
    modes = ran_in(built.folder.name, [built.file("bad")]).output.decode().split()
    return [same(program, [built.file("bad"), it], words, "strict_record", False) for it in modes]


def interrupted(program: Program) -> List[Outcome]:
    """INT and TERM: the first goes to the command, the second ends the recording."""
    built = tools()
    ends = 'trap "echo told; exit 5" INT TERM; "$0" blocks 2; while :; do sleep 0.05; done'
    stays = 'trap "" INT TERM; "$0" blocks 2; while :; do sleep 0.05; done'
    one, two = [(1.0, signal.SIGINT)], [(1.0, signal.SIGTERM), (0.3, signal.SIGINT)]
    cases = (
        ("the first INT", ends, one, 5, []),
        ("the first TERM", ends, [(1.0, signal.SIGTERM)], 5, []),
        ("the first TERM, version 2", ends, [(1.0, signal.SIGTERM)], 5, VERSION_2),
        ("the second signal", stays, two, SIGNALLED + signal.SIGINT, []),
        ("the second signal, TERM", stays, [(1.0, signal.SIGINT), (0.3, signal.SIGTERM)], SIGNALLED + signal.SIGTERM, []),
        ("the second signal, version 2", stays, two, SIGNALLED + signal.SIGINT, VERSION_2),
    )
    outcomes = []
    for at, (label, script, given, wanted, words) in enumerate(cases):
        path = built.directory("signal{}".format(at))
        command = [built.file("uring_record"), *words, "-o", path + ".trace", "-k", path + ".kernel", "--", "sh", "-c", script, built.file("harm")]
        ran = ran_in(path, command, given)
        fault = None if ran.status == wanted else "{}, wanted status {}".format(fault_of(ran), wanted)
        fault = fault or accepted(program, path + ".trace") or replayed(program, path)
        if not fault and b" op=23 " not in read_file(path + ".kernel"):
            fault = "what was submitted is not in the trace"
        outcomes.append(Outcome("the recorder: {}".format(label), fault))
    return outcomes


def unreadable(program: Program) -> List[Outcome]:
    """What cannot be read is marked, and ends no recording; and neither does a root that is no place for files."""
    built = tools()
    path = built.directory("unreadable")
    for name in ("closed", "closed/in", "secret"):
        if name == "closed":
            os.mkdir(os.path.join(path, name))
        else:
            with open(os.path.join(path, name), "wb") as file:
                file.write(b"secret\n")
    for name in ("closed", "secret"):
        os.chmod(os.path.join(path, name), 0)
    out = os.path.join(built.directory("unreadable-out"), "a")
    user = NOBODY if os.geteuid() == 0 else None
    ran = ran_in(path, [built.file("uring_record"), "-o", out + ".trace", "-k", out + ".kernel", "--", built.file("harm"), "rings", "2"], user=user)
    fault = None if ran.status == 0 else fault_of(ran)
    fault = fault or accepted(program, out + ".trace") or replayed(program, out)
    if not fault and not re.search(rb"^file /secret .*unchecked=unreadable$", read_file(out + ".kernel"), re.M):
        fault = "the file has no mark"
    os.chmod(os.path.join(path, "closed"), 0o755)
    outcomes = [Outcome("the recorder: a file and a directory that cannot be read", fault)]
    for root in ("/proc/self", "/proc"):
        made = record(program, "root" + root.replace("/", "-"), ["--root", root], ["true"])
        is_well = made.ran.status == 0 and not accepted(program, made.path + ".trace")
        outcomes.append(Outcome("the recorder: the root {}".format(root), None if is_well else fault_of(made.ran)))
    return outcomes


def outputs(program: Program) -> List[Outcome]:
    """Three runs in one folder: no trace has one from before. And what the recorder says of itself."""
    built = tools()
    path = built.directory("thrice")
    faults = []
    for at, name in enumerate(("results", "./results", os.path.join(path, "results"))):
        ran = ran_in(path, [built.file("uring_record"), "-k", name, "--", built.file("harm"), "rings", "1"])
        text = read_file(os.path.join(path, "uring.trace")) + read_file(os.path.join(path, "results"))
        if ran.status or b"/uring.trace" in text or b"/results" in text:
            faults.append("run {}: {}".format(at, fault_of(ran)))
    said = ran_in(path, [built.file("uring_record"), "--version"])
    is_well = said.status == 0 and re.fullmatch(rb"uring_record \d+, .*\n", said.output) and not said.errors
    return [Outcome("the recorder: three runs in one folder", first(faults)), Outcome("the recorder: --version", None if is_well else fault_of(said))]


def touched(program: Program) -> List[Outcome]:
    """--touched stores the bytes of what is used, and of nothing else."""
    built = tools()
    path = built.directory("touched")
    used = ("opened", "by_ring", "renamed", "linked", "by_call", "by_link")
    for name in (*used, "left", "left_too"):
        with open(os.path.join(path, name), "wb") as file:
            file.write("the bytes of {}\n".format(name).encode())
    words = [built.file("uring_record"), *VERSION_2, "--touched", "-o", path + ".trace", "-k", path + ".kernel", "--", built.file("harm"), "touches"]
    ran = ran_in(path, words)
    trace = read_file(path + ".trace") if ran.status == 0 else b""
    faults = [] if ran.status == 0 else [fault_of(ran)]
    faults += ["the bytes of {} are {}stored".format(it, "not " if it in used else "") for it in (*used, "left", "left_too")
               if ("the bytes of {}\n".format(it).encode() in trace) != (it in used)]
    faults += [it for it in (accepted(program, path + ".trace"), replayed(program, path)) if it]
    if b"file /left size=18 unchecked=untouched\n" not in read_file(path + ".kernel"):
        faults.append("a file that is not used has no mark")
    return [Outcome("the recorder: --touched", first(faults))]


def ended(program: Program, name: str, words: Sequence[str], mode: Sequence[str], says: str, before: Callable[[str], None] = lambda _: None) -> Outcome:
    """At a limit the recording ends as a good trace, and the command runs on; that is said at once."""
    built = tools()
    path = built.directory("limit-" + name)
    before(path)
    given = [built.file("uring_record"), *words, "-o", path + ".trace", "-k", path + ".kernel", "--", "sh", "-c", '"$@"; echo "status $?" >&2; exit 3', "sh", built.file("harm"), *mode]
    ran = ran_in(path, given)
    lines = ran.said().split("\n")
    told = next((at for at, it in enumerate(lines) if says in it and "the recording ends here" in it), None)
    done = next((at for at, it in enumerate(lines) if it == "status 0"), None)
    fault = None if ran.status == 3 and told is not None and done is not None and told < done else fault_of(ran)
    fault = fault or accepted(program, path + ".trace") or replayed(program, path)
    return Outcome("the recorder: the limit of {}".format(name), fault)


def filled(program: Program, at: str, words: Sequence[str], mode: Sequence[str], most: Optional[int] = None) -> Outcome:
    """Where a file of the recorder takes no more, both are cut behind a record, and the command ends as alone. (A limit of the recorder alone is as good as a
    full disk.) The trace and its results lie in a folder, and the command runs below it."""
    built = tools()
    path, root = os.path.join(at, "a"), os.path.join(at, "root")
    os.mkdir(root)
    script = 'ulimit -S -f unlimited; "$@"; echo "status $?" >&2; exit 3'
    given = [built.file("uring_record"), *words, "-o", path + ".trace", "-k", path + ".kernel", "--", "sh", "-c", script, "sh", built.file("harm"), *mode]
    ran = ran_in(root, given, most=most)
    label = "the recorder: {} with a full disk, {}".format(spoken(words), spoken(mode))
    is_well = ran.status == 3 and "\nstatus 0\n" in "\n" + ran.said() and "the recording ends here" in ran.said()
    fault = None if is_well else fault_of(ran)
    fault = fault or accepted(program, path + ".trace") or replayed(program, path)
    places = int(program.run(["check"], path + ".trace").output.split()[1]) if not fault else 0
    return Outcome(label, fault or (None if places else "no record is left"))


def full_disks(program: Program) -> List[Outcome]:
    built, outcomes = tools(), []
    cases = (([], ["blocks", "40"]), ([], ["places", "40960"]), (VERSION_2, ["blocks", "40"]), (VERSION_2, ["places", "16384"]))
    for number, (words, mode) in enumerate(cases):
        outcomes.append(filled(program, built.directory("filled{}".format(number)), words, mode, 950000))
    # (with no room for the start there is nothing, and the command is left alone all the same)
    for number, words in enumerate(([], VERSION_2)):
        path = built.directory("no-room{}".format(number))
        for at in range(NAMES_WITHOUT_ROOM):
            os.close(os.open(os.path.join(path, "a name of the start {}".format(at)), os.O_CREAT | os.O_WRONLY, 0o644))
        given = [built.file("uring_record"), *words, "-o", path + ".trace", "-k", path + ".kernel", "--", built.file("harm"), "rings", "2"]
        ran = ran_in(path, given, most=NAMES_WITHOUT_ROOM * 16)
        is_well = ran.status == 0 and "the recording ends here" in ran.said() and os.path.getsize(path + ".trace") == os.path.getsize(path + ".kernel") == 0
        outcomes.append(Outcome("the recorder: {} without room for the start".format(spoken(words)), None if is_well else fault_of(ran)))
    at = built.directory("small-disk")
    lacking = subprocess.run(["mount", "-t", "tmpfs", "-o", "size=1m", "none", at], stdin=subprocess.DEVNULL, stdout=subprocess.PIPE, stderr=subprocess.STDOUT)
    if lacking.returncode:
        return outcomes + skipped("the recorder: a small disk", lacking.stdout.decode("utf-8", "replace").strip())
    try:
        return [*outcomes, filled(program, at, [], ["places", "40960"])]
    finally:
        subprocess.run(["umount", at])


def many_names(path: str) -> None:
    for at in range(MOST_NAMES + 10):
        os.close(os.open(os.path.join(path, "{:x}".format(at)), os.O_CREAT | os.O_WRONLY, 0o644))


def limits(program: Program) -> List[Outcome]:
    built = tools()
    outcomes = [
        ended(program, "bytes", ["--limit", "1000000"], ["blocks", "40"], "bytes"),
        ended(program, "bytes of version 2", [*VERSION_2, "--limit", "1000000"], ["blocks", "40"], "bytes"),
        ended(program, "places", VERSION_2, ["places", str(MOST_PLACES + 4096)], "1,048,576 places"),
        ended(program, "names", VERSION_2, ["rings", "3"], "65,535 names", many_names),
    ]
    size = os.path.getsize(built.file("limit-bytes") + ".trace")
    fault = None if 900000 < size <= 1000000 else "{} bytes".format(size)
    outcomes.append(Outcome("the recorder: --limit is used up and kept", fault))
    for words in (["--limit", "12"], [*VERSION_2, "--limit", "1073741825"], ["--limit", "many"]):
        ran = ran_in(built.folder.name, [built.file("uring_record"), *words, "true"])
        outcomes.append(Outcome("the recorder: {}".format(spoken(words)), None if ran.status == 125 else fault_of(ran)))
    return outcomes


def at_once(program: Program) -> List[Outcome]:
    """Many entries in one call: with one user_data for all they cost at most twice as much as with one for each."""
    outcomes = []
    for label, words in (("32,768 NOP", ["32768", "0"]), ("10,000 WRITE", ["10000", "23"]), ("10,000 READ", ["10000", "22"])):
        few = many = math.inf
        for at in range(MOST_RUNS):
            names = ("once{}-{}-{}".format(words[1], number, at) for number in range(2))
            plain, alike = (record(program, next(names), [], [tools().file("harm"), "at-once", *words, *more]) for more in ([], ["alike"]))
            fault = plain.fault or alike.fault or next((fault_of(it.ran) for it in (plain, alike) if it.ran.status), None)
            few, many = min(few, plain.ran.seconds), min(many, alike.ran.seconds)
            if fault or at and many <= TIMES * few + NOISE:
                break
        else:
            fault = "{:.2f} seconds, and {:.2f} with one user_data".format(few, many)
        outcomes.append(Outcome("the recorder: {} at once".format(label), fault))
    return outcomes


def part(run: Callable[[Program], List[Outcome]], programs: List[Program]) -> List[Outcome]:
    """A part, where it can be tried."""
    reason = tools().reason
    return skipped("the recorder: {}".format(getattr(run, "__name__", "bad programs")), reason) if reason else run(programs[0])


def jobs(programs: List[Program]) -> List[Job]:
    options = ([], ["--wait"], ["--drain"], [*VERSION_2, "--nop"], [*VERSION_2, "--wait", "--drain", "--nop"])
    runs = [limits, full_disks, at_once, *(partial(bad, words=it) for it in options), rings, harmless, interrupted, unreadable, outputs, touched]
    return [partial(part, it, programs) for it in runs]
