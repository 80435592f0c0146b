"""Recordings of version 3: written as the command runs, read by the second replayer, and compared with what the kernel gave."""
import hashlib
import os
import re
import shutil
import signal
import subprocess
import time
from functools import partial
from threading import Lock
from typing import Callable, List, NamedTuple, Optional, Sequence, Tuple

import by_models
import model_records
import record_traces
from harness import Answer, Job, Outcome, Program, difference, first, shown, skipped, spoken
from recorded import SOURCES, Compared, agree, compared, read_file, read_report
from recorder import SECONDS, VERSION_2, Built, Ran, accepted, fault_of, ran_in, replayed, tools
from streams import Fed

# Programs that end as they do alone, and of which all results are told alike: their traces are replayed by the second replayer.
PROGRAMS: Sequence[Tuple[str, Sequence[str]]] = (
    *(("streams", it) for it in (["many", "300"], ["pending", "300"], ["blocked", "1000"], ["alike", "300"], ["zeros"], ["anew", "12"])),
    *(("harm", it) for it in (["last-end"], ["two-threads"], ["locks"], ["executes"], ["registers"], ["at-once", "1000", "23", "alike"])),
)
# Programs of bad.c that keep to nothing: their traces are accepted.
BAD = ("tail-too-far", "any-bytes", "any-fields", "overflow", "without-queue", "children", "vforks", "another-program", "killed-while-waiting", "by-index", "registrations", "huge-files")
MIB = 1 << 20
# What a recording takes at most for many more entries, in KiB: it keeps less than this of them.
MORE = 24 * 1024


class Told(NamedTuple):
    """A recording of version 3 beside its folder, and what its replay gives beside the kernel's results."""

    ran: Ran
    path: str
    fault: Optional[str]
    compared: Optional[Compared]


LOCK = Lock()


def streams() -> Built:
    """The tools, with the programs of this part, built by the first that asks for them."""
    built = tools()
    with LOCK:
        for name in ("streams", "submitter"):
            if not built.reason and not os.path.exists(built.file(name)):
                built.reason = built.compile(name, [os.path.join(SOURCES, "test", name + ".c")])
    return built


def rising(kernel: str) -> Optional[str]:
    """Why results are none of version 3."""
    lines = kernel.split("\n")
    places = [int(it.split(" ")[0]) for it in lines if re.match(r"\d+ ring=\d+ user=", it)]
    if lines[0] != "uring-report 2" or lines[-2:] != ["end", ""]:
        return "the results begin with {!r} and end with {!r}".format(lines[0], lines[-2:])
    return None if places == sorted(set(places)) else "the places of the results do not rise"


def record(program: Program, name: str, words: Sequence[str], command: Sequence[str], replays: bool = True, recorder: str = "uring_record") -> Told:
    """Records a command in a folder of its own."""
    built = streams()
    path = built.directory("version-3-" + name)
    ran = ran_in(path, [built.file(recorder), "-o", path + ".trace", "-k", path + ".kernel", *words, "--", *command])
    has_fault = ran.status is None or "ERROR: AddressSanitizer" in ran.said() or "runtime error" in ran.said()
    fault = fault_of(ran) if has_fault else accepted(program, path + ".trace")
    if fault:
        return Told(ran, path, fault, None)
    kernel = read_file(path + ".kernel").decode()
    found = compared(model_records.report(read_file(path + ".trace")).decode(), kernel) if replays else None
    fault = rising(kernel) or (first(found.differing) if found else None)
    return Told(ran, path, fault, found)


def told(program: Program) -> List[Outcome]:
    """Programs end as they do alone, and their replay gives what the kernel gave."""
    built, outcomes = streams(), []
    for at, (name, mode) in enumerate(PROGRAMS):
        alone = ran_in(built.directory("alone-{}".format(at)), [built.file(name), *mode])
        made = record(program, "told{}".format(at), [], [built.file(name), *mode], recorder="strict_record")
        fault = made.fault if made.ran[:2] == alone[:2] else "{}, wanted {}".format(fault_of(made.ran), fault_of(alone))
        equal, _, _, given = made.compared.counts["entries"] if made.compared else (0, 0, 0, 0)
        if not fault and made.compared and not equal + given:
            fault = "there is no entry to compare"
        outcomes.append(Outcome("version 3: {} {}".format(name, spoken(mode)), fault))
    for mode in BAD:
        made = record(program, "bad-" + mode, [], [built.file("bad"), mode], replays=False, recorder="strict_record")
        outcomes.append(Outcome("version 3: bad {}".format(mode), made.fault))
    return outcomes


def sixteen(program: Program) -> List[Outcome]:
    """The sixteen calls have the counts that they have in version 2, but for entries that are unchecked there: a timeout is given, and so is an OPENAT that met a
    MKDIRAT of its name, since the replay may give it no number. The recorder makes fewer entries."""
    built, outcomes = streams(), []
    for words in ([], ["--drain"], ["--wait"]):
        name = "sixteen" + "".join(words)
        made = record(program, name, words, [built.file("sixteen")])
        second = built.directory("version-2-" + name)
        ran = ran_in(second, [built.file("uring_record"), *VERSION_2, "-o", second + ".trace", "-k", second + ".kernel", *words, "--", built.file("sixteen")])
        fault = made.fault or (fault_of(ran) if ran.status else None)
        if not fault and made.compared:
            wanted = compared(model_records.report(read_file(second + ".trace")).decode(), read_file(second + ".kernel").decode())
            equal, different, unchecked, given_there = wanted.counts["entries"]
            fewer = read_file(second + ".kernel").count(b" by=recorder") - read_file(made.path + ".kernel").count(b" by=recorder")
            given = re.findall(r" res=(\S+) posted given=1 op=(\d+) ", read_file(made.path + ".kernel").decode())
            wanted.counts["entries"] = [equal - fewer, different, unchecked - len(given), given_there + len(given)]
            fault = None if fewer > 0 else "the recorder makes as many entries as in version 2"
            fault = fault or (None if made.compared.counts == wanted.counts else "it has {!r}, wanted {!r}".format(made.compared.lines(), wanted.lines()))
            opens = [] if "--drain" in words else ["18"]
            fault = fault or (None if [it[1] for it in given] == [*opens, "11"] else "it gives {}".format(given))
        outcomes.append(Outcome("version 3: the sixteen calls, {}".format(spoken(words)), fault))
    return outcomes


def rings(program: Program) -> List[Outcome]:
    """More rings than version 2 has, one after another and at once, and what is registered anew: all of it is recorded."""
    harm, outcomes = streams().file("harm"), []
    cases = ((["1000"], "ok 3000 places 1000 rings\n", 2000), (["400", "open"], "ok 1200 places 400 rings\n", 800))
    for mode, wanted, entries in cases:
        made = record(program, "rings-" + "-".join(mode), [], [harm, "rings", *mode])
        got = program.run(["check"], made.path + ".trace").output.decode()
        fault = made.fault or (None if got == wanted else repr(got))
        if not fault and made.compared and (made.compared.counts["entries"], made.compared.counts["tree"]) != ([entries, 0, 0, 0], [1, 0, 0, 0]):
            fault = made.compared.lines()
        outcomes.append(Outcome("version 3: rings {}".format(" ".join(mode)), fault))
    made = record(program, "anew", [], [streams().file("streams"), "anew", "30"])
    # (30 rings, and of each a fill before either of its writes, and three entries)
    fault = made.fault or (None if made.compared and made.compared.counts["entries"] == [90, 0, 0, 0] else "not all entries are equal")
    got = program.run(["check"], made.path + ".trace").output
    return [*outcomes, Outcome("version 3: files and buffers registered anew", fault or (None if got == b"ok 180 places 30 rings\n" else repr(got)))]


def sparse(program: Program) -> List[Outcome]:
    """Files are stored by their ranges, and writes of zeros by their lengths."""
    built = streams()
    path = built.directory("sparse")
    with open(os.path.join(path, "image"), "wb") as file:
        file.truncate(4 << 30)
        for place, letter in ((1 << 30, b"a"), ((3 << 30) + 7 * 4096, b"b")):
            file.seek(place)
            file.write(letter * 4096)
    ran = ran_in(path, [built.file("uring_record"), "-o", path + ".trace", "--", built.file("streams"), "zeros"])
    trace = read_file(path + ".trace") if ran.status == 0 else b""
    fault = None if ran.status == 0 else fault_of(ran)
    fault = fault or accepted(program, path + ".trace")
    wanted = [(1 << 30, b"a"), ((3 << 30) + 7 * 4096, b"b")]
    stored = [offset.to_bytes(8, "little") + (4096).to_bytes(4, "little") + letter * 4096 for offset, letter in wanted]
    if not fault and (len(trace) >= MIB or not all(it in trace for it in stored)):
        fault = "{} bytes, and not the two ranges".format(len(trace))
    # (of writes of 32,768, 63 and 64 bytes, and of one of two vectors, only the second is stored)
    if not fault and len(trace) - 2 * 4096 >= 1024:
        fault = "{} bytes: zeros are stored".format(len(trace))
    return [Outcome("version 3: a sparse file of 4 GiB, and writes of zeros", fault)]


def cut(program: Program) -> List[Outcome]:
    """A call with many bytes is several records, which end where a chain does."""
    made = record(program, "large", [], [streams().file("streams"), "large"], replays=False)
    ends = [] if made.fault else model_records.Records(read_file(made.path + ".trace")).ends
    counts = [behind - before for (_, before), (_, behind) in zip(ends, ends[1:])]
    # (a ring; chains of three entries, until they have 4 MiB; the end)
    is_well = counts == [1, 6, 6, 0]
    return [Outcome("version 3: a call of 12 MiB", made.fault or (None if is_well else "records of {} places".format(counts)))]


def cut_off() -> Tuple[bytes, bytes]:
    """The trace and the results of a recorder that is killed while the command writes."""
    built = streams()
    path = built.directory("killed")
    started = subprocess.Popen([built.file("uring_record"), "-o", path + ".trace", "-k", path + ".kernel", "--", built.file("streams"), "many", "100000000"], cwd=path)
    end = time.monotonic() + SECONDS
    while time.monotonic() < end and (not os.path.exists(path + ".trace") or os.path.getsize(path + ".trace") < 8 * MIB):
        time.sleep(0.01)
    started.send_signal(signal.SIGKILL)
    started.wait()
    return read_file(path + ".trace"), read_file(path + ".kernel")


def unlike(report: bytes, kernel: bytes, places: int) -> Optional[str]:
    """How whole lines of results differ from a report of as many places, and what is lacking of them."""
    ours, _ = read_report(report.decode())
    theirs, _ = read_report(kernel[: kernel.rfind(b"\n") + 1].decode())
    both = [it for it in theirs if it in ours and theirs[it].part == "entries"]
    faults = ["{!r}, replayed {!r}".format(theirs[it].text, ours[it].text) for it in both if not agree(ours[it], theirs[it])]
    return first(faults) or (None if 2 * len(both) >= places else "{} places, and {} results of these".format(places, len(both)))


def killed(program: Program) -> List[Outcome]:
    """A recorder that is killed leaves whole records, with their results; `serial` of its trace gives the lines of these."""
    trace, kernel = cut_off()
    begun = model_records.Begun(trace)
    whole, places = begun.ends[-1]
    fault = None if str(begun.fault) == "Short at {}".format(len(trace)) else "its fault is {}".format(begun.fault)
    front = trace[:whole] + record_traces.END
    got = program.run(["check"], front)
    if not fault and (got != Answer(0, "ok {} places 1 rings\n".format(places).encode(), b"") or len(trace) - whole > MIB or places < 1000):
        fault = "{} bytes, of which {} are whole: {}".format(len(trace), whole, shown(got))
    fault = fault or unlike(program.run(["serial"], front).output, kernel, places)
    return [Outcome("version 3: a recorder that is killed", fault or difference(program.run(["serial"], trace), by_models.replayed(trace)))]


def piped(program: Program) -> List[Outcome]:
    """A trace on standard output, of each version; the command's own output goes to standard error."""
    built, outcomes = streams(), []
    for version in ("1", "2", "3"):
        path = built.directory("piped" + version)
        words = [built.file("uring_record"), "--format", version, "-o", "-", "-k", path + ".kernel", "--", "sh", "-c", '"$0" blocks 2; exit 3', built.file("harm")]
        ran = ran_in(path, words)
        got = program.run(["check"], ran.output)
        fault = None if ran.status == 3 and b"all written\n" in ran.errors and got.status == 0 else "{}, {}".format(fault_of(ran), shown(got))
        outcomes.append(Outcome("the recorder: version {} on standard output".format(version), fault))
    path = built.directory("gone")
    ran = ran_in(path, ["bash", "-c", '"$@" | head -c 10 > /dev/null; exit "${PIPESTATUS[0]}"', "sh", built.file("uring_record"), "-o", "-", "--", built.file("streams"), "many", "100000"])
    outcomes.append(Outcome("version 3: a reader that goes away", None if ran.status == 125 and b"Broken pipe" in ran.errors else fault_of(ran)))
    if not shutil.which("zstd"):
        return [*outcomes, Outcome("version 3: through zstd", skipped="there is no zstd")]
    path = built.directory("zstd")
    line = '"$0" -o - -- "$1" many 1000 2>/dev/null | zstd -3 -q > "$2.zst" && zstd -dcq "$2.zst"'
    ran = ran_in(path, ["sh", "-c", line, built.file("uring_record"), built.file("streams"), path])
    got = program.run(["check"], ran.output)
    return [*outcomes, Outcome("version 3: through zstd", None if got.output == b"ok 1001 places 1 rings\n" else shown(got))]


def live(program: Program) -> List[Outcome]:
    """The lines of what a command has submitted come while it still runs."""
    built = streams()
    command = [built.file("uring_record"), "-o", "-", "--", "sh", "-c", '"$0" many 10 && read line', built.file("streams")]
    with Fed(program, ["serial"]) as fed:
        started = subprocess.Popen(command, cwd=built.directory("live"), stdin=subprocess.PIPE, stdout=fed.inputs[0], stderr=subprocess.DEVNULL)
        has_come, is_running = fed.comes(lambda: fed.output.count(b" res=4096 posted") == 10), started.poll() is None
        started.stdin.close()
        started.wait(SECONDS)
        got = fed.end()
    is_well = has_come and is_running and got.status == 0 and got.output.endswith(b"\nend\n")
    return [Outcome("version 3: replayed while the command runs", None if is_well else "lines {} come: {}".format("do" if has_come else "do not", shown(got)))]


def interrupted_pipe(program: Program) -> List[Outcome]:
    """INT to all of a pipeline, as a terminal sends it: where the reader ignores it, it gets a trace that ends well."""
    built = streams()
    path = built.directory("interrupted-pipe")
    line = '"$0" -o - -k "$2.kernel" -- "$1" many 100000000 2> /dev/null | (trap "" INT; cat > "$2.trace")'
    started = subprocess.Popen(["bash", "-c", line, built.file("uring_record"), built.file("streams"), path], cwd=path, start_new_session=True)
    end = time.monotonic() + SECONDS
    while time.monotonic() < end and (not os.path.exists(path + ".trace") or os.path.getsize(path + ".trace") < MIB):
        time.sleep(0.01)
    os.killpg(started.pid, signal.SIGINT)
    started.wait(SECONDS)
    fault = accepted(program, path + ".trace") or replayed(program, path)
    return [Outcome("the recorder: INT to a pipeline", fault or (None if b"\ntree\n" in read_file(path + ".kernel") else "the results do not end"))]


def peak(path: str, command: Sequence[str]) -> Tuple[int, int]:
    """The status of a recording, and the most memory that it had, in KiB."""
    with open(os.devnull, "wb") as nothing:
        started = subprocess.Popen(command, cwd=path, stdin=subprocess.DEVNULL, stdout=nothing, stderr=nothing)
        _, status, used = os.wait4(started.pid, 0)
        started.returncode = os.waitstatus_to_exitcode(status)
    return started.returncode, used.ru_maxrss


def memory(_: Program) -> List[Outcome]:
    """A hundred times the entries take little more memory, also where one is in flight all the while, or all have one user_data."""
    built, outcomes = streams(), []
    for mode in ("many", "pending", "blocked", "alike"):
        peaks = []
        for count in ("1000", "100000"):
            path = built.directory("memory-{}-{}".format(mode, count))
            words = [built.file("uring_record"), "-o", "/dev/null", "-k", path + ".kernel", "--", built.file("streams"), mode, count]
            status, most = peak(path, words)
            peaks.append(most)
            fault = "it ended with {}".format(status) if status else None
        if not fault and peaks[1] > peaks[0] + MORE:
            fault = "{} KiB for 1,000 entries, and {} KiB for 100,000".format(*peaks)
        fault = fault or rising(read_file(path + ".kernel").decode())
        outcomes.append(Outcome("version 3: memory, {}".format(mode), fault))
    return outcomes


# --- Recordings without data ----------------------------------------------------------------------------------------

# What `streams secret` writes, in all ways, and what is in the files from before: one that it reads, and one that it does not use.
SECRETS = (b"secret of a write", b"secret of vectors", b"secret of a buffer", b"secret of a call", b"secret of blocks")
OF_START = {"known": b"secret of a file that is there now", "left": b"secret of a file that is not used"}
# So many bytes of a secret are one too.
PART = 6


def spelled(bytes_: bytes) -> List[bytes]:
    return [bytes_, bytes_.hex().encode()]


def told_of(contents: Sequence[bytes], files: bytes) -> List[bytes]:
    """What files tell of bytes, as these are or in hexadecimal: parts of secrets, and sums of contents."""
    secrets = [*SECRETS, *OF_START.values()]
    parts = {it[at : at + PART] for it in secrets for at in range(len(it) - PART + 1)} | set(secrets)
    sums = {hashlib.sha256(it).digest() for it in [*secrets, *contents]}
    return [it for each in sorted(parts | sums) for it in spelled(each) if it in files]


def secret(program: Program, words: Sequence[str], with_data: bool) -> Tuple[Optional[str], List[bytes]]:
    """Records the program of the secrets: what is wrong with the recording, and what it tells of them."""
    built = streams()
    path = built.directory("private" + "".join(words))
    for name, text in OF_START.items():
        with open(os.path.join(path, name), "wb") as file:
            file.write(text)
    given = [*words, *([] if with_data else ["--no-data"])]
    ran = ran_in(path, [built.file("strict_record"), *given, "-o", path + ".trace", "-k", path + ".kernel", "--", built.file("streams"), "secret"])
    fault = fault_of(ran) if ran.status else accepted(program, path + ".trace") or replayed(program, path)
    if fault:
        return fault, []
    trace, kernel = read_file(path + ".trace"), read_file(path + ".kernel")
    found = compared(program.run(["serial", "--sums"], trace).output.decode(), kernel.decode())
    # (nine entries and a call, for which version 1 has two; three files that are read or written, and one that is left)
    equal = found.counts["entries"][0]
    if equal < 10 or found.counts != {**found.counts, "entries": [equal, 0, 0, 0], "tree": [4, 0, 0, 0]}:
        fault = found.lines()
    elif len(re.findall(rb" res=\d+ .*op=", kernel)) != equal or b"file /known size=34" not in kernel:
        fault = "results or sizes are not told"
    contents = [read_file(os.path.join(path, it)) for it in sorted(os.listdir(path))]
    return fault, told_of(contents, trace + kernel)


def no_data(program: Program) -> List[Outcome]:
    """With --no-data nothing is told of bytes, in any version, and the results agree; without it, all of them are."""
    outcomes = []
    for version in ("1", "2", "3"):
        fault, told_parts = secret(program, ["--format", version], False)
        outcomes.append(Outcome("--no-data, version {}".format(version), fault or (repr(told_parts[:3]) if told_parts else None)))
    fault, told_parts = secret(program, ["--wait"], True)
    unseen = [it for it in [*SECRETS, *OF_START.values()] if it not in told_parts]
    made = record(program, "little", ["--no-data", "--limit", "65536"], [streams().file("streams"), "many", "500"])
    got = program.run(["check"], made.path + ".trace").output
    outcomes.append(Outcome("--no-data: 500 blocks of 4 KiB in a trace of 64 KiB", made.fault or (None if got == b"ok 501 places 1 rings\n" else repr(got))))
    return [*outcomes, Outcome("without --no-data the same bytes are told", fault or (repr(unseen) if unseen else None))]


def options(program: Program) -> List[Outcome]:
    """What goes together, and the limit."""
    built, outcomes = streams(), []
    cases = (["--format", "4"], ["--format", "11"], ["--touched"], ["--nop"], [*VERSION_2, "--limit", "1073741825"], ["--limit", "12"], ["--no-data", "--all-sums"], [*VERSION_2, "--no-data", "--touched"])
    for words in cases:
        ran = ran_in(built.folder.name, [built.file("uring_record"), *words, "true"])
        outcomes.append(Outcome("the recorder: {}".format(spoken(words)), None if ran.status == 125 and b"uring_record: --" in ran.errors else fault_of(ran)))
    made = record(program, "limit", ["--limit", "1000000"], [built.file("streams"), "many", "2000"])
    size = os.path.getsize(made.path + ".trace")
    fault = made.fault or (None if made.ran.status == 0 and b"the recording ends here" in made.ran.errors else fault_of(made.ran))
    fault = fault or (None if 800000 < size <= 1000000 else "{} bytes".format(size))
    outcomes.append(Outcome("version 3: --limit is used up and kept", fault))
    return outcomes


def part(run: Callable[[Program], List[Outcome]], programs: List[Program]) -> List[Outcome]:
    """A part, where it can be tried."""
    reason = streams().reason
    return skipped("version 3: {}".format(run.__name__), reason) if reason else run(programs[0])


def jobs(programs: List[Program]) -> List[Job]:
    return [partial(part, it, programs) for it in (told, sixteen, rings, sparse, cut, killed, piped, live, interrupted_pipe, memory, no_data, options)]
