"""Inputs and outputs by name, the version, and what is said at a terminal."""
import os
import pty
import re
import shutil
import subprocess
import tempfile
from functools import partial
from typing import Callable, Dict, List, Optional, Tuple

from harness import EXAMPLES, TOP, Answer, Input, Job, Outcome, Program, Words, difference, fault, first, read, refused, reports_refused, shown, skipped, spoken
from shims import Shim

EXAMPLE = "read_four_bytes"
TRACE = os.path.join(EXAMPLES, EXAMPLE + ".trace")
# The same of version 3.
RECORDS = os.path.join(EXAMPLES, "version_3", EXAMPLE + ".trace")
EQUAL = "entries 1 equal, 0 different, 0 unchecked, 0 given\ntree 1 equal, 0 different, 0 unchecked, 0 given\nslots 1 equal, 0 different, 0 unchecked, 0 given\nbuffers 1 equal, 0 different, 0 unchecked, 0 given\n".encode()
# Of the example with sums and without them.
TWO_SUMS = b"not compared: data 0 entries, sums 2, large 0\n"
# Commands that read a trace, each with the answer that stands beside the example, if one does.
COMMANDS: Dict[Tuple[str, ...], bytes] = {
    ("serial",): read(EXAMPLE + ".report"), ("serial", "--sums"): read(EXAMPLE + ".sums"), ("run",): read(EXAMPLE + ".report"),
    ("run", "--eager"): read(EXAMPLE + ".report"), ("compare",): b"equal\n", ("compare", "--eager"): b"equal\n",
    ("check",): read(EXAMPLE + ".check"),
    ("rounds",): b"uring-rounds 1\n0 round=0\nrounds 1\nwidest 1\nmean 1.00\nlongest 1 to place 0\nend\n",
    ("rounds", "--dot"): b"digraph rounds {\n  0 [label=\"0 in round 0\"];\n}\n",
    ("depends",): b"uring-depends 1\n0\nplaces 1\npairs 0\nspan 1 to place 0\nparallelism 1.00\nbytes 4\nspan-bytes 4 to place 0\nparallelism-bytes 1.00\nend\n",
    ("depends", "--dot"): b"digraph depends {\n  0 [label=\"0\"];\n}\n",
}
HELP = "\n\nFor more information, try '--help'.\n"
IS_AN_INPUT = Answer(2, b"", ("error: the output is an input: name another file" + HELP).encode())
NO_INPUT = "error: no input: name a file (uring_replay check a.trace), or give it on standard input" + HELP
TWICE = Answer(2, b"", ("error: '-' is standard input, and gives one of two reports" + HELP).encode())
TAKEN = Answer(2, b"", ("error: '-' is standard input, and gives the trace or a report" + HELP).encode())
# Growths of a run that are each refused, and how many of them the library may try again, as for words alone.
MOST_GROWTHS, TRIED_AGAIN = 400, 8


class Folder:
    """A folder for one test, and runs in it."""

    def __init__(self, program: Program) -> None:
        self.program = program
        self.at = tempfile.TemporaryDirectory(prefix="uring-replay-test-")
        self.outcomes: List[Outcome] = []

    def path(self, name: str) -> str:
        return os.path.join(self.at.name, name)

    def put(self, name: str, text: bytes) -> str:
        with open(self.path(name), "wb") as file:
            file.write(text)
        return self.path(name)

    def get(self, name: str) -> Optional[bytes]:
        try:
            with open(self.path(name), "rb") as file:
                return file.read()
        except FileNotFoundError:
            return None

    def names(self) -> List[str]:
        return sorted(os.listdir(self.at.name))

    def said(self, label: str, told: Optional[str]) -> None:
        self.outcomes.append(Outcome("{} by {}".format(label, self.program.compiler), told))

    def ask(self, label: str, words: Words, wanted: Answer, given: Input = b"", shell: str = "") -> None:
        told = difference(self.program.run(words, given, shell=shell), wanted)
        self.said("{}: {}".format(label, spoken(words).replace(self.at.name, "")), told)

    def holds(self, label: str, name: str, text: Optional[bytes], others: List[str]) -> None:
        """Whether a file has this text, and the folder nothing but it and others."""
        got, wanted = self.get(name), sorted([*others, *([name] if text is not None else [])])
        told = None if got == text else "{} has {!r}".format(name, got and got[:80])
        self.said(label, told or (None if self.names() == wanted else "the folder has {}".format(self.names())))


def inputs(program: Program) -> List[Outcome]:
    """Each command takes its input by name, as `-`, and with no name."""
    at = Folder(program)
    for words, output in COMMANDS.items():
        wanted = Answer(0, output, b"")
        at.ask("a file", [*words, TRACE], wanted)
        at.ask("a file, named first", [words[0], TRACE, *words[1:]], wanted)
        at.ask("a file behind --", [*words, "--", TRACE], wanted)
        at.ask("standard input as -", [*words, "-"], wanted, given=TRACE)
        at.ask("standard input", list(words), wanted, given=TRACE)
    at.put("-", b"not this one")
    at.ask("a file that is named -", ["check", "-"], Answer(0, read(EXAMPLE + ".check"), b""), given=TRACE, shell='cd "{}"; exec "$@"'.format(at.at.name))
    at.ask("a file of the working directory", ["check", "./-"], refused("Magic at 0"), shell='cd "{}"; exec "$@"'.format(at.at.name))
    return at.outcomes


def not_opened(program: Program) -> List[Outcome]:
    """Files that cannot be opened, and why."""
    at = Folder(program)
    at.put("file", b"")
    os.symlink(at.path("nowhere"), at.path("dangling"))
    os.symlink(at.path("loop"), at.path("loop"))
    cases = [("missing", "No such file or directory (os error 2)"), ("dangling", "No such file or directory (os error 2)"),
             ("", "is a directory"), ("file/below", "Not a directory (os error 20)"), ("loop", "Too many levels of symbolic links (os error 40)"),
             ("n" * 256, "File name too long (os error 36)")]
    for name, why in cases:
        path = at.path(name)
        wanted = Answer(3, b"", "cannot open {}: {}\n".format(path, why).encode())
        for words in (["serial"], ["run", "--eager"], ["check"], ["rounds"], ["depends"], ["diff"]):
            at.ask("a file that cannot be opened", [*words, path], wanted, given=TRACE)
        at.ask("a second file that cannot be opened", ["diff", os.path.join(EXAMPLES, EXAMPLE + ".report"), path], wanted)
        at.ask("and no output", ["check", path, "--output", at.path("out")], wanted)
    at.holds("nothing is made where nothing is read", "out", None, ["dangling", "file", "loop"])
    at.ask("an empty name", ["check", ""], Answer(3, b"", b"cannot open : No such file or directory (os error 2)\n"))
    if os.geteuid():
        os.chmod(at.path("file"), 0)
        at.ask("a file that is not readable", ["check", at.path("file")], Answer(3, b"", "cannot open {}: Permission denied (os error 13)\n".format(at.path("file")).encode()))
    return at.outcomes


def two_files(program: Program) -> List[Outcome]:
    """`diff` of two files, of one file with both, and of one from standard input."""
    at = Folder(program)
    report, sums = read(EXAMPLE + ".report"), read(EXAMPLE + ".sums")
    line = b"0 user=7 res=4 posted data=32333435"
    one, other, both = at.put("one", report), at.put("other", sums), at.put("both", report + sums)
    differs = at.put("differs", report.replace(b"res=4", b"res=5"))
    equal = Answer(0, EQUAL + TWO_SUMS, b"")
    changed = Answer(4, b"- " + line + b"\n+ " + line.replace(b"res=4", b"res=5") + b"\n" + EQUAL.replace(b"1 equal, 0 different", b"0 equal, 1 different", 1), b"")
    at.ask("two files", ["diff", one, other], equal)
    at.ask("two files that differ", ["diff", one, differs], changed)
    at.ask("a file beside itself", ["diff", one, one], Answer(0, EQUAL, b""))
    at.ask("both in one file", ["diff", both], equal)
    at.ask("both on standard input", ["diff"], equal, given=report + sums)
    at.ask("both on standard input", ["diff", "-"], equal, given=report + sums)
    at.ask("the first on standard input", ["diff", "-", other], equal, given=report)
    at.ask("the second on standard input", ["diff", one, "-"], equal, given=sums)
    at.ask("both as -", ["diff", "-", "-"], TWICE, given=report + sums)
    at.ask("one file of one report", ["diff", one], reports_refused("the second does not begin with uring-report 1"))
    at.ask("a trace as the first", ["diff", TRACE, one], reports_refused("the first does not begin with uring-report 1"))
    at.ask("a trace as the second", ["diff", one, TRACE], reports_refused("the second does not begin with uring-report 1"))
    at.ask("an empty second", ["diff", one, at.put("empty", b"")], reports_refused("the second does not begin with uring-report 1"))
    at.ask("a first with no end", ["diff", at.put("short", report[:-4]), one], reports_refused("the first has no line end"))
    at.ask("a second with no end", ["diff", one, at.path("short")], reports_refused("the second has no end"))
    at.ask("more behind the first", ["diff", both, one], reports_refused("there is text after the end of the first"))
    at.ask("more behind the second", ["diff", one, both], reports_refused("there is text after the end of the second"))
    wanted = Answer(2, b"", b"")
    for words in (["diff", one, other, one], ["check", TRACE, TRACE]):
        got = program.run(words, b"")
        well = got.status == 2 and not got.output and got.errors.startswith(b"error: unexpected argument") and wanted.output == b""
        at.said("a file too many: {}".format(words[0]), None if well else shown(got))
    return at.outcomes


def shown_entries(program: Program) -> List[Outcome]:
    """`diff` with the entries of a trace, which is read first, from a file or from standard input."""
    at = Folder(program)
    report = read(EXAMPLE + ".report")
    line, entry = b"0 user=7 res=4 posted data=32333435", b"  READ FIXED_FILE off=2 len=4 user_data=7\n"
    changed = report.replace(b"res=4", b"res=5").replace(b"size=10", b"size=11")
    one, other = at.put("one", report), at.put("other", changed)
    counts = EQUAL.replace(b"entries 1 equal, 0 different", b"entries 0 equal, 1 different").replace(b"tree 1 equal, 0 different", b"tree 0 equal, 1 different")
    text = b"".join([b"- ", line, b"\n", entry, b"+ ", line.replace(b"res=4", b"res=5"), b"\n", entry, b"- file /a node=1 size=10\n+ file /a node=1 size=11\n", counts])
    differ = Answer(4, text, b"")
    at.ask("two files and a trace", ["diff", "--show", TRACE, one, other], differ)
    at.ask("a trace behind two files", ["diff", one, other, "--show=" + TRACE], differ)
    at.ask("both reports on standard input", ["diff", "--show", TRACE], differ, given=report + changed)
    at.ask("one on standard input", ["diff", "--show", TRACE, one, "-"], differ, given=changed)
    at.ask("the trace on standard input", ["diff", "--show", "-", one, other], differ, given=TRACE)
    at.ask("the trace and a report as -", ["diff", "--show", "-", one, "-"], TAKEN, given=TRACE)
    at.ask("the trace and both reports as -", ["diff", "--show", "-"], TAKEN, given=TRACE)
    at.ask("nothing differs", ["diff", "--show", TRACE, one, one], Answer(0, EQUAL, b""))
    more, less = at.put("more", report.replace(line, line + b"\n1 user=7 res=4 posted\n0x user=1")), at.put("less", report.replace(line + b"\n", b""))
    text = b"- " + line + b"\n" + entry + b"- 1 user=7 res=4 posted\n- 0x user=1\n" + EQUAL.replace(b"entries 1 equal, 0 different", b"entries 0 equal, 3 different")
    at.ask("places that the trace lacks", ["diff", "--show", TRACE, more, less], Answer(4, text, b""))
    unchecked = at.put("unchecked", report.replace(b"posted", b"posted unchecked=word"))
    text = b"~ " + line.replace(b"posted", b"posted unchecked=word") + b"\n" + EQUAL.replace(b"entries 1 equal, 0 different, 0", b"entries 0 equal, 0 different, 1")
    at.ask("a line that is not compared", ["diff", "--show", TRACE, one, unchecked], Answer(0, text, b""))
    at.ask("no trace", ["diff", "--show", one, one, other], refused("Magic at 0"))
    at.ask("no trace and no report", ["diff", "--show", one, TRACE, TRACE], refused("Magic at 0"))
    at.ask("no report", ["diff", "--show", TRACE, one, TRACE], reports_refused("the second does not begin with uring-report 1"))
    at.ask("no file", ["diff", "--show", at.path("none"), one, other], Answer(3, b"", "cannot open {}: No such file or directory (os error 2)\n".format(at.path("none")).encode()))
    at.ask("a full output", ["diff", "--show", TRACE, one, other], Answer(3, b"", b"fault: write\n"), shell='exec "$@" > /dev/full')
    at.ask("into a file", ["diff", "--show", TRACE, one, other, "-o", at.path("out")], Answer(4, b"", b""))
    at.holds("the file has what differs", "out", differ.output, ["less", "more", "one", "other", "unchecked"])
    trace = at.put("trace", read(EXAMPLE + ".trace"))
    at.ask("over the trace", ["diff", "--show", trace, one, other, "-o", trace], IS_AN_INPUT)
    records = os.path.join(EXAMPLES, "version_3", EXAMPLE + ".trace")
    one, other = (at.put(name, text.replace(b"\n0 ", b"\n1 ")) for name, text in (("third", report), ("fourth", changed)))
    at.ask("a trace of version 3, of which the first place is a ring", ["diff", "--show", records, one, other], differ._replace(output=differ.output.replace(b" 0 user", b" 1 user")))
    return at.outcomes


def outputs(program: Program) -> List[Outcome]:
    """The output of each command in a file, by each spelling, with statuses 0 and 4."""
    at = Folder(program)
    done = Answer(0, b"", b"")
    for words, output in COMMANDS.items():
        at.ask("into a file", [*words, TRACE, "--output", at.path("out")], done)
        at.holds("the file has the output of {}".format(spoken(words)), "out", output, [])
    report = read(EXAMPLE + ".report")
    for spelt in (["--output=" + at.path("out")], ["-o", at.path("out")], ["-o" + at.path("out")], ["-o=" + at.path("out")]):
        os.remove(at.path("out"))
        at.ask("another spelling", [*spelt[:0], "serial", *spelt, TRACE], done)
        at.holds("{} is taken".format(spelt[0][:3]), "out", report, [])
    at.put("out", b"what was there before, and is longer than what comes" * 100)
    os.chmod(at.path("out"), 0o600)
    at.ask("a file that is there", ["serial", TRACE, "-o", at.path("out")], done)
    at.holds("it is replaced whole", "out", report, [])
    at.ask("from a pipe", ["serial", "-o", at.path("out")], done, shell='cat "{}" | "$@"'.format(TRACE))
    at.ask("in the working directory", ["serial", TRACE, "-o", "out"], done, shell='cd "{}"; exec "$@"'.format(at.at.name))
    at.holds("it is written there", "out", report, [])
    for words in (["--help"], ["--version"], ["serial", "--help"]):
        os.remove(at.path("out")) if os.path.exists(at.path("out")) else None
        program.run([*words, "--output", at.path("out")], b"")
        at.holds("no file for {}".format(spoken(words)), "out", None, [])
    got = program.run(["serial", TRACE, "-o", at.path("out"), "-o", at.path("out")], b"")
    at.said("two outputs are wrong", None if got.status == 2 and b"cannot be used multiple times" in got.errors else shown(got))
    one, other = at.put("one", report), at.put("other", report.replace(b"res=4", b"res=5"))
    at.ask("reports that differ", ["diff", one, other, "-o", at.path("out")], Answer(4, b"", b""))
    text = program.run(["diff", one, other], b"").output
    at.holds("the file has what differs", "out", text, ["one", "other"])
    return at.outcomes


def links(program: Program) -> List[Outcome]:
    """An output through a symbolic link is what the link leads to, and a file of a part's name is left alone."""
    at = Folder(program)
    report = read(EXAMPLE + ".report")
    at.put("target", b"before")
    os.symlink("target", at.path("link"))
    at.ask("a symbolic link", ["serial", TRACE, "-o", at.path("link")], Answer(0, b"", b""))
    at.holds("the link stays, and leads to the text", "target", report, ["link"])
    at.said("it is a link still", None if os.path.islink(at.path("link")) else "it is none")
    at.put(".uring_replay.0.part", b"left by a run that was ended")
    at.ask("beside what a run left", ["serial", TRACE, "-o", at.path("out")], Answer(0, b"", b""))
    at.holds("what was left stays", ".uring_replay.0.part", b"left by a run that was ended", ["link", "out", "target"])
    return at.outcomes


def no_half_text(program: Program) -> List[Outcome]:
    """Where a run gives no output, or not all, the file is as it was."""
    at = Folder(program)
    out, before = at.put("out", b"before"), b"before"
    at.ask("a refused trace", ["serial", "-o", out], refused("Short at 0"))
    at.ask("a refused trace", ["compare", "-o", at.path("new")], refused("Short at 0"))
    at.ask("lines before a fault", ["serial", "-o", out], Answer(1, b"", read("version_3", "lines_before_a_fault.refused")), given=read("version_3", "lines_before_a_fault.trace"))
    at.ask("refused reports", ["diff", "-o", out], reports_refused("the first does not begin with uring-report 1"))
    at.ask("no memory", ["serial", "-o", out], fault("memory"), given=b"\0" * (1 << 26), shell='ulimit -v 50000; exec "$@"')
    at.ask("a closed input", ["serial", "-o", out], fault("read"), shell='exec "$@" <&-')
    at.holds("the file is as it was", "out", before, [])
    large = large_trace()
    limited = 'trap "" XFSZ; ulimit -f 8; exec "$@"'
    at.ask("a limit on the size of files", ["serial", "-o", out], Answer(3, b"", "cannot write {}: File too large (os error 27)\n".format(out).encode()), given=large, shell=limited)
    at.holds("the file is as it was, and nothing beside it", "out", before, [])
    got = program.run(["serial", "-o", out], large, shell='(ulimit -c 0; ulimit -f 8; exec "$@"); echo "status $?"')
    at.said("ended by the signal of that limit", None if got.output == b"status 153\n" else shown(got))
    at.said("the file is as it was", None if at.get("out") == before else "it has {!r}".format(at.get("out")))
    at.ask("the next run", ["serial", TRACE, "-o", out], Answer(0, b"", b""))
    at.said("it has the report", None if at.get("out") == read(EXAMPLE + ".report") else "it has {!r}".format(at.get("out")))
    return at.outcomes


def large_trace() -> bytes:
    """A trace whose report is larger than some blocks."""
    import traces

    return traces.head(0, 0, 1, 1) + traces.ring() + traces.enter(0, [traces.entry(traces.NOP)] * 20000)


def not_written(program: Program) -> List[Outcome]:
    """Outputs that cannot be written, and why."""
    at = Folder(program)
    os.mkdir(at.path("directory"))
    at.put("file", b"")
    os.mkfifo(at.path("pipe"))
    os.symlink(at.path("loop"), at.path("loop"))
    cases = [("directory", "is a directory"), ("missing/out", "No such file or directory (os error 2)"), ("file/out", "Not a directory (os error 20)"),
             ("pipe", "not a regular file"), ("n" * 256, "File name too long (os error 36)"), ("loop", "Too many levels of symbolic links (os error 40)")]
    for name, why in cases:
        for words in (["serial"], ["compare"], ["check"]):
            at.ask("an output that cannot be written", [*words, TRACE, "-o", at.path(name)], Answer(3, b"", "cannot write {}: {}\n".format(at.path(name), why).encode()))
    at.ask("a device", ["serial", TRACE, "-o", "/dev/full"], Answer(3, b"", b"cannot write /dev/full: not a regular file\n"))
    at.holds("nothing is made", "file", b"", ["directory", "loop", "pipe"])
    if os.geteuid():
        os.chmod(at.path("directory"), 0o500)
        path = at.path("directory/out")
        at.ask("a directory that is only read", ["serial", TRACE, "-o", path], Answer(3, b"", "cannot write {}: Permission denied (os error 13)\n".format(path).encode()))
    return at.outcomes


def not_over_an_input(program: Program) -> List[Outcome]:
    """An output is never an input, by whatever name."""
    at = Folder(program)
    trace, report = at.put("trace", read(EXAMPLE + ".trace")), at.put("report", read(EXAMPLE + ".report"))
    os.symlink("trace", at.path("link"))
    os.link(trace, at.path("hard"))
    for name in ("trace", "link", "hard", "./trace"):
        at.ask("over the input", ["serial", trace, "-o", at.path(name)], IS_AN_INPUT)
        at.ask("over standard input", ["serial", "-o", at.path(name)], IS_AN_INPUT, given=trace)
        at.ask("over standard input as -", ["check", "-", "-o", at.path(name)], IS_AN_INPUT, given=trace)
    other = at.put("other", read(EXAMPLE + ".report"))
    at.ask("over the first report", ["diff", report, other, "-o", report], IS_AN_INPUT)
    at.ask("over the second report", ["diff", report, other, "-o", other], IS_AN_INPUT)
    at.ask("over the second report on standard input", ["diff", report, "-", "-o", other], IS_AN_INPUT, given=other)
    at.holds("the input is as it was", "trace", read(EXAMPLE + ".trace"), ["hard", "link", "other", "report"])
    at.said("and so is the report", None if at.get("report") == read(EXAMPLE + ".report") == at.get("other") else "it has changed")
    return at.outcomes


def vanishing(program: Program) -> List[Outcome]:
    """Names that go away while the program runs: an input is read on, and an output that has no directory is told."""
    at = Folder(program)
    os.mkdir(at.path("away"))
    pipe, out = at.path("pipe"), at.path("away/out")
    os.mkfifo(pipe)

    def run(words: Words, meanwhile: Callable[[], None]) -> Answer:
        """Runs it, removes what is to go once it has opened the pipe, and then feeds it."""
        started = subprocess.Popen([program.file, *words], stdin=subprocess.DEVNULL, stdout=subprocess.PIPE, stderr=subprocess.PIPE)
        with open(pipe, "wb") as feed:
            meanwhile()
            feed.write(read(EXAMPLE + ".trace"))
        output, errors = started.communicate(timeout=60)
        return Answer(started.returncode, output, errors)

    # (a short wait, in which the run comes from opening its input to reading it)
    def directory_goes() -> None:
        import time

        time.sleep(0.3)
        os.rmdir(at.path("away"))

    got = run(["serial", pipe, "-o", out], directory_goes)
    at.said("the directory of the output goes away", difference(got, Answer(3, b"", "cannot write {}: No such file or directory (os error 2)\n".format(out).encode())))
    got = run(["serial", pipe], lambda: os.remove(pipe))
    at.said("the name of the input goes away", difference(got, Answer(0, read(EXAMPLE + ".report"), b"")))
    return at.outcomes


def at_terminals(program: Program) -> List[Outcome]:
    """A terminal as the input is none, where no file is named; at one as standard error a second line says what to do."""
    at = Folder(program)
    ours, theirs = pty.openpty()
    for words in (["serial"], ["run"], ["compare"], ["rounds"], ["depends"], ["check"], ["diff"], ["serial", "-o", at.path("out")]):
        ran = subprocess.run([program.file, *words], stdin=theirs, stdout=subprocess.PIPE, stderr=subprocess.PIPE, timeout=60)
        at.said("no input at a terminal: {}".format(words[0]), difference(Answer(ran.returncode, ran.stdout, ran.stderr), Answer(2, b"", NO_INPUT.encode())))
    ran = subprocess.run([program.file, "check", TRACE], stdin=theirs, stdout=subprocess.PIPE, stderr=subprocess.PIPE, timeout=60)
    at.said("a file at a terminal", difference(Answer(ran.returncode, ran.stdout, ran.stderr), Answer(0, read(EXAMPLE + ".check"), b"")))
    os.close(ours)
    os.close(theirs)
    trace = read(EXAMPLE + ".trace")
    cases = [
        ("a report", read(EXAMPLE + ".report"), "trace refused: Magic at 0", "hint: the input is not a trace."),
        ("an empty input", b"", "trace refused: Short at 0", "hint: the input is empty."),
        ("another version", trace[:8] + b"\x09" + trace[9:], "trace refused: Version at 8", "hint: the trace has a version that this program does not read"),
        ("a short trace", trace[:100], "trace refused: Short at 100", "hint: the trace is cut off."),
    ]
    for label, given, line, hint in cases:
        status, said = errors_at_terminal(program, ["check"], given)
        lines = said.split("\r\n")
        well = status == 1 and lines[0] == line and lines[1].startswith(hint)
        at.said("{}, told at a terminal".format(label), None if well and len(lines) == 3 else "status {}, {!r}".format(status, said))
    return at.outcomes


def errors_at_terminal(program: Program, words: Words, given: bytes) -> Tuple[int, str]:
    """The status of a run, and what it says on a terminal as standard error."""
    ours, theirs = pty.openpty()
    ran = subprocess.run([program.file, *words], input=given, stdout=subprocess.DEVNULL, stderr=theirs, timeout=60)
    os.close(theirs)
    said = b""
    try:
        while True:
            piece = os.read(ours, 4096)
            if not piece:
                break
            said += piece
    except OSError:
        pass
    os.close(ours)
    return ran.returncode, said.decode("utf-8", "replace")


def versions(program: Program) -> List[Outcome]:
    """The version by both spellings, on standard output."""
    at = Folder(program)
    wanted = Answer(0, b"uring_replay 0.1.0\ntrace formats 1, 2 and 3\nreport formats 1 and 2\n", b"")
    for words in (["--version"], ["-V"]):
        at.ask("the version", words, wanted)
        at.ask("a full output", words, fault("write"), shell='exec "$@" > /dev/full')
    for words in (["serial", "--version"], ["--version", "--bogus"][::-1]):
        got = program.run(words, b"")
        at.said("no version: {}".format(spoken(words)), None if got.status == 2 and not got.output else shown(got))
    return at.outcomes


def kit() -> List[Outcome]:
    """README names a kit with the logic of the one that is here. Kits of one logic check the same proofs."""
    label = "README names the logic of the kit"
    if not shutil.which("rt"):
        return skipped(label, "there is no command rt")
    ran = subprocess.run(["rt", "version"], stdin=subprocess.DEVNULL, stdout=subprocess.PIPE, stderr=subprocess.STDOUT)
    version = ran.stdout.decode("utf-8", "replace").strip()
    with open(os.path.join(TOP, "README.md"), encoding="utf-8") as file:
        named = re.findall(r"`rattle-kit-\S+ (logic [0-9a-f]+)`", file.read())
    is_named = len(named) == 1 and version.endswith(" " + named[0])
    return [Outcome(label, None if is_named else "README has {}, and rt version says {!r}".format(named, version))]


def examples_of_help(program: Program) -> List[Outcome]:
    """The help of each command has an example, which the program takes as it stands."""
    at = Folder(program)
    at.put("a.trace", read(EXAMPLE + ".trace"))
    at.put("b.report", read(EXAMPLE + ".report"))
    for command in ("serial", "run", "compare", "rounds", "depends", "check", "diff"):
        said = program.run([command, "--help"], b"").output.decode("utf-8", "replace")
        found = re.search(r"^Example: uring_replay ([^|\n]*)", said, re.M)
        if command == "diff":
            at.put("a.report", read(EXAMPLE + ".report"))
        words = found[1].split() if found else []
        got = program.run(words, b"", shell='cd "{}"; exec "$@"'.format(at.at.name))
        at.said("the example of {}".format(command), None if words[:1] == [command] and got.status == 0 else "{}: {}".format(spoken(words), shown(got)))
    said = program.run(["--help"], b"").output.decode("utf-8", "replace")
    lines = re.findall(r"^  uring_replay (.*)$", said, re.M)
    for line in lines:
        got = program.run(line.split(), b"", shell='cd "{}"; exec "$@"'.format(at.at.name))
        at.said("the example {}".format(line), None if got.status == 0 else shown(got))
    at.said("help has examples", None if len(lines) >= 3 else "it has {}".format(lines))
    return at.outcomes


def devices(shim: Shim, program: Program) -> List[Outcome]:
    """Each read of a named input and each write of a named output fails, is interrupted, would block, moves one byte or none."""
    at = Folder(program)
    report = read(EXAMPLE + ".report")
    errors = {"fail": "Input/output error (os error 5)", "interrupt": "Interrupted system call (os error 4)", "block": "Resource temporarily unavailable (os error 11)"}
    out, faults, runs = at.path("out"), [], 0
    words = ["serial", TRACE, "-o", out]
    # (the input is the first descriptor that is free, the file beside the output the next one)
    for on, is_input in ((3, True), (4, False)):
        for is_byte in (0, 1):
            _, (calls,) = shim.run(program, words, b"", on=on, byte=is_byte)
            if not calls:
                faults.append("descriptor {} has no call".format(on))
            for how in ("fail", "interrupt", "block", "zero", "short"):
                for call in sorted({1, 2, 3, calls // 2, calls - 1, calls} & set(range(1, calls + 1))):
                    at.put("out", b"before")
                    got, _ = shim.run(program, words, b"", on=on, how=how, at=call, byte=is_byte)
                    runs += 1
                    left = (at.get("out"), at.names())
                    well = left == (report if got.status == 0 else b"before", ["out"])
                    if how == "short" or (is_input and how == "zero" and call == calls):
                        well = well and got == Answer(0, b"", b"")
                    elif is_input and how == "zero":
                        well = well and got.status == 1 and got.errors.startswith(b"trace refused: Short at ")
                    elif is_input:
                        well = well and got == fault("read")
                    elif how == "zero":
                        well = well and got.status == 3 and got.errors in (b"fault: write\n", )
                    else:
                        well = well and got == Answer(3, b"", "cannot write {}: {}\n".format(out, errors[how]).encode())
                    if not well:
                        faults.append("descriptor {} {} at call {}: {}, {}".format(on, how, call, shown(got), left))
    at.said("a named input and a named output that fail ({} runs)".format(runs), first(faults))
    return at.outcomes


def memory(shim: Shim, program: Program, words: List[str], output: bytes, status: int, is_from: bool) -> List[Outcome]:
    """Each growth of a run from file to file refused: out of memory is told, and the file is as it was."""
    at = Folder(program)
    out = at.path("out")
    whole = [*words, "--output", out]
    _, (count, _, _, _) = shim.run(program, whole, b"")
    faults, refusals, again = [], 0, 0
    for growth in range(1, min(count, MOST_GROWTHS) + 2):
        at.put("out", b"before")
        got, (_, refused_there, _, _) = shim.run(program, whole, b"", at=growth, **{"from": int(is_from)})
        refusals += refused_there > 0
        left = (at.get("out"), at.names())
        is_done = got == Answer(status, b"", b"") and left == (output, ["out"])
        if refused_there and not is_from and is_done and (again < TRIED_AGAIN or words[0] == "diff"):
            again += 1
        elif not (is_done if not refused_there else got == fault("memory") and left == (b"before", ["out"])):
            faults.append("growth {}: {}, {}".format(growth, shown(got), left))
    if not refusals:
        faults.append("no growth was refused")
    at.said("growths refused{}: {} into a file ({} of {})".format(" from one on" if is_from else "", words[0], refusals, count), first(faults))
    return at.outcomes


def jobs(programs: List[Program]) -> List[Job]:
    made: List[Job] = [kit]
    tests = (inputs, not_opened, two_files, shown_entries, outputs, links, no_half_text, not_written, not_over_an_input, vanishing, at_terminals, versions, examples_of_help)
    made += [partial(test, program) for program in programs for test in tests]
    device, refuse = Shim("device", 1), Shim("refuse", 4)
    lacking = device.lacking() or refuse.lacking()
    if lacking:
        return [*made, partial(skipped, "failing devices and out of memory, by names", lacking)]
    made += [partial(devices, device, program) for program in programs]
    report, sums = (os.path.join(EXAMPLES, EXAMPLE + ending) for ending in (".report", ".sums"))
    for is_from in (False, True):
        for words, output in ((["serial", TRACE], read(EXAMPLE + ".report")), (["serial", RECORDS], read("version_3", EXAMPLE + ".report")), (["compare", TRACE], b"equal\n"),
                              (["check", TRACE], read(EXAMPLE + ".check")), (["diff", report, sums], EQUAL + TWO_SUMS)):
            made.append(partial(memory, refuse, programs[0], words, output, 0, is_from))
    return made
