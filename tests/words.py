"""The command line: which words give which status, and on which stream the text comes."""
import re
from functools import partial
from typing import Callable, List

import traces
from harness import Answer, Job, Outcome, Program, Words, difference, fault, read, refused, reports_refused, shown, spoken, two_reports

EXAMPLE = "read_four_bytes"
SUBCOMMANDS = ("serial", "run", "compare", "rounds", "depends", "check", "show", "make", "diff")
WRONG: List[Words] = [
    [], ["bogus"], [""], ["Serial"], ["--sums"], ["version"], ["--output", "out", "serial"],
    ["serial", "a", "extra"], ["serial", "--workers", "2"], ["serial", "--sums", "--sums"], ["serial", "--eager"],
    ["serial", "--names", "--names"], ["run", "--all-sums", "--sums", "--all-sums"], ["serial", "--names=true"], ["run", "--all-sums=1"], ["serial", "--name"],
    ["--names", "serial"], ["check", "--names"], ["check", "--all-sums"], ["compare", "--names"], ["compare", "--all-sums"],
    ["rounds", "--names"], ["rounds", "--all-sums"], ["diff", "--names"], ["diff", "--all-sums"], ["serial", "--all_sums"], ["run", "-n"],
    ["serial", "--output"], ["serial", "-o"], ["serial", "--sums=true"], ["serial", "-s"], ["serial", "--output", "a", "-o", "b"],
    ["check", "a", "extra"], ["check", "--sums"], ["check", "--eager"], ["compare", "--sums"], ["compare", "--eager", "--eager"],
    ["run", "--eager", "--eager"], ["run", "--eager=1"],
    ["run", "--workers"], ["run", "--workers", ""], ["run", "--workers", "0"], ["run", "--workers", "65"],
    ["run", "--workers", "x"], ["run", "--workers", "-1"], ["run", "--workers", "4.5"],
    ["run", "--workers", "99999999999999999999"], ["run", "--workers", "2", "--workers", "2"],
    ["run", "--window", "0"], ["run", "--window", "4097"], ["run", "--window", "18446744073709551617"],
    ["compare", "--workers", "0"], ["compare", "--workers", "65"],
    ["compare", "--window", "0"], ["compare", "--window", "4097"],
    ["rounds", "a", "extra"], ["rounds", "--eager"], ["rounds", "--sums"], ["rounds", "--workers", "2"], ["rounds", "--window", "0"], ["rounds", "--window", "4097"],
    ["rounds", "--dot", "--dot"],
    ["depends", "a", "extra"], ["depends", "--eager"], ["depends", "--sums"], ["depends", "--workers", "2"], ["depends", "--window", "2"],
    ["depends", "--dot", "--dot"],
    ["show", "a", "extra"], ["show", "--sums"], ["show", "--places", "--places"], ["show", "--first"], ["show", "--first", "0"], ["show", "--first", "x"], ["make", "a", "extra"], ["make", "--places"], ["make", "--sums"],
    ["diff", "a", "b", "extra"], ["diff", "--eager"], ["diff", "--sums"], ["diff", "--workers", "2"],
    ["diff", "--show"], ["diff", "--show", "a", "--show", "b"], ["diff", "--show", "a", "--json"], ["diff", "--json", "--show=a", "b", "c"],
    ["serial", "--cut", "--cut"], ["serial", "--cut=1"], ["run", "--cut", "--eager"], ["run", "--json", "--eager", "--cut"],
    ["compare", "--cut"], ["rounds", "--cut"], ["depends", "--cut"], ["check", "--cut"], ["show", "--cut"], ["make", "--cut"], ["diff", "--cut"],
    ["serial", "--show", "a"], ["run", "--show", "a"], ["check", "--show=a"], ["show", "--show", "a"], ["make", "--show", "a"],
]
GOOD: List[Words] = [
    ["serial"], ["run"], ["run", "--workers=64", "--window=4096"], ["run", "--workers", "1", "--window", "1"],
    ["run", "--window", "1", "--workers", "64"], ["run", "--eager"], ["run", "--eager", "--window=2", "--workers", "2"],
    ["run", "--window", "2", "--eager", "-"], ["run", "-", "--eager"], ["serial", "-"], ["serial", "--", "-"], ["serial", "--cut"], ["run", "--cut", "-"],
]
NO_TEXT: List[Words] = [[b"\xff"], ["serial", b"--su\xffms"], ["run", "--workers", b"\xff4"], [b"\xc3"]]


def wrong(program: Program, words: Words) -> List[Outcome]:
    """Wrong words end with 2 and say what is wrong on standard error alone; the trace is not read."""
    got = program.run(words, read(EXAMPLE + ".trace"))
    said = got.errors.decode("utf-8", "replace")
    well = got.status == 2 and not got.output and said.startswith("error: ") and "--help" in said and said.endswith("\n")
    return [Outcome("wrong words: {} by {}".format(spoken(words), program.compiler), None if well else shown(got))]


def no_text(program: Program, words: Words) -> List[Outcome]:
    """A word that is not text is named."""
    got = program.run(words, b"")
    said = got.errors.decode("utf-8", "replace")
    place = next(at for at, word in enumerate(words) if isinstance(word, bytes)) + 1
    named = [re.escape(words[place - 1].decode("utf-8", "replace")), r"\\x(ff|c3)", r"\b{}\b".format(place)]
    well = got.status == 2 and not got.output and "--help" in said and any(re.search(name, said) for name in named)
    return [Outcome("a word that is no text: {} by {}".format(spoken(words), program.compiler), None if well else shown(got))]


def helped(program: Program, words: Words) -> List[Outcome]:
    """Help comes on standard output alone, with the name of the program in its usage."""
    got = program.run(words, None)
    said = got.output.decode("utf-8", "replace")
    of = next((word for word in words if word in SUBCOMMANDS), "")
    usage = "Usage: uring_replay {}".format(of or "<COMMAND>")
    well = got.status == 0 and not got.errors and usage in said and said.endswith("\n")
    return [Outcome("help: {} by {}".format(spoken(words), program.compiler), None if well else "no {!r}, or no line feed at the end: {}".format(usage, shown(got)))]


def statuses(program: Program) -> List[Outcome]:
    """The help lists the exit statuses."""
    said = program.run(["--help"], None).output.decode("utf-8", "replace")
    lacking = [str(status) for status in range(5) if not re.search(r"^\s*{}\b".format(status), said, re.M)]
    return [Outcome("--help lists the statuses by {}".format(program.compiler), "no line begins with {}".format(", ".join(lacking)) if lacking else None)]


def good(program: Program, words: Words) -> List[Outcome]:
    got = program.run(words, read(EXAMPLE + ".trace"))
    return [Outcome("{} by {}".format(spoken(words), program.compiler), difference(got, Answer(0, read(EXAMPLE + ".report"), b"")))]


# Of the example with sums and without them.
TWO_SUMS = b"not compared: data 0 entries, sums 2, large 0\n"


def counted(entries: str) -> bytes:
    """The counts of two reports of the example that differ in entries alone."""
    return "entries {}\n{}".format(entries, "".join(it + " 1 equal, 0 different, 0 unchecked, 0 given\n" for it in ("tree", "slots", "buffers"))).encode()


def reports(program: Program) -> List[Outcome]:
    """What `diff` says of two reports, and of what is not two."""
    report, line = read(EXAMPLE + ".report"), b"0 user=7 res=4 posted data=32333435"
    other, unchecked = (line.replace(b"res=4", b"res=5"), line + b" op=22 unchecked=late")
    alone = b"uring-report 1\nend\n"
    none = "".join(it + " 0 equal, 0 different, 0 unchecked, 0 given\n" for it in ("entries", "tree", "slots", "buffers")).encode()
    first, second = ("the {} does not begin with uring-report 1".format(it) for it in ("first", "second"))
    cases = (
        ("a report and the same", report * 2, Answer(0, counted("1 equal, 0 different, 0 unchecked, 0 given"), b"")),
        ("a report and its sums", two_reports(EXAMPLE), Answer(0, counted("1 equal, 0 different, 0 unchecked, 0 given") + TWO_SUMS, b"")),
        ("another result", report + report.replace(line, other), Answer(4, b"- " + line + b"\n+ " + other + b"\n" + counted("0 equal, 1 different, 0 unchecked, 0 given"), b"")),
        ("unchecked", report + report.replace(line, unchecked), Answer(0, b"~ " + unchecked + b"\n" + counted("0 equal, 0 different, 1 unchecked, 0 given"), b"")),
        ("nothing to compare", alone + alone, Answer(0, none, b"")),
        ("one report", report, reports_refused(second)),
        ("a report with no end", report[:-4], reports_refused("the first has no line end")),
        ("a trace", read(EXAMPLE + ".trace"), reports_refused(first)),
        ("nothing", b"", reports_refused(first)),
    )
    return [Outcome("diff of {} by {}".format(name, program.compiler), difference(program.run(["diff"], given), wanted)) for name, given, wanted in cases]


def asker(program: Program, outcomes: List[Outcome]) -> Callable[..., None]:
    """Gives a call that runs the program on a trace and adds what came of it to the outcomes."""

    def ask(label: str, wanted: Answer, words: Words, shell: str, given: bytes = read(EXAMPLE + ".trace")) -> None:
        got = program.run(words, given, shell=shell)
        outcomes.append(Outcome("{}: {} by {}".format(label, spoken(words), program.compiler), difference(got, wanted)))

    return ask


def outputs(program: Program) -> List[Outcome]:
    """Outputs that are closed, full, or cannot be written."""
    outcomes: List[Outcome] = []
    ask = asker(program, outcomes)
    for words in (["serial"], ["serial", "--sums"], ["run"], ["compare"], ["rounds"], ["rounds", "--dot"], ["depends"], ["check"], ["--help"], ["serial", "--help"]):
        ask("a full output", fault("write"), words, 'exec "$@" > /dev/full')
        ask("a closed output", fault("write"), words, 'exec "$@" >&-')
        ask("an output that is only read", fault("write"), words, 'exec "$@" 1< /dev/null')
    ask("a full output", fault("write"), ["diff"], 'exec "$@" > /dev/full', given=two_reports(EXAMPLE))
    for to in ("> /dev/full", ">&-"):
        ask("a lost line", Answer(2, b"", b""), ["bogus"], 'exec "$@" 2{}'.format(to))
        ask("a lost line", Answer(1, b"", b""), ["serial"], 'exec "$@" 2{}'.format(to), given=b"")
        ask("a lost line", Answer(3, b"", b""), ["serial"], 'exec "$@" <&- 2{}'.format(to))
    return outcomes


def inputs(program: Program) -> List[Outcome]:
    """Inputs that are closed, a directory, cannot be read, end early, or come in pieces."""
    outcomes: List[Outcome] = []
    ask = asker(program, outcomes)
    front = read(EXAMPLE + ".trace")[:100]
    for words in (["serial"], ["run"], ["compare"], ["rounds"], ["depends"], ["check"]):
        ask("a directory", fault("read"), words, 'exec "$@" < /')
        ask("a closed input", fault("read"), words, 'exec "$@" <&-')
        ask("an input that is only written", fault("read"), words, 'exec "$@" 0> /dev/null')
        ask("a closed input and a closed output", fault("read"), words, 'exec "$@" <&- >&-')
        ask("an empty input", refused("Short at 0"), words, 'exec "$@" < /dev/null')
        ask("a pipe that ends early", refused("Short at 100"), words, 'head -c 100 | "$@"')
        ask("a refused trace and a full output", refused("Short at 100"), words, 'exec "$@" > /dev/full', given=front)
    ask("a directory", fault("read"), ["diff"], 'exec "$@" < /')
    pieces = '{ head -c 50; sleep 0.1; head -c 60; sleep 0.1; cat; } | "$@"'
    ask("an input in three pieces", Answer(0, read(EXAMPLE + ".report"), b""), ["serial"], pieces)
    ask("help without an input", program.run(["--help"], None), ["--help"], 'exec "$@" <&-')
    ask("wrong words without an input", program.run(["bogus"], None), ["bogus"], 'exec "$@" <&- >&-')
    return outcomes


def broken_pipe(program: Program) -> List[Outcome]:
    """A reader of the output that goes away: the signal is ignored, and the write fails."""
    label = "a reader that goes away: {{}} by {}".format(program.compiler)
    # (the status of the program comes on standard error, behind its line)
    shell = '{ "$@"; echo "status $?" >&2; } | '
    wanted = Answer(0, b"", b"fault: write\nstatus 3\n")
    large = large_report()
    outcomes = []
    for words in (["serial"], ["run"]):
        got = program.run(words, large, shell=shell + "head -c 1 > /dev/null")
        outcomes.append(Outcome(label.format(spoken(words)), difference(got, wanted)))
    got = program.run(["--help"], None, shell='{ sleep 0.3; "$@"; echo "status $?" >&2; } | :')
    outcomes.append(Outcome(label.format("--help"), difference(got, wanted)))
    return outcomes


def large_report() -> bytes:
    """A trace whose report is larger than a pipe."""
    return traces.head(0, 0, 1, 1) + traces.ring() + traces.enter(0, [traces.entry(traces.NOP)] * 20000)


def limits_of_the_system(program: Program) -> List[Outcome]:
    """The limits that a shell sets: on the size of files, and on memory."""
    label = "{{}} by {}".format(program.compiler)
    large = large_report()
    report = program.run(["serial"], large)
    shell = 'file=$(mktemp); (ulimit -c 0; ulimit -f 8; exec "$@") > "$file"; echo "status $?" >&2; cat "$file"; rm "$file"'
    over = program.run(["serial"], large, shell=shell)
    is_front = 0 < len(over.output) < len(report.output) and report.output.startswith(over.output)
    # 128 and the number of SIGXFSZ
    ended_so = is_front and over.errors.endswith(b"status 153\n")
    fails = program.run(["serial"], large, shell='trap "" XFSZ; ' + shell)
    is_front = 0 < len(fails.output) < len(report.output) and report.output.startswith(fails.output)
    failed_so = is_front and fails.errors == b"fault: write\nstatus 3\n"
    scarce = program.run(["serial"], b"\0" * (1 << 26), shell='ulimit -v 50000; exec "$@"')
    return [
        Outcome(label.format("a limit on file size ends the program by its signal"), None if ended_so else shown(over)),
        Outcome(label.format("a limit on file size, the signal ignored"), None if failed_so else shown(fails)),
        Outcome(label.format("an input larger than the memory"), difference(scarce, fault("memory"))),
    ]


def jobs(programs: List[Program]) -> List[Job]:
    helps: List[Words] = [["--help"], ["-h"], ["help"]]
    for word in SUBCOMMANDS:
        helps += [[word, "--help"], [word, "-h"], ["help", word]]
    made: List[Job] = []
    for program in programs:
        for test, all_words in ((wrong, WRONG), (no_text, NO_TEXT), (helped, helps), (good, GOOD)):
            made += [partial(test, program, words) for words in all_words]
        made += [partial(several, program) for several in (statuses, reports, outputs, inputs, broken_pipe, limits_of_the_system)]
    return made
