"""What `--json` prints: an object for each line of the text that the same words print without it. Python's json reads the objects; a reader of
its own, by a pattern for each kind of line, says what they have to be. The traces are the examples and drawn ones; `diff` also gets reports with
any bytes in them."""
import json
import os
import re
from functools import partial
from typing import Any, List, Optional, Sequence, Tuple

from drawing import Draw, by_places
from drawing import two_reports as two_drawn_reports
from examples import names as examples
from harness import EXAMPLES, Answer, Job, Outcome, Program, Words, difference, first, read, spoken, two_reports

# How many traces are drawn, in how many lots.
DRAWN, LOTS = 300, 6
COMMANDS = (["check"], ["serial"], ["serial", "--all-sums", "--names"], ["run", "--workers", "3"], ["rounds", "--window", "5"], ["depends"])
USAGE = 2

Pairs = List[Tuple[str, Any]]

# The facts of reports that are numbers; every other one is a string.
WHOLE = {"ring", "node", "desc", "len", "res", "round", "after"}
COUNT = r"(?P<{0}>\d+)"
COUNTS = ("rounds", "widest", "longest", "span")
TEXTS = ("mean", "places", "pairs", "parallelism", "bytes", "span-bytes", "parallelism-bytes")


def facts(text: str) -> Pairs:
    """The facts behind the first words of a line, each behind a space."""
    found: Pairs = []
    while text:
        if text.startswith(" on="):
            return found + [("on", text[4:])]
        word = re.match(r" ([^ ]*)", text)
        text, (name, sign, value) = text[word.end():], word[1].partition("=")
        if word[1] in ("posted", "silent"):
            found.append(("posted", word[1] == "posted"))
        elif not sign:
            found.append((name, True))
        else:
            found.append((name, int(value) if name in WHOLE and re.fullmatch(r"-?(0|[1-9]\d*)", value) else value))
    return found


def meant(line: str) -> Pairs:
    """The object of a line."""
    told = re.match(r"([-+~]) ", line)
    if told:
        return [("sign", told[1]), *meant(line[2:])]
    place = re.match(r"(\d+)(?= |$)", line)
    if place:
        rest = line[place.end():]
        kind = "place" if not rest or rest.startswith(" round=") else "pair" if rest.startswith(" after=") else "entry"
        return [("kind", kind), ("place", int(place[1])), *facts(rest)]
    for pattern, keys in (
        (r"(dir|file|link) ([^ ]*)", [("path", str)]),
        (r"(slot) (\d+) (\d+)", [("ring", int), ("slot", int)]),
        (r"(buffer) (\d+) (\d+)", [("ring", int), ("number", int)]),
        (r"(descriptor) (\d+)", [("number", int)]),
        (r"(ring) (\d+)", [("ring", int)]),
        (r"(uring-report|uring-rounds|uring-depends) (\d+)", [("version", int)]),
        (r"(ok) (\d+) places (\d+) rings$", [("places", str), ("rings", int)]),
        (r"(entries|tree|slots|buffers) (\d+) equal, (\d+) different, (\d+) unchecked, (\d+) given$",
         [("equal", int), ("different", int), ("unchecked", int), ("given", int)]),
        (r"(not compared): data (\d+) entries, sums (\d+), large (\d+)$", [("data", int), ("sums", int), ("large", int)]),
    ):
        found = re.match(pattern, line)
        if found:
            return [("kind", found[1]), *((key, to(it)) for (key, to), it in zip(keys, found.groups()[1:])), *facts(line[found.end():])]
    summed = re.match(r"([a-z-]+) (\d+(?:\.\d\d)?)(?: to place (\d+))?$", line)
    if summed and summed[1] in COUNTS + TEXTS:
        value = int(summed[2]) if summed[1] in COUNTS else summed[2]
        return [("kind", summed[1]), (summed[1], value), *([("place", int(summed[3]))] if summed[3] else [])]
    word = re.match(r"[^ ]*", line)[0]
    return [("kind", word), *facts(line[len(word):])]


def string(text: str) -> str:
    """A string of JSON: a quotation mark and a backslash behind a backslash, and what is not printable as its number."""
    return '"{}"'.format("".join("\\" + it if it in '"\\' else it if " " <= it <= "~" else "\\u{:04x}".format(ord(it)) for it in text))


def value(of: Any) -> str:
    return string(of) if isinstance(of, str) else str(of).lower() if isinstance(of, bool) else str(of)


def objects(text: bytes) -> bytes:
    """The objects of the lines of a text, byte by byte."""
    each = [meant(line.decode("latin-1")) for line in text.split(b"\n") if line]
    return "".join("{{{}}}\n".format(",".join("{}:{}".format(string(key), value(it)) for key, it in pairs)) for pairs in each).encode()


def of_text(text: bytes, lines: bytes) -> Optional[str]:
    """How objects differ from those of the lines of a text, if they do."""
    if lines and not lines.endswith(b"\n") or not lines.isascii():
        return "the objects are no lines of ASCII"
    wanted = [meant(line.decode("latin-1")) for line in text.split(b"\n") if line]
    got = lines.split(b"\n")[:-1]
    if len(got) != len(wanted):
        return "{} objects for {} lines".format(len(got), len(wanted))
    for number, (line, pairs) in enumerate(zip(got, wanted), 1):
        try:
            read_pairs = json.loads(line, object_pairs_hook=list)
        except ValueError as error:
            return "line {}: {}: {!r}".format(number, error, line)
        if [(key, type(value), value) for key, value in read_pairs] != [(key, type(value), value) for key, value in pairs]:
            return "line {} is {!r}, wanted {!r}".format(number, read_pairs, pairs)
    return None


def differs(words: Words, got: Answer, wanted: Answer) -> Optional[str]:
    """How an answer differs from a wanted one, if it does; where the words ask for objects, from that of the objects of its lines."""
    if "--json" not in words:
        return difference(got, wanted)
    return difference(got._replace(output=b""), wanted._replace(output=b"")) or of_text(wanted.output, got.output)


def of_words(program: Program, words: Sequence[str], given: bytes) -> Optional[str]:
    """How the JSON of some words differs from their text, if it does: a refusal is the same."""
    as_json = [*words, "--json"]
    told = differs(as_json, program.run(as_json, given), program.run(words, given))
    return "{}: {}".format(spoken(words), told) if told else None


def of_trace(program: Program, trace: bytes) -> List[str]:
    return [told for words in COMMANDS for told in [of_words(program, words, trace)] if told]


def of_examples(program: Program) -> List[Outcome]:
    outcomes = []
    for name in examples():
        faults = of_trace(program, read(name + ".trace"))
        if os.path.exists(os.path.join(EXAMPLES, name + ".report")):
            faults += [told for told in [of_words(program, ["diff"], two_reports(name))] if told]
        outcomes.append(Outcome("the JSON of {} by {}".format(name, program.compiler), first(faults)))
    return outcomes


def changed(draw: Draw, report: bytes) -> bytes:
    """A report with some of its lines changed, left out or not compared."""
    lines = report.split(b"\n")
    inner = range(1, len(lines) - 2)
    for at in (draw.source.choice(inner) for _ in range(4) if len(inner)):
        line = lines[at]
        lines[at] = draw.source.choice((line + b" unchecked=other", line + b" given=1", line.replace(b"res=", b"res=1"), line.replace(b"size=", b"size=9"), line + b' x="\\\x01\xff', line + b" =",
                                        line + b" bare  posted", line.replace(b"node=", b"node=0"), line.replace(b"desc=", b"desc=-")))
    return b"\n".join(lines)


def of_odd(program: Program, given: bytes) -> List[str]:
    """Of reports with odd lines: each line of what they differ in is an object."""
    text, answer = program.run(["diff"], given), program.run(["diff", "--json"], given)
    told = difference(Answer(answer.status, b"", answer.errors), Answer(text.status, b"", text.errors))
    try:
        objects = [json.loads(line) for line in answer.output.split(b"\n")[:-1]]
    except ValueError as error:
        return ["odd reports: {}".format(error)]
    is_told = len(objects) == text.output.count(b"\n") and all(type(it) is dict and type(it["kind"]) is str for it in objects)
    return ["odd reports: {}".format(told)] if told else [] if is_told else ["odd reports: there is no object for each line"]


def of_drawn(program: Program, seed: int) -> List[str]:
    draw = Draw(seed)
    trace = draw.trace()
    faults = of_trace(program, trace)
    report = program.run(["serial", "--sums"], trace)
    if report.status == 0:
        pairs = [text + changed(draw, text) for text in (report.output, by_places(draw.source, report.output))]
        faults += [told for pair in pairs for told in [of_words(program, ["diff"], pair)] if told]
    return faults + of_odd(program, two_drawn_reports(seed))


def lot(program: Program, seeds: range) -> List[Outcome]:
    faults = ["seed {}: {}".format(seed, told) for seed in seeds for told in of_drawn(program, seed)]
    return [Outcome("the JSON of {} to {} by {}".format(seeds[0], seeds[-1], program.compiler), first(faults))]


def refused(program: Program) -> List[Outcome]:
    """Commands that have no JSON, and graphs."""
    outcomes = []
    for words in (["compare", "--json"], ["show", "--json"], ["rounds", "--dot", "--json"], ["depends", "--json", "--dot"]):
        got = program.run(words, read("read_four_bytes.trace"))
        told = None if (got.status, got.output) == (USAGE, b"") and got.errors.startswith(b"error: ") else "it gives {}".format(got)
        outcomes.append(Outcome("{} is refused by {}".format(spoken(words), program.compiler), told))
    return outcomes


def jobs(programs: List[Program]) -> List[Job]:
    size = DRAWN // LOTS
    lots = [range(at, at + size) for at in range(0, DRAWN, size)]
    found: List[Job] = [partial(part, it) for it in programs for part in (of_examples, refused)]
    return found + [partial(lot, program, it) for program in programs for it in (lots if program is programs[0] else lots[:1])]
