"""The fixed answers that the second readers have to give: those that stand in examples/, and those that were worked out by hand in the tests. Each is
asked of readers that are given, so that mutants.py can ask changed ones."""
import os
import re
from functools import partial
from types import ModuleType
from typing import Any, Callable, Dict, Iterator, List, NamedTuple, Optional, Tuple

import diffs
import making
import recorded
import reports
import text
from harness import EXAMPLES, Answer, refused, reports_refused

Readers = Dict[str, ModuleType]
# The rounds of a longer trace take a second.
MOST_IN_ROUNDS = 100_000


class Fixed(NamedTuple):
    """A fixed answer: its name, how readers are asked, and what they have to give."""

    name: str
    give: Callable[[Readers], Any]
    wanted: Any

    def holds(self, readers: Readers) -> bool:
        return self.give(readers) == self.wanted


# How readers are asked.


def checked(readers: Readers, trace: bytes) -> Answer:
    try:
        return Answer(0, readers["model_records"].answer(trace).encode(), b"")
    except readers["model"].Refused as fault:
        return refused(str(fault))


def report(trace: bytes, has_sums: bool, readers: Readers) -> bytes:
    return readers["model_records"].report(trace, has_sums)


def lines(trace: bytes, readers: Readers) -> bytes:
    return readers["model_records"].lines_before(trace)


def numbers_of_rounds(trace: bytes, window: int, readers: Readers) -> List[bytes]:
    return re.findall(rb"^\d+ round=(\d+)", readers["model_rounds"].rounds(trace, window), re.M)


def rounds(trace: bytes, has_graph: bool, readers: Readers) -> bytes:
    model = readers["model_rounds"]
    return (model.graph if has_graph else model.rounds)(trace, 64)


def depends(trace: bytes, has_graph: bool, readers: Readers) -> bytes:
    model = readers["model_depends"]
    return (model.graph if has_graph else model.depends)(trace)


def shown(trace: bytes, has_places: bool, most: Optional[int], readers: Readers) -> bytes:
    return readers["model_text"].show(trace, has_places, most)


def made(text: bytes, readers: Readers) -> Answer:
    """What `make` answers, where the second reader says whether bytes are a trace."""
    maker = readers["model_make"]
    try:
        found = maker.made_of(text)
    except maker.Refused as fault:
        return Answer(1, b"", maker.refusal_line(text, fault.at, fault.why))
    told = checked(readers, found.trace)
    return Answer(1, b"", maker.refusal_of(text, found, told.errors)) if told.status else Answer(0, found.trace, b"")


def are_alike(text: bytes, other: bytes, readers: Readers) -> bool:
    """Whether two texts mean one trace."""
    return readers["model_make"].make(text) == readers["model_make"].make(other)


def as_kernel(trace: bytes, kernel: str, readers: Readers) -> str:
    return recorded.compared(readers["model_records"].report(trace).decode(), kernel).lines()


def differences(given: Tuple[bytes, ...], options: Tuple[str, ...], readers: Readers) -> Answer:
    """What `diff` answers of one input, or of two texts, each in a file of its own."""
    model, terms = readers["model_diff"], [it in options for it in (diffs.STRICT, diffs.TRUNCATED)]
    try:
        told, passes = model.difference(*given, *terms) if len(given) == 1 else model.difference_of_two(*given, *terms)
        return Answer(0 if passes else 4, told, b"")
    except model.Refused as fault:
        return reports_refused(str(fault), model.early(*given) if len(given) == 2 else b"")


# The answers.


def read_file(path: str) -> bytes:
    with open(path, "rb") as file:
        return file.read()


def of_example(path: str, endings: List[str]) -> Iterator[Fixed]:
    """What stands beside an example."""
    trace, name = read_file(path + ".trace"), os.path.relpath(path, EXAMPLES)
    if ".refused" in endings and ".lines" not in endings:
        yield Fixed("the lines before {}.refused".format(name), partial(lines, trace), b"")
    wholes = (
        (".refused", lambda it: checked(it, trace).errors), (".check", lambda it: checked(it, trace).output), (".lines", partial(lines, trace)),
        (".report", partial(report, trace, False)), (".sums", lambda it: it["model"].report(trace)), (".waits", partial(rounds, trace, False)),
        (".dot", partial(rounds, trace, True)), (".depends", partial(depends, trace, False)), (".depends.dot", partial(depends, trace, True)),
        (".text", lambda it: it["model_text"].show(trace)),
    )
    yield from (Fixed(name + it, give, read_file(path + it)) for it, give in wholes if it in endings)
    if ".text" in endings:
        yield Fixed("the trace of {}.text".format(name), partial(made, read_file(path + ".text")), Answer(0, trace, b""))
    if ".kernel" in endings:
        yield Fixed(name + ".diff", partial(as_kernel, trace, read_file(path + ".kernel").decode()), read_file(path + ".diff").decode())
    for line in read_file(path + ".rounds").splitlines() if ".rounds" in endings and len(trace) <= MOST_IN_ROUNDS else ():
        window, wanted = line[len(b"window ") :].split(b":")
        yield Fixed("{}.rounds, window {}".format(name, int(window)), partial(numbers_of_rounds, trace, int(window)), wanted.split())


def of_examples() -> Iterator[Fixed]:
    for at, _, files in sorted(os.walk(EXAMPLES)):
        endings: Dict[str, List[str]] = {}
        for file in sorted(files):
            name, dot, ending = file.partition(".")
            endings.setdefault(name, []).append(dot + ending)
        for name, found in endings.items():
            if ".trace" in found:
                yield from of_example(os.path.join(at, name), found)


def of_texts() -> Iterator[Fixed]:
    """Texts with places and of a part, mistakes in texts, and texts as people write them."""
    for name, has_places, most, wanted in text.by_hand():
        label = "{}.text {}".format(name, "with places" if has_places else "of {} bytes".format(most))
        yield Fixed(label, partial(shown, read_file(os.path.join(EXAMPLES, name + ".trace")), has_places, most), wanted)
    for mistake, told in making.MISTAKES:
        yield Fixed("the mistake {!r}".format(mistake[-60:]), partial(made, mistake.encode()), Answer(1, b"", "text refused: {}\n".format(told).encode()))
    for one, other in making.by_hand():
        yield Fixed("the text {!r}".format(other[-60:]), partial(are_alike, one.encode(), other.encode()), True)


def of_streams() -> Iterator[Fixed]:
    """What the example of docs/FORMAT.md may have written as it comes, and what it gives where it is cut off: its start has 85 bytes, its ring ends at 125
    and its entry at 201."""
    path = os.path.join(EXAMPLES, "version_3", "read_four_bytes")
    trace, whole = read_file(path + ".trace"), read_file(path + ".report")
    heading, line = whole.splitlines(keepends=True)[:2]
    yield Fixed("what a stream may have written", lambda it: it["model_records"].beginnings(trace), [b"", heading, heading, heading + line])
    yield Fixed("what a stream of version 1 may have written", lambda it: it["model_records"].beginnings(b"URINGTRC" + bytes([1])), [b""])
    yield Fixed("what may be written before a start is whole", lambda it: it["model_records"].beginnings(trace[:84]), [b""])
    yield Fixed("a trace that is cut before its end", lambda it: it["model_records"].cut_off(trace[:201], False), (whole, 201))
    yield Fixed("a trace that is cut in its entry", lambda it: it["model_records"].cut_off(trace[:200], False), (whole.replace(line, b""), 125))


def of_reports() -> Iterator[Fixed]:
    for it in diffs.refusals():
        yield Fixed(it.name, partial(differences, (it.one, it.other), ()), reports_refused(it.line, it.early))
    for it in diffs.refused_when_truncated():
        yield Fixed(it.name, partial(differences, (it.one, it.other), (diffs.TRUNCATED,)), reports_refused(it.line, it.early))
    for it in diffs.counted():
        for given in ((it.one, it.other), (it.one + it.other,)):
            yield Fixed(it.name, partial(differences, given, it.options), Answer(it.status, it.output(), b""))
    for name, text, wanted in (*reports.refusals(), *reports.refusals_by_places(), *reports.comparisons(), *reports.examples_by_places()):
        yield Fixed(name, partial(differences, (text,), ()), wanted)


def answers() -> List[Fixed]:
    return [*of_examples(), *of_texts(), *of_streams(), *of_reports()]
