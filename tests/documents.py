"""The documents: transcripts are run and compared, links lead somewhere, named files and functions exist, sentences are short, and
pictures are those that are drawn."""
import os
import re
import shutil
import subprocess
import tempfile
import xml.etree.ElementTree
from functools import partial
from typing import Iterator, List, NamedTuple, Optional, Tuple

import needs
from by_models import MODELS
from harness import EXAMPLES, TOP, Job, Outcome, Program, first, read, skipped

# These have transcripts (```console), which are run; the README is for a first look, and short.
RUN = ("README.md", "docs/GUIDE.md", "docs/RECORDING.md", "docs/PLAYING.md", "docs/FINDING.md")
MOST_LINES = {"README.md": 150}
# In these no sentence outside tables and code is longer.
PLAIN = (
    "README.md",
    "CHANGELOG.md",
    "CONTRIBUTING.md",
    "examples/README.md",
    "docs/README.md",
    "docs/ACCESS.md",
    "docs/ADDING-AN-OPCODE.md",
    "docs/DEPENDS.md",
    "docs/DESIGN.md",
    "docs/FINDING.md",
    "docs/FORMAT.md",
    "docs/GLOSSARY.md",
    "docs/GUARANTEES.md",
    "docs/GUIDE.md",
    "docs/INTERLEAVING.md",
    "docs/JSON.md",
    "docs/LINUX.md",
    "docs/MODEL.md",
    "docs/PERFORMANCE.md",
    "docs/PLAYING.md",
    "docs/PROFILE.md",
    "docs/PROVING.md",
    "docs/RECORDING.md",
    "docs/TESTING.md",
)
MOST_WORDS = 35
SECONDS = 120
# What a transcript may need, by a word in its commands, and what the machine then has to have.
TOOLS = (("-luring", "liburing"), ("parallel ", "parallel"), ("zstd ", "zstd"), ("dot -", "dot"), ("jq ", "jq"))
FENCED = re.compile(r"^```(\w*)\n(.*?)^```$", re.S | re.M)
LINK = re.compile(r"\[[^\]]*\]\(([^)#\s]+)(?:#[^)]*)?\)")
CODE = re.compile(r"`([^`\n]+)`")
# Words of commands that need the tools.
OF_TOOLS = ("uring_record", "uring_play", "uring_minimise", "uring_campaign", "demo/lines")
# A file of the repository: not a header of the kernel, and not one that a transcript makes.
FILE = re.compile(r"(?<![\w-])(?!linux/|sys/|asm-generic/|demo/)\b[\w.-]+(?:/[\w.-]+)+\.(?:rt|antt|py|c|h|md|trace|txt)")
# A name of the code, as documents write it: with an underscore, or Type::name.
NAME = re.compile(r"(?:[A-Z]\w*::)?([a-z][a-z0-9]*(?:_[a-z0-9]+)+)")
SOURCES = (".rt", ".antt", ".py", ".c", ".h")
# In this each promise names its functions and then the files that have them.
PROMISES = "docs/GUARANTEES.md"
# Names in code with nothing but commas between them. `same file` stands for the files before.
TOGETHER = re.compile(r"(`[^`\n]+`(?:(?:, | and )`[^`\n]+`)*)(, same file)?")
NAMES_AND_FILES = re.compile(r"((?:`[^`/.]+`(?:, | and )?)+)((?:`[\w/]+\.(?:rt|antt)`(?:, | and )?)*)")
IDENTIFIER = re.compile(r"(?:[A-Z]\w*::)?([A-Za-z]\w*)")
DEFINED = r"\b(?:fn|struct|enum|trait|record|data|abbrev|unfoldable)(?: pub)? {}\b"
LEAST_PROMISED = 100


def documents() -> List[str]:
    found = [it for it in os.listdir(TOP) if it.endswith(".md")]
    return ["examples/README.md"] + sorted(found) + sorted("docs/" + it for it in os.listdir(os.path.join(TOP, "docs")) if it.endswith(".md"))


def text_of(name: str) -> str:
    with open(os.path.join(TOP, name), encoding="utf-8") as file:
        return file.read()


# --- What is written ----------------------------------------------------------------------------------------------

def sentences(text: str) -> Iterator[str]:
    """The sentences outside code, tables and headings."""
    text = FENCED.sub("\n\n", text)
    lines = ["" if re.match(r"( {4}|\||#)", line) else re.sub(r"^\s*(?:[-*>]|\d+\.)\s+", "\n", line) for line in text.splitlines()]
    for paragraph in re.split(r"\n\s*\n", "\n".join(lines)):
        flat = re.sub(r"\s+", " ", CODE.sub("CODE", paragraph)).strip()
        yield from re.split(r"(?<=[.!?:;])\*{0,2} ", flat)


def is_short(name: str) -> Outcome:
    faults = ["{} words: {!r}".format(len(it.split()), it[:120]) for it in sentences(text_of(name)) if len(it.split()) > MOST_WORDS]
    return Outcome("{}: no sentence over {} words".format(name, MOST_WORDS), first(faults))


def of_lines(name: str) -> Outcome:
    count = len(text_of(name).splitlines())
    return Outcome("{}: at most {} lines".format(name, MOST_LINES[name]), "it has {}".format(count) if count > MOST_LINES[name] else None)


def links(name: str) -> Outcome:
    """Whether each link leads to a file that is there."""
    folder = os.path.dirname(os.path.join(TOP, name))
    targets = [it for it in LINK.findall(FENCED.sub("", text_of(name))) if "://" not in it]
    lost = [it for it in targets if not os.path.exists(os.path.join(folder, it))]
    return Outcome("{}: its links".format(name), first(["{} is not there".format(it) for it in lost]))


def words_of_sources() -> set:
    """Every word of the code, of definitions, tests and tools."""
    words = set()
    for folder in ("crates", "tests", "tools", "bench", "examples"):
        for at, folders, names in os.walk(os.path.join(TOP, folder)):
            folders[:] = [it for it in folders if it != "out"]
            words.update(folders)
            for name in names:
                words.add(name.rsplit(".", 1)[0])
                if name.endswith(SOURCES) or "." not in name:
                    with open(os.path.join(at, name), encoding="utf-8", errors="replace") as file:
                        words.update(re.findall(r"\w+", file.read()))
    return words


def is_file(path: str, name: str) -> bool:
    """Whether a path that a document gives is there: from the top, from the document, below crates/, or in a crate."""
    crates = os.path.join(TOP, "crates")
    roots = [TOP, os.path.dirname(os.path.join(TOP, name)), crates, *(os.path.join(crates, it) for it in os.listdir(crates))]
    return any(os.path.exists(os.path.join(root, path)) for root in roots)


def names(name: str, words: set) -> Outcome:
    """Whether the files and functions that are named in code exist."""
    told = CODE.findall(FENCED.sub("", text_of(name)))
    faults = ["no file {}".format(it) for text in told for it in FILE.findall(text) if not text.startswith("/") and not is_file(it, name)]
    for text in told:
        called = NAME.fullmatch(text)
        if called and called[1] not in words:
            faults.append("no name {}".format(text))
    return Outcome("{}: the files and names that it gives".format(name), first(sorted(set(faults))))


def promised(text: str) -> Iterator[Tuple[str, List[str]]]:
    """Each name that a text gives ahead of files, with these files."""
    files: List[str] = []
    for together, same in TOGETHER.findall(text):
        # Names, and then the files that have them; behind these more names may come.
        for names, paths in NAMES_AND_FILES.findall(together):
            files = CODE.findall(paths) or files
            if paths or same:
                yield from ((it, files) for it in CODE.findall(names))


def is_defined(name: str, files: List[str]) -> bool:
    word = IDENTIFIER.fullmatch(name)
    return word is not None and any(re.search(DEFINED.format(word[1]), text_of("crates/" + it)) for it in files if os.path.exists(os.path.join(TOP, "crates", it)))


def promises() -> List[Outcome]:
    """Whether each function that a promise names stands in the file that is named with it."""
    found = list(promised(FENCED.sub("", text_of(PROMISES))))
    faults = ["{} is not defined in {}".format(it, " or ".join(files)) for it, files in found if not is_defined(it, files)]
    planted = [it for it in promised("`no_such`, `replay`, `replay_core/src/parallel.rt`.") if not is_defined(*it)]
    return [
        Outcome("{}: each function is in the file that it names".format(PROMISES), first(faults)),
        Outcome("{}: it names functions with their files".format(PROMISES), "only {}".format(len(found)) if len(found) < LEAST_PROMISED else None),
        Outcome("{}: a name that is gone is found".format(PROMISES), None if [it for it, _ in planted] == ["no_such"] else "{}".format(planted)),
    ]


def diffs(name: str) -> Outcome:
    """Whether each line that a diff of a document adds stands in its file."""
    faults, lines = [], set()
    for line in (it for kind, block in FENCED.findall(text_of(name)) if kind == "diff" for it in block.splitlines()):
        if line.startswith("+++ "):
            with open(os.path.join(TOP, line[4:]), encoding="utf-8") as file:
                lines = set(file.read().splitlines())
        elif line.startswith("+") and line[1:] not in lines:
            faults.append("no line {!r}".format(line[1:]))
    return Outcome("{}: its diffs".format(name), first(faults))


def written() -> List[Outcome]:
    words = words_of_sources()
    outcomes = promises() + [of_lines(it) for it in MOST_LINES] + [is_short(it) for it in PLAIN if os.path.exists(os.path.join(TOP, it))]
    return outcomes + [outcome for it in documents() for outcome in (links(it), names(it, words), diffs(it))]


# --- Transcripts --------------------------------------------------------------------------------------------------

class Step(NamedTuple):
    """A command of a transcript, and the lines that it prints; a line `...` stands for any lines."""

    command: str
    lines: Tuple[str, ...]


def steps(block: str) -> List[Step]:
    found: List[List[str]] = []
    for line in block.rstrip("\n").split("\n"):
        if line.startswith("$ "):
            found.append([line[2:]])
        elif line.startswith("> ") and len(found[-1]) == 1:
            found[-1][0] += "\n" + line[2:]
        else:
            found[-1].append(line)
    return [Step(it[0], tuple(it[1:])) for it in found]


def matches(wanted: Tuple[str, ...], given: str) -> bool:
    parts = [re.escape(it) for it in "\n".join(wanted).split("...")]
    return re.fullmatch(r"\n*" + r".*?".join(parts) + r"\n*", given, re.S) is not None


def lacks(tool: str) -> bool:
    if tool == "liburing":
        return not os.path.exists("/usr/include/liburing.h")
    return not shutil.which(tool)


class Place:
    """A folder as the top of a clone, with both programs in its PATH."""

    def __init__(self, program: Program) -> None:
        self.folder = tempfile.TemporaryDirectory(prefix="uring-replay-documents-")
        self.top = os.path.join(self.folder.name, "top")
        self.bin = os.path.join(self.folder.name, "bin")
        os.makedirs(os.path.join(self.top, "demo"))
        os.mkdir(self.bin)
        for name in ("examples", "bench", "docs", "tests", "tools"):
            os.symlink(os.path.join(TOP, name), os.path.join(self.top, name))
        os.symlink(program.file, os.path.join(self.bin, "uring_replay"))

    def lacking_recorder(self) -> Optional[str]:
        """Builds the tools, or says why nothing can be recorded here."""
        reason = needs.cc() or needs.io_uring() or needs.ptrace()
        if reason:
            return reason
        out = os.path.join(self.folder.name, "out")
        ran = subprocess.run(["make", "-s", "-C", os.path.join(TOP, "tools"), "OUT=" + out], stdout=subprocess.PIPE, stderr=subprocess.STDOUT)
        for name in os.listdir(out) if not ran.returncode else ():
            if name in ("uring_record", "uring_play"):
                os.symlink(os.path.join(out, name), os.path.join(self.bin, name))
        return "the tools cannot be built" if ran.returncode else None

    def run(self, command: str) -> str:
        path = os.pathsep.join([self.bin, os.environ.get("PATH", os.defpath)])
        environment = {**os.environ, "PATH": path, "LC_ALL": "C.UTF-8"}
        ran = subprocess.run(
            ["bash", "-c", command],
            cwd=self.top,
            env=environment,
            stdin=subprocess.DEVNULL,
            stdout=subprocess.PIPE,
            stderr=subprocess.STDOUT,
            timeout=SECONDS,
        )
        return ran.stdout.decode("utf-8", "replace").rstrip("\n")


def transcripts(name: str, program: Program) -> List[Outcome]:
    """Runs the transcripts of a document from the top to the end. One that hangs on what was skipped is skipped."""
    place, outcomes, is_lacking = Place(program), [], False
    no_recorder = place.lacking_recorder()
    for number, (kind, body) in enumerate(FENCED.findall(text_of(name)), 1):
        label = "{}: transcript {}".format(name, number)
        source = re.match(r"(?:/\*|#) (\w+\.(?:c|text)):", body)
        if kind in ("c", "text") and source:
            with open(os.path.join(place.top, "demo", source[1]), "w", encoding="utf-8") as file:
                file.write(body)
        if kind != "console":
            continue
        found = steps(body)
        reason = next((tool + " is not here" for it in found for word, tool in TOOLS if word in it.command and lacks(tool)), None)
        if not reason and no_recorder and any(word in it.command for it in found for word in OF_TOOLS):
            reason = no_recorder
        if not reason and is_lacking and "demo/" in body:
            reason = "an earlier transcript was skipped"
        if reason:
            is_lacking = is_lacking or any("uring_" in it.command and "-o demo/" in it.command or "-luring" in it.command for it in found)
            outcomes += skipped(label, reason)
            continue
        outcomes.append(Outcome(label, first([told for it in found for told in [of_step(place, it)] if told])))
    return outcomes


def of_step(place: Place, step: Step) -> Optional[str]:
    given = place.run(step.command)
    return None if matches(step.lines, given) else "{!r} printed {!r}, wanted {!r}".format(step.command, given[:600], "\n".join(step.lines)[:600])


# --- Pictures -----------------------------------------------------------------------------------------------------

# Pictures in docs/ that tools/uring_timeline draws of an example, each with its trace.
PICTURES = (("docs/qemu_rounds.svg", "recorded/qemu_disk_image"),)


def timeline(words: List[str], given: bytes) -> Tuple[int, bytes]:
    command = [os.path.join(TOP, "tools", "uring_timeline"), *words]
    ran = subprocess.run(command, input=given, stdout=subprocess.PIPE, stderr=subprocess.DEVNULL, timeout=SECONDS)
    return ran.returncode, ran.stdout


def nodes_in(picture: bytes, tag: str) -> int:
    return sum(it.tag.endswith("}" + tag) for it in xml.etree.ElementTree.fromstring(picture).iter())


# Ten reads of 100 bytes, of 1 to 10 microseconds, the last of which ends 1 millisecond after the first began; and an entry without times.
TIMED = b"uring-report 1\nring 0\n" + b"".join(b"%d user=0 res=100 posted op=22 submitted=%d completed=%d\n" % (it, 990_000 * (it == 9), 990_000 * (it == 9) + 1_000 * (it + 1))
                                              for it in range(10)) + b"10 user=0 op=0\nend\n"


TIMED_BY_PLACES = b"uring-report 2\n1 ring=3 user=1 res=4 posted submitted=10 completed=500\n4 ring=9 user=1 res=4 posted submitted=20 completed=800\nend\n"


def of_version_3(files: List[str]) -> Outcome:
    """Of a trace of version 3 each place has its box, in the lane of its ring, by the models."""
    trace = read("version_3", "slots_get_what_is_held_then.trace")
    texts = [MODELS.run([it], trace).output for it in ("rounds", "serial")]
    for file, text in zip(files, texts):
        with open(file, "wb") as opened:
            opened.write(text)
    status, picture = timeline(files, b"")
    is_well = status == 0 and nodes_in(picture, "title") == texts[0].count(b" round=") + texts[0].count(b" after=")
    lanes = [it for it in (b">ring 0<", b">ring 1<", b">other steps<") if picture.count(it) != 1]
    return Outcome("tools/uring_timeline: a trace of version 3", None if is_well and not lanes else "status {}, lacks {}".format(status, lanes))


def is_table(got: Tuple[int, bytes]) -> Optional[str]:
    rows = {tuple(it.split()[:-1]): it.split()[-1] for it in got[1].decode().splitlines()[1:]}
    wanted = {("all", "entries"): "10", ("all", "seconds"): "0.001", ("all", "entries/s"): "10000", ("all", "MB/s"): "1.0", ("READ", "entries"): "10",
              ("READ", "50%", "us"): "5.0", ("READ", "99%", "us"): "10.0", ("READ", "99.9%", "us"): "10.0"}
    return None if got[0] == 0 and rows == wanted else "status {}, {}".format(got[0], rows)


def pictures(program: Program) -> List[Outcome]:
    """The pictures are those of the examples; each place has its box, and what is no text of rounds is refused."""
    outcomes = []
    with tempfile.TemporaryDirectory(prefix="uring-replay-pictures-") as folder:
        for name, trace in PICTURES:
            texts = [program.run([it], os.path.join(EXAMPLES, trace + ".trace")).output for it in ("rounds", "serial")]
            files = [os.path.join(folder, it) for it in ("rounds", "report")]
            for file, text in zip(files, texts):
                with open(file, "wb") as opened:
                    opened.write(text)
            status, picture = timeline(files, b"")
            fault = None if (status, picture.decode()) == (0, text_of(name)) else "tools/uring_timeline draws another, with status {}".format(status)
            outcomes.append(Outcome("{}: as drawn".format(name), fault))
            boxes, places = nodes_in(picture, "title"), texts[0].count(b" round=") + texts[0].count(b" after=")
            outcomes.append(Outcome("{}: places and waits".format(name), None if boxes == places else "{} of {} are drawn".format(boxes, places)))
        outcomes.append(of_version_3(files))
        timed = b"uring-report 1\nring 3\n0 user=1 res=4 posted submitted=10 completed=500\nend\n"
        cases = (("a text of times", timed, 0), ("a text of times of version 3", TIMED_BY_PLACES, 0), ("a report without times", texts[1], 1), ("a trace", b"URINGTRC", 1))
        for label, given, wanted in cases:
            status, _ = timeline([], given)
            outcomes.append(Outcome("tools/uring_timeline: {}".format(label), None if status == wanted else "status {}, wanted {}".format(status, wanted)))
        outcomes.append(Outcome("tools/uring_timeline --table", is_table(timeline(["--table"], TIMED))))
    return outcomes


def jobs(programs: List[Program]) -> List[Job]:
    here = [it for it in RUN if os.path.exists(os.path.join(TOP, it))]
    return [written, partial(pictures, programs[0]), *(partial(transcripts, name, programs[0]) for name in here)]
