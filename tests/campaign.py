"""The tools that look for differences: uring_minimise makes them small, and uring_campaign draws, plays and collects them on a page."""
import html.parser
import json
import os
import re
import shutil
import subprocess
import sys
import tempfile
import xml.etree.ElementTree
from functools import partial
from typing import Dict, List, Optional, Sequence, Set, Tuple

import flight
import play
import play_reads
import record_traces
from by_models import MODELS
from harness import EXAMPLES, TOP, Answer, Job, Outcome, Program, first, read, shown, skipped
from model import World
from mounted import Passthrough
from player import Player
from record_traces import DESCRIPTION, DESCRIPTOR, SLOT, stored
from traces import AT_FDCWD, DRAIN, FIXED_FILE, LINK, NOP, OPENAT, READ, WRITE, description, entry, sums_option

sys.path.append(os.path.join(TOP, "tools", "shared"))
import trace_parts

MINIMISE, CAMPAIGN = (os.path.join(TOP, "tools", it) for it in ("uring_minimise", "uring_campaign"))
SECONDS, FEW = 300, 10
VOID = ("meta", "br", "hr", "img", "link", "input")


def ran(words: Sequence[str], given: bytes = b"") -> Answer:
    got = subprocess.run(words, input=given, stdout=subprocess.PIPE, stderr=subprocess.PIPE, timeout=SECONDS)
    return Answer(got.returncode, got.stdout, got.stderr)


def programs_of(player: Player, program: Program) -> List[str]:
    return ["--replayer", os.path.abspath(program.file), "--player", player.program]


# A player that gets one thing wrong: each WRITE of more than 8 bytes, told as 8.
WRONG = """#!/bin/sh
"{}" "$@" | sed -E '/ op=23/s/ res=(9|[1-9][0-9]+) / res=8 /'
"""


def wrong_player(player: Player) -> str:
    path = os.path.join(player.folder.name, "wrong-player")
    with open(path, "w", encoding="utf-8") as opened:
        opened.write(WRONG.format(player.program))
    os.chmod(path, 0o755)
    return path


# --- uring_minimise ---------------------------------------------------------------------------------------------------

def places_in(program: Program, trace: bytes) -> int:
    return int(program.run(["check"], trace).output.split()[1])


def minimised(player: Player, program: Program, trace: bytes, words: Sequence[str]) -> Tuple[Answer, Dict[str, bytes]]:
    """Minimises a trace, and gives what was said and what was written."""
    with tempfile.TemporaryDirectory(dir=player.folder.name) as folder:
        given, made = os.path.join(folder, "given"), os.path.join(folder, "least.trace")
        with open(given, "wb") as opened:
            opened.write(trace)
        got = ran([MINIMISE, *programs_of(player, program), "--directory", folder, *words, given, made])
        written = {it: play.read(made[:-5] + it) for it in ("trace", "report", "played", "diff") if os.path.exists(made[:-5] + it)}
        return got, written


def least(player: Player, program: Program) -> List[Outcome]:
    """A player that is wrong in one place: of recorded traces and of a drawn one a single write is left."""
    outcomes, wrong = [], wrong_player(player)
    drawn = next(it for it in (play.Played(seed).trace() for seed in range(100)) if b" res=8 " not in told(program, it) and is_shown(program, it))
    for name, trace in (("fio", read("recorded", "fio_polled_queue_three_files.trace")), ("drawn", drawn)):
        got, written = minimised(player, program, trace, ["--player", wrong])
        if got.status:
            outcomes.append(Outcome("uring_minimise: {}".format(name), shown(got)))
            continue
        text = written.get("trace", b"")
        is_well = places_in(program, text) == 1 and program.run(["serial", sums_option(text)], text).output == written["report"] and got.output.startswith(b"kept: WRITE N posted -> ")
        again = program.run(["diff"], written["report"] + written["played"])
        is_well = is_well and again.status == 4 and again.output == written["diff"]
        outcomes.append(Outcome("uring_minimise: {}".format(name), None if is_well else "{} {!r}".format(shown(got), written)))
    return outcomes


def rings_of_rings() -> bytes:
    """A trace of version 3 whose last WRITE goes through a slot that was a slot of another ring before."""
    files = [record_traces.file(b"/a", 40, [(2, b"a"), (30, b"bc")]), record_traces.file(b"/b", 0)]
    on = FIXED_FILE
    early = [entry(READ, on, length=4, user_data=5), entry(OPENAT, fd=AT_FDCWD, own_flags=0x42, file_index=3, side=b"/c"), entry(WRITE, on, 2, length=5, side=b"hello")]
    late = [entry(NOP), entry(READ, on, 0, 3, 4), entry(WRITE, on, 1, 7, 13, b"thirteen byte", user_data=9), entry(READ, on, 1, length=20)]
    given = [record_traces.given(entry(OPENAT, LINK, 3), 2), record_traces.given_refused(entry(READ, DRAIN, 3, user_data=9), -22)]
    records = [record_traces.ring(3, [(0, (DESCRIPTION, 0, 0)), (1, (DESCRIPTION, 0, 1))], [(4096, 64)]), record_traces.enter(0, [stored(it) for it in early]),
               record_traces.fill_of_zeros(0, 0, 3, 9), record_traces.ring(2, [(0, (DESCRIPTOR, 0, 2)), (1, (SLOT, 0, 1))]), record_traces.ring(1, queue=0),
               record_traces.ring_ends(0), record_traces.enter(1, [record_traces.zeros(entry(WRITE, on, 0, 0, 6, bytes(6))), *given, *map(stored, late)])]
    front = [record_traces.head(2, 2, 4, 1), *files, description(1), description(2), record_traces.descriptor(2, 0)]
    return b"".join([*front, *records, record_traces.END])


def least_of_version_3(player: Player) -> List[Outcome]:
    """Of a trace of version 3 the write is left, with the ring that it is on and the one that its slot comes from."""
    name = "uring_minimise: a trace of version 3"
    got, written = minimised(player, MODELS, rings_of_rings(), ["--player", wrong_player(player)])
    lines = written.get("report", b"").split(b"\n")
    is_well = got.status == 0 and lines[:3] == [b"uring-report 2", b"2 ring=1 user=0 res=13 posted", b"tree"]
    is_well = is_well and MODELS.run(["serial", "--sums"], written["trace"]).output == written["report"] and b"1 different" in written["diff"]
    return [Outcome(name, None if is_well else "{} {!r}".format(shown(got), written))]


def of_sets() -> bytes:
    """A trace of version 3 whose last WRITE goes through a descriptor that a set gave to a path, below sets and seeks that do not matter."""
    low, held, slot = (DESCRIPTOR, 0, 0), (DESCRIPTOR, 0, 2), (SLOT, 1, 0)
    writes = [entry(READ, 0, 2, length=5), entry(WRITE, 0, 2, 3, 13, b"thirteen byte", user_data=9)]
    records = [record_traces.ring(1), record_traces.set_path(low, b"/a", 2), record_traces.ring(2), record_traces.set_copy(slot, low), record_traces.seek(slot, 4),
               record_traces.set_taken((SLOT, 1, 1)), record_traces.set_path(held, b"/a", 0x402, 7), record_traces.seek(held, 3), record_traces.set_nothing(low),
               record_traces.enter(0, [stored(it) for it in writes]), record_traces.set_copy(low, slot)]
    return b"".join([record_traces.head(1, 0, 4), record_traces.file(b"/a", 40, [(2, b"a")]), *records, record_traces.END])


def least_of_sets(player: Player) -> List[Outcome]:
    """Of such a trace the write is left, and the set that it needs, of flags that it needs."""
    got, written = minimised(player, MODELS, of_sets(), ["--player", wrong_player(player)])
    parts = trace_parts.parts_of(written["trace"]) if got.status == 0 else None
    lines = written.get("report", b"").split(b"\n")
    is_well = parts and [type(it).__name__ for it in parts.records] == ["NewRing", "Setting", "Enter"] and lines[1] == b"2 ring=0 user=0 res=13 posted"
    is_well = is_well and parts.records[1] == trace_parts.Setting((DESCRIPTOR, 0, 0), trace_parts.OF_PATH, None, 2, 0, b"/a")
    return [Outcome("uring_minimise: a trace with sets and seeks", None if is_well else "{} {!r}".format(shown(got), written))]


def in_parts(seeds: range) -> List[Outcome]:
    """A drawn trace of version 3 is what its parts are written as, and they have its places."""
    faults = []
    for seed in seeds:
        trace = record_traces.Records(seed).trace()
        parts = trace_parts.parts_of(trace)
        is_well = parts.text() == trace and b"ok %d places " % parts.places() in MODELS.run(["check"], trace).output
        faults += [] if is_well else ["seed {}".format(seed)]
    return [Outcome("the parts of drawn traces of version 3", first(faults))]


def told(program: Program, trace: bytes) -> bytes:
    return program.run(["serial"], trace).output


def is_shown(program: Program, trace: bytes) -> bool:
    """Whether a trace has a WRITE of more than 8 bytes that is played."""
    report = dict(line.split(b" ", 1) for line in told(program, trace).split(b"\n") if line[:1].isdigit())
    steps = [(chain.first + at, step) for chain in World(trace).chains for at, step in enumerate(chain.steps)]
    return any(getattr(step, "opcode", 0) == WRITE and int(re.search(rb" res=(-?\d+)", report[b"%d" % place])[1]) > 8 for place, step in steps)


def raced(player: Player, program: Program) -> List[Outcome]:
    """The planted race, in flight, with tries: two writes are left."""
    name = "uring_minimise: a planted race"
    with Passthrough(["planted"]) as there:
        if there.lacking:
            return skipped(name, there.lacking)
        got, written = minimised(player, program, flight.shared_blocks(), ["--mode", "flight", "--tries", "8", "--directory", there.mount])
    places = places_in(program, written["trace"]) if "trace" in written else 0
    is_well = got.status == 0 and 2 <= places < FEW and got.output.startswith(b"kept: file\n") and b" 1 different" in written["diff"]
    return [Outcome(name, None if is_well else "{} places, {}".format(places, shown(got)))]


def corrupted(player: Player, program: Program) -> List[Outcome]:
    """A file system that changes bytes behind the 32nd of a read: of each trace three entries are left at most, among them the read."""
    outcomes = []
    with Passthrough(["corrupt"]) as there:
        for it in play_reads.corrupted_traces():
            name = "uring_minimise: wrong bytes of {}".format(it.name)
            if there.lacking or b" data-sum=" not in program.run(["serial", sums_option(it.trace)], it.trace).output:
                outcomes += skipped(name, there.lacking or "the report has no sums of reads")
                continue
            got, written = minimised(player, program, it.trace, ["--directory", there.mount])
            entries = [step.opcode for _, _, _, step in trace_parts.parts_of(written["trace"]).entries()] if "trace" in written else []
            is_well = got.status == 0 and it.opcode in entries and places_in(program, written["trace"]) <= 3 and b" equal, 1 different" in written["diff"].split(b"\nentries ")[1]
            outcomes.append(Outcome(name, None if is_well else "{} {}".format(entries, shown(got))))
    return outcomes


def refusals(player: Player, program: Program) -> List[Outcome]:
    trace = os.path.join(EXAMPLES, "read_four_bytes.trace")
    usual, folder = programs_of(player, program), ["--directory", player.folder.name]
    made = os.path.join(player.folder.name, "never.trace")
    cases = (
        ("nothing differs", [*usual, *folder, trace, made], 1), ("another kind", [*usual, *folder, "--player", wrong_player(player), "--kind", "no", trace, made], 1),
        ("a refused trace", [*usual, *folder, os.path.join(EXAMPLES, "wrong_magic.trace"), made], 1), ("no trace", [*usual, *folder, "/nonexistent", made], 3),
        ("no replayer", [*usual, *folder, "--replayer", "/nonexistent", trace, made], 3), ("no player", [*usual, *folder, "--player", "/nonexistent", trace, made], 3),
        ("no directory", [*usual, "--directory", "/nonexistent", trace, made], 3), ("no words", [], 2), ("no tries", [*usual, "--tries", "0", trace, made], 2),
        ("itself", [*usual, *folder, trace, trace], 2), ("no time", [*usual, "--seconds", "0", trace, made], 2), ("a mode that is none", [*usual, "--mode", "x", trace, made], 2), ("help", ["--help"], 0),
        ("no io_uring", [*usual, *folder, "--player", untried(player), trace, made], 77),
    )
    outcomes = []
    for label, words, wanted in cases:
        got = ran([MINIMISE, *words])
        is_well = got.status == wanted and (wanted in (0, 2) or (got.errors.count(b"\n") == 1 and got.errors.startswith(b"uring_minimise: "))) and b"Traceback" not in got.errors
        outcomes.append(Outcome("uring_minimise: {}".format(label), None if is_well and not os.path.exists(made) else shown(got)))
    return outcomes


def untried(player: Player) -> str:
    """A player on a system that gives no io_uring."""
    path = os.path.join(player.folder.name, "untried-player")
    with open(path, "w", encoding="utf-8") as opened:
        opened.write("#!/bin/sh\necho 'uring_play: the kernel gives no ring' >&2\nexit 77\n")
    os.chmod(path, 0o755)
    return path


# --- uring_campaign ---------------------------------------------------------------------------------------------------

class Page(html.parser.HTMLParser):
    """What is wrong with a page, its links, and the texts of its cells."""

    def __init__(self) -> None:
        super().__init__()
        self.open: List[str] = []
        self.faults: List[str] = []
        self.links: List[str] = []
        self.tags: Set[str] = set()
        self.rows: List[List[str]] = []

    def handle_starttag(self, tag: str, attrs: List[Tuple[str, Optional[str]]]) -> None:
        self.tags.add(tag)
        self.faults += ["{} {}".format(tag, name) for name, _ in attrs if name.startswith("on") or name in ("src", "srcset")]
        self.links += [value or "" for name, value in attrs if name == "href"]
        self.rows += [[]] if tag == "tr" else []
        if tag in ("td", "th"):
            self.rows[-1].append("")
        if tag not in VOID:
            self.open.append(tag)

    def handle_startendtag(self, tag: str, attrs: List[Tuple[str, Optional[str]]]) -> None:
        self.tags.add(tag)

    def handle_endtag(self, tag: str) -> None:
        if not self.open or self.open.pop() != tag:
            self.faults.append("</{}> ends another".format(tag))

    def handle_data(self, data: str) -> None:
        if "td" in self.open or "th" in self.open:
            self.rows[-1][-1] += data

    def close(self) -> None:
        super().close()
        self.faults += ["{} does not end".format(it) for it in self.open] + ["it has {}".format(it) for it in ("script", "iframe", "object", "form") if it in self.tags]


def page_of(folder: str) -> Tuple[Page, Optional[str]]:
    """The page of a campaign, and what is wrong with it, if anything is."""
    text = play.read(os.path.join(folder, "index.html")).decode()
    page = Page()
    page.feed(text)
    page.close()
    faults = page.faults + ["{} leads nowhere".format(it) for it in page.links if not os.path.isfile(os.path.join(folder, it)) or ":" in it or it.startswith("/")]
    try:
        xml.etree.ElementTree.fromstring(text.replace("<!DOCTYPE html>", ""))
    except xml.etree.ElementTree.ParseError as fault:
        faults.append(str(fault))
    return page, first(faults)


def lines_for(player: Player, program: Program, folder: str, systems: Sequence[str], words: Sequence[str]) -> List[str]:
    usual = [*programs_of(player, program), "--into", folder, *(word for it in systems for word in ("--system", it))]
    return ran([CAMPAIGN, "jobs", *usual, *words]).output.decode().splitlines()


def collected(player: Player, program: Program) -> List[Outcome]:
    """A campaign on a system that is right and on one that is wrong, by `sh` line by line, in any order and again: the page has their counts."""
    outcomes = []
    with tempfile.TemporaryDirectory(prefix="uring campaign-", dir=player.folder.name) as top:
        folder, wrong = os.path.join(top, "made here"), wrong_player(player)
        place = player.directories()[-1]
        right = lines_for(player, program, folder, ["right=" + place], ["--traces", "4", "--each", "2", "--mode", "chains", "--mode", "flight"])
        others = lines_for(player, program, folder, ["wrong=" + place], ["--traces", "6", "--each", "6", "--mode", "flight", "--player", wrong])
        each = [*right, *others]
        ended = [ran(["sh", "-c", it]) for it in [*reversed(each), each[0]]]
        outcomes.append(Outcome("uring_campaign: the lines", first([shown(it) for it in ended if it.status or it.output or it.errors]) or (None if len(each) == 5 else str(each))))
        got = ran([CAMPAIGN, "page", folder])
        page, fault = page_of(folder)
        jobs_ = [json.loads(play.read(os.path.join(folder, "jobs", it))) for it in sorted(os.listdir(os.path.join(folder, "jobs")))]
        outcomes.append(Outcome("uring_campaign: the page is well formed", fault or (None if got.status == 0 and len(jobs_) == 5 else shown(got))))
        outcomes.append(Outcome("uring_campaign: its counts", wrong_counts(page, jobs_)))
        found = sorted(it for it in os.listdir(os.path.join(folder, "found")) if it.endswith(".trace"))
        sizes = [places_in(program, play.read(os.path.join(folder, "found", it))) for it in found]
        is_well = found and all(it.startswith("wrong.WRITE-N-posted-N-posted-") for it in found) and sizes == [1] and len(page.links) == 5
        outcomes.append(Outcome("uring_campaign: what differs is minimised and linked", None if is_well else "{} {} {}".format(found, sizes, page.links)))
    return outcomes


def wrong_counts(page: Page, told_: Sequence[Dict]) -> Optional[str]:
    """What is wrong with the table by opcode, held against the jobs."""
    rows = {row[0]: row[1:] for row in page.rows if len(row) == 3 and row[0].isupper()}
    for column, system in enumerate(("right", "wrong")):
        each = [it for it in told_ if it["system"] == system]
        for opcode in {name for it in each for name in it["entries"]}:
            found = [it["entries"][opcode] for it in each if opcode in it["entries"]]
            text = (rows.get(opcode) or ["", ""])[column]
            counts = re.match(r"(\d+) equal(?:, (\d+) different(?: \([\d ]+\))?)?(?:unchecked: (.*))?$", text)
            if not counts:
                return "{} on {}: {!r}".format(opcode, system, text)
            left = sum(int(it.split()[1]) for it in (counts[3] or "").split(", ") if it)
            wanted = (sum(it["equal"] for it in found), sum(it["different"] for it in found), sum(count for it in found for count in it["unchecked"].values()))
            if (int(counts[1]), int(counts[2] or 0), left) != wanted:
                return "{} on {}: {!r}, wanted {}".format(opcode, system, text, wanted)
        if (system == "wrong") != any(it["entries"].get("WRITE", {}).get("different") for it in each):
            return "{} has the other's writes".format(system)
    return None


def by_parallel(player: Player, program: Program, command: str) -> List[Outcome]:
    """The lines by another program that runs lines: none is run twice where its log says that it was."""
    name = "uring_campaign: by {}".format(command)
    if not shutil.which(command):
        return skipped(name, "there is no {}".format(command))
    with tempfile.TemporaryDirectory(dir=player.folder.name) as top:
        folder, log = os.path.join(top, "made"), os.path.join(top, "log")
        each = lines_for(player, program, folder, ["here=" + player.directories()[0]], ["--traces", "4", "--each", "1", "--mode", "chains"])
        words = {"parallel": ["parallel", "--will-cite", "--joblog", log, "--resume", "-j", "2"], "xargs": ["xargs", "-P", "2", "-d", "\n", "-n", "1", "sh", "-c"]}[command]
        if command == "xargs":
            words = ["xargs", "-P", "2", "-d", "\n", "-I", "{}", "sh", "-c", "{}"]
        given = "".join(it + "\n" for it in each).encode()
        got = ran(words, given)
        made = sorted(os.listdir(os.path.join(folder, "jobs")))
        again = ran(words, given) if command == "parallel" else got
        is_well = got.status == 0 and again.status == 0 and len(made) == 4
        return [Outcome(name, None if is_well else "{} {}".format(shown(got), made))]


def campaign_words(player: Player, program: Program) -> List[Outcome]:
    usual, place, into = programs_of(player, program), "here=" + player.folder.name, os.path.join(player.folder.name, "words")
    one = ["play", *usual, "--into", into, "--system", place, "--mode", "chains", "--seeds", "0-0"]
    cases = (
        ([], 2), (["play"], 2), (["jobs"], 2), (["page"], 2), (["page", "/nonexistent"], 3), (["page", player.folder.name], 3),
        (["jobs", "--into", into, "--system", "here"], 2), (["jobs", "--into", into, "--system", "a/b=c"], 2), (["jobs", "--into", into, "--system", place, "--traces", "0"], 2),
        ([*one, "--seeds", "3-2"], 2), ([*one, "--seeds", "x"], 2), ([*one, "--mode", "flight"], 2), ([*one, "--system", place], 2), ([*one, "--into", "/dev/null/x"], 3),
        ([*one, "--replayer", "/nonexistent"], 3), ([*one, "--player", untried(player)], 77), (["--help"], 0), (["jobs", "--help"], 0), (one, 0), ([*one, "--wide"], 0),
    )
    outcomes = []
    for words, wanted in cases:
        got = ran([CAMPAIGN, *words])
        is_well = got.status == wanted and b"Traceback" not in got.errors and (wanted != 3 or got.errors.startswith(b"uring_campaign: "))
        outcomes.append(Outcome("uring_campaign {}".format(" ".join(os.path.basename(it) for it in words)), None if is_well else shown(got)))
    for text in ("{", "[]", "{}", '{"system": "a", "mode": "chains", "plays": "x"}'):
        with tempfile.TemporaryDirectory(dir=player.folder.name) as folder:
            os.mkdir(os.path.join(folder, "jobs"))
            with open(os.path.join(folder, "jobs", "a.json"), "w", encoding="utf-8") as opened:
                opened.write(text)
            got = ran([CAMPAIGN, "page", folder])
            is_well = got.status == 3 and got.errors.endswith(b"a.json: it is not what a job has written\n")
            outcomes.append(Outcome("uring_campaign page of {}".format(text), None if is_well else shown(got)))
    # A system whose plays fail is counted, and the rest goes on.
    lost = ran([CAMPAIGN, *("lost=/nonexistent/x" if it == place else it for it in one)])
    jobs_ = [json.loads(play.read(os.path.join(into, "jobs", it))) for it in os.listdir(os.path.join(into, "jobs")) if it.startswith("lost")]
    is_well = lost.status == 0 and len(jobs_) == 1 and list(jobs_[0]["failed"].values()) == [1]
    return [*outcomes, Outcome("uring_campaign: a system whose plays fail", None if is_well else shown(lost))]


def over_lower(player: Player, program: Program) -> List[Outcome]:
    """tools/examples/over_lower.sh in the place of the player: a directory of the lower layer is not renamed, unless the overlay is asked for that."""
    name, script = "tools/examples/over_lower.sh", os.path.join(TOP, "tools", "examples", "over_lower.sh")
    trace = read("exchange_of_file_and_directory.trace")
    outcomes = []
    for more, kinds in (("", True), ("redirect_dir=on", False)):
        with tempfile.TemporaryDirectory(dir=player.folder.name) as folder:
            paths = [os.path.join(folder, it) for it in ("expected", "trace")]
            for path, text in zip(paths, (program.run(["serial", "--sums"], trace).output, trace)):
                with open(path, "wb") as opened:
                    opened.write(text)
            environment = {**os.environ, "URING_PLAY": player.program, "OVERLAY": more}
            place = player.directories()[-1]
            got = subprocess.run([script, "--quiet", "--directory", place, "--expected", paths[0], paths[1]], stdout=subprocess.PIPE, stderr=subprocess.PIPE, env=environment)
            if got.returncode and b"mount" in got.stderr:
                return skipped(name, got.stderr.decode("utf-8", "replace").strip())
            left = [it for it in os.listdir(place) if it.startswith("over_lower")]
            is_well = got.returncode == 0 and (b"res=-18 posted op=35" in got.stdout) == kinds and not left
            outcomes.append(Outcome("{} {}".format(name, more), None if is_well else "{!r} {}".format(got, left)))
    return outcomes


def jobs(programs: List[Program]) -> List[Job]:
    player, program = Player(), programs[0]
    lacking = player.lacking() or player.lacking_in_system(play.TRACE)
    if lacking:
        return [lambda: skipped("the tools that look for differences", lacking)]
    found: List[Job] = [partial(it, player, program) for it in (least, raced, corrupted, refusals, collected, campaign_words, over_lower)]
    found += [partial(least_of_version_3, player), partial(least_of_sets, player), partial(in_parts, range(200))]
    return found + [partial(by_parallel, player, program, it) for it in ("parallel", "xargs")]
