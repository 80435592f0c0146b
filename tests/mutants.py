#!/usr/bin/env python3
"""Changes the second readers in one place at a time, and looks which fixed answer meets each change: tests/mutants.py [NAME ..]

The second readers are the files model*.py beside this one, and changes.py has the changes: constants one more and one less, comparisons that are turned
or strict, tests that are left out or come later, `and` for `or`, rows of tables that are left out. A fixed answer (fixed.py) stands in examples/, or was
worked out by hand in a test; what is drawn does not count. A change that no fixed answer meets stands in mutants.txt, with the reason why it changes
nothing or with the test that meets it. The exit status is 1 where one is missing there, or stands there wrongly."""
import argparse
import ast
import os
import re
import resource
import signal
import subprocess
import sys
import time
from concurrent.futures import ProcessPoolExecutor
from functools import partial
from multiprocessing import get_context
from types import CodeType, ModuleType
from typing import Dict, Iterator, List, NamedTuple, Optional, Sequence, Set, Tuple

if __name__ == "__main__":
    sys.dont_write_bytecode = True

import fixed
from changes import Change, changes_of, with_probes
from days import day_of
from fixed import Fixed, Readers
from harness import TOP, Job, Outcome, Program, processors

# The files that are changed, each with those that use it, in the order in which they are loaded.
USERS = {
    "model": ("model", "model_records", "model_rounds", "model_depends"),
    "model_records": ("model_records", "model_rounds", "model_depends"),
    "model_rounds": ("model_rounds", "model_depends"),
    "model_depends": ("model_depends",),
    "model_text": ("model_text", "model_make"),
    "model_make": ("model_make",),
    "model_diff": ("model_diff",),
}
TESTS = os.path.join(TOP, "tests")
REASONS = os.path.join(TESTS, "mutants.txt")
# Of how many changes one is tried in a day.
DAYS = 10
# The processor seconds of an answer of a changed reader: these, and so many times those of the reader as it is. Its bytes of memory.
SECONDS, TIMES, MEMORY = 1.0, 20, 3 << 30
# A function that is put into the first reader, and whose changes nothing meets: they have to be reported.
PLANTED = "planted"
PLANT = "\n\ndef {}(count: int) -> bool:\n    return count < 7\n".format(PLANTED)
# The readers of which each change is met, or stands in mutants.txt.
READY = ("model", "model_records", "model_depends", "model_text", "model_diff")


class Slow(BaseException):
    """A changed reader takes too long."""


def late(*_) -> None:
    raise Slow


def path_of(name: str) -> str:
    return os.path.join(TESTS, name + ".py")


def source_of(name: str) -> str:
    with open(path_of(name), encoding="utf-8") as file:
        return file.read()


def loaded(codes: Dict[str, CodeType], seen: Optional[Dict[str, Set[int]]] = None) -> Readers:
    """Readers of these programs, which use each other in the order in which they stand there."""
    readers = {}
    for name, code in codes.items():
        module = sys.modules[name] = ModuleType(name)
        module.__dict__.update(__file__=path_of(name), **({"__seen__": seen[name]} if seen else {}))
        exec(code, module.__dict__)
        readers[name] = module
    return readers


class Reached(NamedTuple):
    """A fixed answer, the processor seconds that it takes, and the statements of each reader that it runs."""

    answer: Fixed
    seconds: float
    statements: Dict[str, Set[int]]


class Tried(NamedTuple):
    """A change of a reader, and what meets it, if anything does."""

    reader: str
    change: Change
    met: Optional[str]

    def key(self) -> str:
        """The reader and the function, and the texts before and after, as mutants.txt has them."""
        return ".".join([self.reader, *([self.change.function] if self.change.function else [])]) + ": " + self.change.key()


class Mutants:
    """The readers as they are, their changes, and the fixed answers."""

    def __init__(self) -> None:
        self.sources = {name: source_of(name) + (PLANT if name == "model" else "") for name in USERS}
        self.codes = {name: compile(text, path_of(name), "exec") for name, text in self.sources.items()}
        self.trees = {name: ast.parse(text) for name, text in self.sources.items()}
        self.changes = {name: changes_of(tree) for name, tree in self.trees.items()}
        self.wrong: List[str] = []
        self.reached, self.at_start = self.reach()

    def reach(self) -> Tuple[List[Reached], Dict[str, Set[int]]]:
        """What each fixed answer runs, and what runs where the readers are loaded."""
        seen: Dict[str, Set[int]] = {name: set() for name in USERS}
        probed = {name: compile(with_probes(ast.parse(text)), path_of(name), "exec") for name, text in self.sources.items()}
        readers, found = loaded(probed, seen), []
        at_start = {name: set(it) for name, it in seen.items()}
        for it in fixed.answers():
            for statements in seen.values():
                statements.clear()
            before = time.process_time()
            self.wrong += [] if it.holds(readers) else ["the readers do not give {}".format(it.name)]
            found.append(Reached(it, time.process_time() - before, {name: frozenset(its) for name, its in seen.items() if its}))
        return sorted(found, key=lambda it: it.seconds), at_start

    def tried_as(self, reader: str, number: int, met: Optional[str] = None) -> Tried:
        return Tried(reader, self.changes[reader][number], met)

    def answers_at(self, reader: str, statement: int) -> Iterator[Reached]:
        """The fixed answers that run a statement, the quickest first."""
        if statement in self.at_start[reader]:
            return (it for it in self.reached if any(user in it.statements for user in USERS[reader]))
        return (it for it in self.reached if statement in it.statements.get(reader, ()))

    def code_with(self, reader: str, change: Change) -> CodeType:
        back = change.apply()
        try:
            return compile(ast.fix_missing_locations(self.trees[reader]), path_of(reader), "exec")
        finally:
            back.apply()

    def meets(self, reader: str, number: int) -> Optional[str]:
        """The name of the first fixed answer that meets a change, if one does."""
        change = self.changes[reader][number]
        try:
            sys.modules.update(READERS)
            with_limit(SECONDS)
            changed = loaded({**{name: self.codes[name] for name in USERS[reader]}, reader: self.code_with(reader, change)})
        except Exception:
            return "the load of the file"
        finally:
            with_limit(0)
        for it in self.answers_at(reader, change.statement):
            try:
                with_limit(SECONDS + TIMES * it.seconds)
                if not it.answer.holds({**READERS, **changed}):
                    return it.answer.name
            except (Exception, Slow):
                return it.answer.name
            finally:
                with_limit(0)
        return None

    def tried(self, chosen: Sequence[Tuple[str, int]]) -> List[Tried]:
        """These changes, by one process a processor."""
        global MUTANTS
        MUTANTS = self
        with ProcessPoolExecutor(processors(), get_context("fork"), begin) as pool:
            return [self.tried_as(*place, met) for place, met in zip(chosen, pool.map(meets, chosen, chunksize=4))]


# What a process of the pool has: the mutants, and the readers as they are.
MUTANTS: Optional[Mutants] = None
READERS: Readers = {}


def begin() -> None:
    resource.setrlimit(resource.RLIMIT_AS, (MEMORY, MEMORY))
    signal.signal(signal.SIGPROF, late)
    READERS.update(loaded(MUTANTS.codes))


def with_limit(seconds: float) -> None:
    signal.setitimer(signal.ITIMER_PROF, seconds)


def meets(place: Tuple[str, int]) -> Optional[str]:
    return MUTANTS.meets(*place)


# The reasons.


def plain(key: str) -> str:
    """A key without blanks and parentheses, which not every version of Python writes alike."""
    return re.sub(r"[ ()]", "", key)


def reasons() -> Dict[str, str]:
    """The changes in mutants.txt, each with its reason: lines with four spaces are changes of the function above, one with two is their reason."""
    found: Dict[str, str] = {}
    function, waiting = "", []
    with open(REASONS, encoding="utf-8") as file:
        for line in file.read().splitlines():
            if line.startswith("    "):
                waiting.append(plain("{}: {}".format(function, line)))
            elif line.startswith("  "):
                found.update(dict.fromkeys(waiting, line.strip()))
                waiting = []
            elif line and not line.startswith("#"):
                function = line
    assert not waiting, waiting
    return found


def faults(tried: Sequence[Tried], known: Dict[str, str]) -> List[str]:
    """The changes that nothing meets and that have no reason, and those that have one and are met."""
    lacking = ["nothing meets {}".format(it.key()) for it in tried if not it.met and plain(it.key()) not in known]
    return lacking + ["{} is in mutants.txt, and is met by {}".format(it.key(), it.met) for it in tried if it.met and plain(it.key()) in known]


def strays(mutants: Mutants, known: Dict[str, str]) -> List[str]:
    """What stands in mutants.txt and is no change."""
    there = {plain(Tried(reader, it, None).key()) for reader, its in mutants.changes.items() for it in its}
    return ["{} is in mutants.txt, and is no change".format(it) for it in known if it not in there]


def chosen(mutants: Mutants, names: Sequence[str], day: Optional[int]) -> List[Tuple[str, int]]:
    """The changes of some readers or functions; of a day one of each so many."""
    starts = tuple(name + end for name in names for end in ".:")
    places = [(reader, number) for reader in USERS for number in range(len(mutants.changes[reader]))]
    found = [it for it in places if mutants.tried_as(*it).key().startswith(starts)]
    return found if day is None else found[day % DAYS :: DAYS]


def fault_of_plant(tried: Sequence[Tried], known: Dict[str, str]) -> List[str]:
    """That what is planted is not reported, if it is not."""
    planted = [it for it in tried if it.change.function == PLANTED]
    return [] if planted and len(faults(planted, known)) == len(planted) else ["changes that were planted are not reported"]


def main(words: Sequence[str]) -> int:
    known = argparse.ArgumentParser(description=__doc__, formatter_class=argparse.RawDescriptionHelpFormatter)
    known.add_argument("names", nargs="*", metavar="NAME", help="a reader or a function: model, model.World, model.World.opening")
    known.add_argument("--day", type=day_of, help="one of {} changes, those of this day: YYYY-MM-DD".format(DAYS))
    known.add_argument("--met", action="store_true", help="say of each change what meets it")
    known.add_argument("--planted", action="store_true", help="count what is planted as any other change")
    given = known.parse_args(words)
    mutants, listed = Mutants(), reasons()
    places = [*chosen(mutants, given.names or READY, given.day), *chosen(mutants, ["model." + PLANTED], None)]
    tried = mutants.tried(list(dict.fromkeys(places)))
    counted = [it for it in tried if given.planted or it.change.function != PLANTED]
    for it in counted if given.met else ():
        print("{}: {}".format(it.key(), it.met or listed.get(plain(it.key()))))
    found = [*mutants.wrong, *strays(mutants, listed), *fault_of_plant(tried, listed), *faults(counted, listed)]
    print("".join(it + "\n" for it in found), end="")
    for reader in USERS:
        its = [it.met for it in counted if it.reader == reader]
        if its:
            print("{}.py: {} changes, of which {} are met by a fixed answer".format(reader, len(its), len(its) - its.count(None)))
    return 1 if found else 0


# The part of the tests.


def by_tool(words: Sequence[str], is_planted: bool) -> List[Outcome]:
    """Each change is met, or stands in mutants.txt; and one that is planted is not, and is reported."""
    ran = subprocess.run([os.path.abspath(__file__), *words], stdin=subprocess.DEVNULL, stdout=subprocess.PIPE, stderr=subprocess.STDOUT)
    said = ran.stdout.decode("utf-8", "replace")
    is_well = ran.returncode == 1 and "nothing meets model.{}: ".format(PLANTED) in said if is_planted else ran.returncode == 0
    label = "changes of the second readers that are planted" if is_planted else "the changes of the second readers"
    return [Outcome(label, None if is_well else "status {}:\n{}".format(ran.returncode, said.rstrip()))]


def jobs(_: List[Program]) -> List[Job]:
    return [partial(by_tool, [], False), partial(by_tool, ["--planted", "model." + PLANTED], True)]


if __name__ == "__main__":
    sys.exit(main(sys.argv[1:]))
