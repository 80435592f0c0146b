"""Drawn traces by `depends`: the program tells what model_depends.py tells, and this tells what follows from the definition. The places
run in other orders by the second replayer (model.py): those that keep each pair that the program tells give the sequential report, and of
those that break one pair enough give another. Half of the seeds are the same in every run, the others those of the day."""
import random
import re
from functools import partial
from typing import Callable, Dict, Iterator, List, Optional, Sequence, Set, Tuple

import days
import model_depends
import model_records
from drawing import Draw, Near, Opens
from harness import Answer, Job, Outcome, Program, difference, first, read, shown
from model import World, report, report_of, run_step
from model_depends import Told
from model_rounds import ALL_DESCRIPTORS, BUFFER, BYTES, DESCRIPTOR, AnyItem, Item, Use, common

# How many traces are drawn, in how many lots.
DRAWN, LOTS = 3_000, 6
# How many of each lot are also run in other orders, in how many that keep the pairs, of which the last ones keep chains together, and
# once in an order that breaks a pair. Of so many of those one gives another report, at least; one in three does.
ORDERED, ORDERS, BY_CHAINS, MOST_ALIKE = 50, 20, 4, 10
# Of how many of each lot the model is held against the definition.
DEFINED = 20

Waits = Dict[int, Set[int]]


def drawn(seed: int) -> bytes:
    return (Draw, Near, Opens)[seed % 3](seed).trace()


def of_text(program: Program, seed: int) -> Optional[str]:
    """How what the program tells of a drawn trace differs from the model, as text and as a graph, if it does."""
    trace = drawn(seed)
    world = World(trace)
    told = model_depends.in_turn(world)
    fault = difference(program.run(["depends"], trace), Answer(0, model_depends.text_of(world, told), b""))
    return fault or difference(program.run(["depends", "--dot"], trace), Answer(0, model_depends.graph_of(world, told), b""))


# Orders.


def waits_of(text: bytes) -> Waits:
    """For whom each place waits, by the lines of `depends`."""
    waits: Waits = {}
    for place, after in re.findall(rb"^(\d+)(?: after=(\d+) on=.*)?$", text, re.M):
        waits.setdefault(int(place), set()).update([int(after)] if after else [])
    return waits


def order_of(waits: Waits, chosen: Callable[[List[int]], int]) -> List[int]:
    """An order in which each comes behind all for whom it waits: of those that may come next always the chosen one."""
    order: List[int] = []
    left, done = dict(waits), set()
    while left:
        order.append(chosen([it for it, before in left.items() if before <= done]))
        done.add(order[-1])
        del left[order[-1]]
    return order


def report_in(trace: bytes, order: Sequence[int]) -> bytes:
    """The report where the places run in this order."""
    world = model_records.world_of(trace)
    places = model_depends.places_of(world)
    return report_of(world, {it: run_step(world, places[it].chain, places[it].at) for it in order}, True)


def by_chains(trace: bytes, waits: Waits, source: random.Random) -> List[int]:
    """An order in which each chain runs as a whole, once all for whom its members wait have run."""
    chains = World(trace).chains
    members = [range(it.first, it.first + len(it.steps)) for it in chains]
    owner = {place: number for number, its in enumerate(members) for place in its}
    between = {number: {owner[before] for it in its for before in waits[it]} - {number} for number, its in enumerate(members)}
    return [it for number in order_of(between, source.choice) for it in members[number]]


def orders(trace: bytes, waits: Waits, seed: int) -> Iterator[List[int]]:
    """Orders that keep the pairs: the latest places first, some at random, and some by whole chains."""
    source = random.Random("orders {}".format(seed))
    yield order_of(waits, max)
    yield from (order_of(waits, source.choice) for _ in range(ORDERS - BY_CHAINS - 1))
    yield from (by_chains(trace, waits, source) for _ in range(BY_CHAINS))


def of_orders(program: Program, seed: int) -> Optional[str]:
    """An order that keeps the pairs of the program and gives another report, if one does."""
    trace = drawn(seed)
    told = program.run(["depends"], trace)
    if told.status:
        return shown(told)
    waits, wanted = waits_of(told.output), report(trace)
    return next(("in the order {} another report".format(it) for it in orders(trace, waits, seed) if report_in(trace, it) != wanted), None)


def of_rounds(program: Program, seed: int) -> Optional[str]:
    """The rounds of a drawn trace and its span, where there are fewer rounds."""
    trace = drawn(seed)
    texts = [program.run(it, trace).output for it in (["rounds", "--window", str(1 + seed % 70)], ["depends"])]
    numbers = [re.search(it, text, re.M) for it, text in zip((rb"^rounds (\d+)$", rb"^span (\d+)\b"), texts)]
    if None in numbers:
        return "there is no text"
    rounds, span = (int(it[1]) for it in numbers)
    return None if span <= rounds else "{} rounds, and a span of {}".format(rounds, span)


def all_before(waits: Waits) -> Waits:
    """All to whom each place is led."""
    led: Waits = {}
    for place in sorted(waits):
        led[place] = waits[place].union(*(led[it] for it in waits[place]))
    return led


def needed(waits: Waits, led: Waits) -> List[Tuple[int, int]]:
    """The pairs that do not follow from the others."""
    return [(place, it) for place, its in waits.items() for it in its if not any(it in led[other] for other in its)]


def breaks(trace: bytes, place: int, before: int, led: Waits, source: random.Random) -> bool:
    """Whether another report comes of an order that turns this pair around, and keeps all others."""
    turned = {**led, place: led[place] - {before}, before: led[before] | {place}}
    return report_in(trace, order_of(turned, source.choice)) != report(trace)


def broken(program: Program, seeds: Sequence[int]) -> List[Outcome]:
    """Of each trace a pair that does not follow from others is turned around: enough of these give another report."""
    tried = other = 0
    for seed in seeds:
        trace, source = drawn(seed), random.Random("broken {}".format(seed))
        waits = waits_of(program.run(["depends"], trace).output)
        led = all_before(waits)
        pairs = needed(waits, led)
        if pairs:
            tried += 1
            other += breaks(trace, *source.choice(pairs), led, source)
    fault = None if tried and other * MOST_ALIKE >= tried else "{} of {}".format(other, tried)
    return [Outcome("pairs that are turned around give another report, by {}".format(program.compiler), fault)]


def of_example(name: str = "each_item_orders_two_places") -> List[Outcome]:
    """Of an example each pair but that of a ring's order, which has no value of its own, gives another report when it is turned around."""
    trace, text = read(name + ".trace"), read(name + ".depends")
    led = all_before(waits_of(text))
    pairs = [(int(place), int(before)) for place, before in re.findall(rb"^(\d+) after=(\d+) on=(?!order of )", text, re.M)]
    same = ["{} after {}".format(*it) for it in pairs if not breaks(trace, *it, led, random.Random(name))]
    return [Outcome("pairs of {} that are turned around".format(name), first(same) if pairs else "there are none")]


# The definition.


def met(one: Sequence[Use], other: Sequence[Use]) -> List[AnyItem]:
    """The parts of items that both use, and one of both writes."""
    parts = (common(use.item, held.item) for use in one for held in other if use.is_written or held.is_written)
    return [it for it in parts if it]


def atoms(part: AnyItem, uses: Sequence[Sequence[Use]]) -> List[AnyItem]:
    """What stands for all atoms of a part: the bytes at which a range of these uses starts or ends; all descriptors together."""
    if not isinstance(part, Item) or part.kind == DESCRIPTOR:
        return [ALL_DESCRIPTORS]
    if part.kind not in (BYTES, BUFFER):
        return [part]
    ranges = [it.item for its in uses for it in its if isinstance(it.item, Item) and it.item[:3] == part[:3]]
    cuts = {part.low, *(at for it in ranges for at in (it.low, it.end) if part.low <= at < part.end)}
    return [part._replace(low=at, end=at + 1) for at in cuts]


def clash(one: Sequence[Use], other: Sequence[Use], atom: AnyItem) -> bool:
    return any(common(it, atom) for it in met(one, other))


def waits_by(told: Sequence[Told], place: int, before: int) -> bool:
    """Whether a place waits for another: by an atom on which both clash, and none between them with both."""
    between = [it.uses for it in told[before : place + 1]]
    last, start = between[-1], between[0]
    parts = {atom for part in met(last, start) for atom in atoms(part, between)}
    return any(not any(clash(last, it, atom) and clash(it, start, atom) for it in between[1:-1]) for atom in parts)


def of_definition(seed: int) -> Optional[str]:
    """A place of a drawn trace of which the model does not tell what follows from the definition, if there is one."""
    told = model_depends.in_turn(World(drawn(seed)))
    for place, it in enumerate(told):
        wanted = [before for before in range(place) if waits_by(told, place, before)]
        if wanted != list(it.waits):
            return "place {} waits for {}, wanted {}".format(place, list(it.waits), wanted)
    return None


def lot(what: str, fault_of: Callable[[int], Optional[str]], seeds: Sequence[int]) -> List[Outcome]:
    faults = ["seed {}: {}".format(seed, told) for seed in seeds for told in [fault_of(seed)] if told]
    day = " of {}".format(days.written()) if seeds[0] >= days.SEEDS_A_DAY else ""
    return [Outcome("{} of {} to {}{}".format(what, seeds[0], seeds[-1], day), first(faults))]


def jobs(programs: List[Program]) -> List[Job]:
    """The first program on all of them, the others on one lot."""
    size = DRAWN // LOTS
    starts = [at + back for back in (0, days.first_seed()) for at in range(0, DRAWN // 2, size)]
    lots = [range(at, at + size) for at in starts]
    texts = [(program, it) for program in programs for it in (lots if program is programs[0] else lots[:1])]
    found: List[Job] = [partial(lot, "the dependencies by {}".format(it.compiler), partial(of_text, it), seeds) for it, seeds in texts]
    found += [partial(lot, "orders that keep the pairs", partial(of_orders, programs[0]), seeds[:ORDERED]) for seeds in lots]
    found += [partial(lot, "rounds at least as many as the span", partial(of_rounds, programs[0]), seeds[:ORDERED]) for seeds in lots]
    found += [partial(lot, "the pairs by their definition", of_definition, seeds[:DEFINED]) for seeds in lots]
    return [*found, of_example, partial(broken, programs[0], [seed for seeds in lots for seed in seeds[:ORDERED]])]
