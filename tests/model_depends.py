"""What `depends` tells of a trace, by docs/DEPENDS.md and docs/FORMAT.md alone: for which earlier places each place waits, and by what they conflict."""
from bisect import bisect_left
from itertools import groupby
from typing import Any, Dict, Iterator, List, NamedTuple, Optional, Sequence, Tuple

import model_records
from model import READS, WRITES, Entry, World, run_step
from model_rounds import ALL_DESCRIPTORS, BUFFER, BYTES, DESCRIPTOR, All, AnyItem, Item, Place, Use, item_text, row, used


class User(NamedTuple):
    """A place that uses an item."""

    place: int
    item: AnyItem

    def has_closed(self) -> bool:
        """Whether one that looked at the descriptors without taking one has closed one: else it looked in vain."""
        return isinstance(self.item, Item)


class Part(NamedTuple):
    """A part of the world: the latest place that wrote it, and those that have read it since."""

    writer: Optional[User] = None
    readers: Tuple[User, ...] = ()

    def then(self, user: User, is_written: bool) -> "Part":
        return Part(user) if is_written else Part(self.writer, (*self.readers, user))

    def writers(self) -> List[User]:
        return [self.writer] if self.writer else []

    def before(self, is_written: bool) -> Iterator[Tuple[User, bool]]:
        """For whom a place waits that writes it, or only reads it, each with whether it wrote it."""
        is_reader = is_written and bool(self.readers)
        return ((it, not is_reader) for it in (self.readers if is_reader else self.writers()))


class Line:
    """The bytes of a file or a buffer, in pieces that were used alike: each from its cut to the next, the last without an end."""

    def __init__(self) -> None:
        self.cuts, self.pieces = [0], [Part()]

    def cut(self, at: int) -> int:
        """The number of the piece that starts there."""
        number = bisect_left(self.cuts, at)
        if self.cuts[number : number + 1] != [at]:
            self.cuts.insert(number, at)
            self.pieces.insert(number, self.pieces[number - 1])
        return number

    def parts(self, item: Item) -> List[Part]:
        first, last = self.cut(item.low), self.cut(item.end)
        return self.pieces[first:last]

    def add(self, place: int, item: Item, is_written: bool) -> None:
        first, last = self.cut(item.low), self.cut(item.end)
        self.pieces[first:last] = [it.then(User(place, item), is_written) for it in self.pieces[first:last]]


class Handling(NamedTuple):
    """How a place uses the descriptors: whether it looks at all of them, which one it takes or closes, and which one it only uses."""

    is_wide: bool
    written: Optional[Item]
    read: Optional[Item]

    def shared(self, user: User) -> Item:
        """What it shares with another user: of all descriptors and one of them that one."""
        return user.item if self.is_wide and isinstance(user.item, Item) else self.written or self.read


def handlings(uses: Sequence[Use]) -> List[Handling]:
    """One, unless it reads several descriptors, as a new ring may, or reads one and writes another, or uses none."""
    own = [it for it in uses if isinstance(it.item, Item) and it.item.kind == DESCRIPTOR]
    written = next((it.item for it in own if it.is_written), None)
    if any(isinstance(it.item, All) for it in uses):
        return [Handling(True, written, None)]
    read = [Handling(False, None, it.item) for it in own if it.item != written]
    return [*read, *([Handling(False, written, None)] if written else [])]


def in_conflict(ways: Sequence[Handling], others: Sequence[Handling]) -> bool:
    """Whether one of two places writes a descriptor that the other one uses."""
    pairs = [*((way, other) for way in ways for other in others), *((other, way) for way in ways for other in others)]
    return any(way.written and (other.is_wide or way.written in (other.written, other.read)) for way, other in pairs)


class Descriptors:
    """All descriptors, as one part of the world."""

    def __init__(self) -> None:
        self.each: Dict[AnyItem, Part] = {}
        self.taker: Optional[User] = None
        # Those that have closed one, or looked in vain, since one was taken.
        self.since: List[User] = []

    def latest(self) -> List[User]:
        return [self.taker] if self.taker else []

    def alike(self, has_closed: bool) -> List[User]:
        """Of those since the latest taker the ones of a kind; without them that taker."""
        return [it for it in self.since if it.has_closed() == has_closed] or self.latest()

    def last_alike(self) -> List[User]:
        """Of those since the latest taker the last ones of one kind; without them that taker."""
        runs = [list(its) for _, its in groupby(self.since, User.has_closed)]
        return runs[-1] if runs else self.latest()

    def before(self, way: Handling) -> List[User]:
        """For whom a place may wait that uses the descriptors so."""
        own = self.each.get(way.written or way.read or ALL_DESCRIPTORS, Part())
        if not way.written:
            return self.alike(True) if way.is_wide else own.writers()
        return [*(self.last_alike() if way.is_wide else self.alike(False)), *own.writers(), *own.readers]

    def add(self, place: int, way: Handling) -> None:
        if way.is_wide and way.written:
            self.taker, self.since = User(place, way.written), []
        elif way.is_wide or way.written:
            self.since.append(User(place, way.written or ALL_DESCRIPTORS))
        item = way.written or way.read
        if item:
            self.each[item] = self.each.get(item, Part()).then(User(place, item), way.written is not None)


class Known:
    """What has been used of the world, and by whom."""

    def __init__(self) -> None:
        self.parts: Dict[Tuple[Any, ...], Part] = {}
        self.lines: Dict[Tuple[Any, ...], Line] = {}
        self.descriptors = Descriptors()
        # How each place so far uses descriptors.
        self.ways: List[List[Handling]] = []

    def of(self, item: Item) -> List[Part]:
        """The parts of an item."""
        if item.kind not in (BYTES, BUFFER):
            return [self.parts.get(item[:3], Part())]
        return self.lines.setdefault(item[:3], Line()).parts(item) if item.low < item.end else []

    def met(self, use: Use, is_written: bool) -> Iterator[Tuple[int, Item]]:
        """For whom a place waits by one of its uses, which writes or reads an item that it writes in all, and by what."""
        for part in self.of(use.item):
            for (place, other), has_written in part.before(is_written):
                if use.is_written or has_written:
                    yield place, use.item._replace(low=max(use.item.low, other.low), end=min(use.item.end, other.end))

    def waits(self, uses: Sequence[Use]) -> Dict[int, Item]:
        """For whom a place waits that uses the world so, each with the first of its items by which it does."""
        written, ways = {it.item for it in uses if it.is_written}, handlings(uses)
        found: Dict[int, Item] = {}
        for use in uses:
            if is_of_descriptors(use.item):
                found_before = [(it.place, way.shared(it)) for way in ways for it in self.descriptors.before(way)]
                pairs = iter([it for it in found_before if not self.is_passed(it[0], ways)])
            else:
                pairs = self.met(use, use.item in written)
            for place, item in pairs:
                found.setdefault(place, item)
        return dict(sorted(found.items()))

    def is_passed(self, place: int, ways: List[Handling]) -> bool:
        """Whether a place between them conflicts with both."""
        return any(in_conflict(it, self.ways[place]) and in_conflict(it, ways) for it in self.ways[place + 1 :])

    def add(self, place: int, uses: Sequence[Use]) -> None:
        self.ways.append(handlings(uses))
        written = {it.item for it in uses if it.is_written}
        for item in dict.fromkeys(it.item for it in uses if not is_of_descriptors(it.item)):
            if item.kind not in (BYTES, BUFFER):
                self.parts[item[:3]] = self.parts.get(item[:3], Part()).then(User(place, item), item in written)
            elif item.low < item.end:
                self.lines.setdefault(item[:3], Line()).add(place, item, item in written)
        for way in handlings(uses):
            self.descriptors.add(place, way)


def is_of_descriptors(item: AnyItem) -> bool:
    return isinstance(item, All) or item.kind == DESCRIPTOR


# Places.


class Told(NamedTuple):
    """For whom a place waits, each with the item; how many bytes it moves; and what it uses."""

    waits: Dict[int, Item]
    moved: int
    uses: List[Use]


def places_of(world: World) -> List[Place]:
    return [Place(chain.first + at, chain, at) for chain in world.chains for at in range(len(chain.steps))]


def in_turn(world: World) -> List[Told]:
    """Runs a trace in recorded order, and gives what is told of each place."""
    known, told = Known(), []
    for place in places_of(world):
        uses = used(world, place, [] if place.chain.is_doomed else row(world, place))
        waits = known.waits(uses)
        known.add(place.number, uses)
        reply, step = run_step(world, place.chain, place.at), place.step()
        is_transfer = isinstance(step, Entry) and step.opcode in (*READS, *WRITES) and not step.given
        told.append(Told(waits, max(reply.result, 0) if is_transfer else 0, uses))
    return told


def longest(told: Sequence[Told], weights: Sequence[int]) -> Tuple[int, int]:
    """The weight of the heaviest path, and the first place with which such a path ends."""
    lengths: List[int] = []
    for it, weight in zip(told, weights):
        lengths.append(weight + max((lengths[before] for before in it.waits), default=0))
    most = max(lengths, default=0)
    return most, lengths.index(most) if lengths else 0


# The text.


def of_path(word: str, told: Sequence[Told], weights: Sequence[int]) -> List[str]:
    """The lines of the heaviest path, and of how many run at once in the mean; of bytes each has a word behind its name."""
    most, last = longest(told, weights)
    hundredths = sum(weights) * 100 // max(most, 1)
    end = "{} to place {}".format(most, last) if most else "0"
    return ["span{} {}".format(word, end), "parallelism{} {}.{:02}".format(word, hundredths // 100, hundredths % 100)]


def sums(told: Sequence[Told]) -> List[str]:
    moved = [it.moved for it in told]
    counts = ["places {}".format(len(told)), "pairs {}".format(sum(len(it.waits) for it in told))]
    return [*counts, *of_path("", told, [1] * len(told)), "bytes {}".format(sum(moved)), *of_path("-bytes", told, moved)]


def text_of(world: World, told: Sequence[Told]) -> bytes:
    lines = ["uring-depends 1"]
    for place, it in enumerate(told):
        lines += ["{} after={} on={}".format(place, before, item_text(world, item)) for before, item in it.waits.items()] or [str(place)]
    return "\n".join([*lines, *sums(told), "end", ""]).encode()


def graph_of(world: World, told: Sequence[Told]) -> bytes:
    lines = ["digraph depends {"]
    for place, it in enumerate(told):
        lines.append('  {} [label="{}"];'.format(place, place))
        for before, item in it.waits.items():
            label = item_text(world, item).replace("\\", "\\\\").replace('"', '\\"')
            lines.append('  {} -> {} [label="{}"];'.format(before, place, label))
    return "\n".join([*lines, "}", ""]).encode()


def depends(text: bytes) -> bytes:
    """What `depends` tells of a trace; or it is Refused."""
    world = model_records.world_of(text)
    return text_of(world, in_turn(world))


def graph(text: bytes) -> bytes:
    """The same as a graph."""
    world = model_records.world_of(text)
    return graph_of(world, in_turn(world))
