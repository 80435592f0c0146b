"""What `rounds` tells of a trace, by docs/ACCESS.md and docs/FORMAT.md alone: the round of each place, and for whom and by what it waited."""
from typing import Any, Dict, Iterable, Iterator, List, NamedTuple, Optional, Sequence, Tuple, Union

import model
import model_records
from model import ADVICE, AT_POSITION, COPY, CREAT, LAST, OF_PATH, READS, TAKEN, TRUNC, WRITES, Chain, Entry, Fill, Holder, NewRing, Seek, Setting, Step, World, run_step
from model import visible
from traces import AT_FDCWD, CLOSE, FALLOCATE, FIXED_FILE, FSYNC, FTRUNCATE, GREATEST_SIZE, LINKAT, MKDIRAT, OPENAT, READ_FIXED
from traces import RENAMEAT, STATX, UNLINKAT, WRITE_FIXED

ORDER, CHAIN, SLOT, DESCRIPTOR, DESCRIPTION, POSITION = "order", "chain", "slot", "descriptor", "description", "position"
SIZE, BYTES, NAME, COUNT, BUFFER = "size", "bytes", "name", "count of names", "bytes of buffer"
MOVING, SYNCING, ON_PATHS = (*READS, *WRITES, FALLOCATE, FTRUNCATE), (FSYNC, *ADVICE), (OPENAT, UNLINKAT, MKDIRAT, LINKAT, RENAMEAT)
EXTENDING, ZEROING = (0, 0x10), (3, 0x10, 0x11)


class Item(NamedTuple):
    """A part of the world: its kind, the number of what it belongs to, in a directory the name, and of bytes the first and the end."""

    kind: str
    owner: Any
    name: bytes = b""
    low: int = 0
    end: int = 1


class All(NamedTuple):
    """All items of some kinds that belong to what has a number below the end."""

    kinds: Tuple[str, ...]
    end: int


AnyItem = Union[Item, All]
ALL_DESCRIPTORS = All((DESCRIPTOR,), LAST + 1)


class Use(NamedTuple):
    """An item that is read or written, or first made."""

    item: AnyItem
    is_written: bool
    is_made: bool = False


class Place(NamedTuple):
    """A step, by its number and where in its chain it is."""

    number: int
    chain: Chain
    at: int

    def step(self) -> Step:
        return self.chain.steps[self.at]


class Held(NamedTuple):
    """For whom a place waits, and by what the two hang together."""

    holder: int
    item: AnyItem


def read(kind: str, owner: Any, low: int = 0, end: int = 1) -> Use:
    return Use(Item(kind, owner, b"", low, end), False)


def written(kind: str, owner: Any, low: int = 0, end: int = 1) -> Use:
    return Use(Item(kind, owner, b"", low, end), True)


def made(kind: str, owner: Any) -> Use:
    return Use(Item(kind, owner, b"", 0, GREATEST_SIZE if kind == BYTES else 1), True, True)


def kinds(item: AnyItem) -> Tuple[str, ...]:
    return item.kinds if isinstance(item, All) else (item.kind,)


def common(one: AnyItem, other: AnyItem) -> Optional[AnyItem]:
    """The part that both items have, if they have any."""
    if isinstance(one, All) and isinstance(other, All):
        both = tuple(it for it in one.kinds if it in other.kinds)
        return All(both, min(one.end, other.end)) if both else None
    if isinstance(one, All):
        one, other = other, one
    if isinstance(other, All):
        return one if one.kind in other.kinds and one.owner < other.end and one.low < one.end else None
    low, end = max(one.low, other.low), min(one.end, other.end)
    return one._replace(low=low, end=end) if one[:3] == other[:3] and low < end else None


class Reached:
    """What the places looked at so far reach for, by the kinds of the items: all of it, and what they write."""

    def __init__(self) -> None:
        self.used: Dict[str, List[Tuple[int, Use]]] = {}
        self.written: Dict[str, List[Tuple[int, Use]]] = {}

    def add(self, place: int, uses: Iterable[Use]) -> None:
        for use in uses:
            for kept in (self.used, self.written) if use.is_written else (self.used,):
                for kind in kinds(use.item):
                    kept.setdefault(kind, []).append((place, use))

    def meets(self, use: Use) -> Iterator[Held]:
        """The places that reach for part of an item which one of both writes, and that part."""
        for kind in kinds(use.item):
            for place, other in (self.used if use.is_written else self.written).get(kind, ()):
                part = common(use.item, other.item)
                if part:
                    yield Held(place, part)

    def writes(self, item: AnyItem) -> bool:
        return any(True for _ in self.meets(Use(item, False)))

    def holding(self, uses: Sequence[Use]) -> Optional[Held]:
        """The latest place that disturbs these uses, by the first of them that it disturbs."""
        all_held = [held for use in uses for held in self.meets(use)]
        return max(all_held, key=lambda it: it.holder, default=None)


# What each operation uses: its items in order, as it uses them where it gives no error.


class Way(NamedTuple):
    """A path as far as it leads: the names looked up, the last of the path's where its directory is there, and what that names."""

    names: List[Item]
    last: Optional[Item] = None
    found: Optional[int] = None

    def looked_up(self) -> List[Use]:
        return [Use(it, False) for it in self.names]

    def changed(self) -> List[Use]:
        return [Use(self.last, True), written(COUNT, self.last.owner)] if self.last else []


def way(world: World, fd: int, path: bytes) -> Way:
    names: List[Item] = []
    parts, at = [it for it in path.split(b"/") if it], 0
    if not path.startswith(b"/") and fd != AT_FDCWD:
        return Way(names)
    for number, name in enumerate(parts, 1):
        if len(name) > 255:
            break
        names.append(Item(NAME, at, name))
        found = world.directory(at).get(name)
        if number == len(parts):
            return Way(names, names[-1], found)
        if found is None or not world.is_directory(found):
            break
        at = found
    return Way(names)


def both_ways(world: World, entry: Entry) -> Tuple[Way, Way]:
    old, new = entry.paths()
    return way(world, entry.fd, old), way(world, entry.length - (1 << 32) if entry.length >> 31 else entry.length, new)


def handle(world: World, ring: int, is_slot: bool, number: int, is_written: bool) -> List[Use]:
    """A slot or a descriptor, where the ring or the table has it."""
    if number >= len(world.slots[ring] if is_slot else world.table):
        return []
    return [Use(Item(SLOT, (ring, number)) if is_slot else Item(DESCRIPTOR, number), is_written)]


def row(world: World, place: Place) -> List[Use]:
    step, ring = place.step(), place.chain.ring
    if isinstance(step, Fill):
        return [written(BUFFER, (ring, step.buffer), step.offset, step.offset + step.data.size)]
    if isinstance(step, NewRing):
        return row_of_ring(ring, step)
    if isinstance(step, Setting):
        return row_of_setting(world, place, step)
    if isinstance(step, Seek):
        return row_of_seek(world, step)
    if step.given:
        return []
    if step.opcode in (*MOVING, *SYNCING):
        return [*handle(world, ring, bool(step.flags & FIXED_FILE), step.fd & LAST, False), *row_of_opened(world, ring, step)]
    if step.opcode == OPENAT:
        return row_of_open(world, place, step)
    if step.opcode == STATX:
        return row_of_stat(world, ring, step)
    if step.opcode == CLOSE:
        return handle(world, ring, step.file_index > 0, step.file_index - 1 if step.file_index else step.fd & LAST, True)
    return row_of_names(world, place, step) if step.opcode in ON_PATHS else []


def row_of_stat(world: World, ring: int, entry: Entry) -> List[Use]:
    """A STATX reads what leads to a node, and of a file the size."""
    if not entry.has_no_path():
        path = way(world, entry.fd, entry.side)
        return [*path.looked_up(), *size_read(world, path.found)]
    if entry.fd == AT_FDCWD:
        return []
    held = world.held(ring, entry)
    opened = [] if held is None else [read(DESCRIPTION, held), *size_read(world, world.descriptions[held].node)]
    return [*handle(world, ring, False, entry.fd & LAST, False), *opened]


def size_read(world: World, node: Optional[int]) -> List[Use]:
    return [] if node is None or world.is_directory(node) else [read(SIZE, node)]


def row_of_ring(ring: int, step: NewRing) -> List[Use]:
    """A new ring reads, of each of its full slots, what gives it its content, and writes the slot."""
    return [it for number, holder in step.full for it in (*(Use(item, False) for item in item_of(holder)), written(SLOT, (ring, number)))]


def row_of_setting(world: World, place: Place, step: Setting) -> List[Use]:
    """A set writes its slot or descriptor; what another one holds is read; a new description is made, by a path as OPENAT makes it."""
    held = [Use(it, True) for it in item_of(step.file)]
    if step.what == COPY:
        return [*(Use(it, False) for it in item_of(step.source)), *held]
    if step.what == TAKEN:
        return [read(COUNT, 0), *held, *new_description(world, place)]
    if step.what != OF_PATH:
        return held
    path = way(world, AT_FDCWD, step.path)
    return [*path.looked_up(), *held, *new_description(world, place), *row_of_way(world, place, path, step.flags)]


def row_of_seek(world: World, step: Seek) -> List[Use]:
    """A seek reads what leads to a description, and writes the position."""
    held = world.held_by(step.file)
    opened = [] if held is None else [read(DESCRIPTION, held), written(POSITION, held)]
    return [*(Use(it, False) for it in item_of(step.file)), *opened]


def new_description(world: World, place: Place) -> List[Use]:
    number = world.described + place.number
    return [made(DESCRIPTION, number), made(POSITION, number)]


def item_of(holder: Holder) -> List[Item]:
    """A description of the start is no item."""
    items = {model.SLOT: [Item(SLOT, (holder.ring, holder.number))], model.DESCRIPTOR: [Item(DESCRIPTOR, holder.number)]}
    return items.get(holder.what, [])


def row_of_opened(world: World, ring: int, entry: Entry) -> List[Use]:
    """What a transfer, a FALLOCATE or an FTRUNCATE uses beside the file number."""
    uses: List[Use] = []
    held = world.held(ring, entry)
    if held is not None and entry.opcode in MOVING:
        node = world.descriptions[held].node
        uses.append(read(DESCRIPTION, held))
        if not world.is_directory(node):
            low, end = moved(world, held, entry)
            is_changed = entry.opcode in (*WRITES, FALLOCATE, FTRUNCATE)
            uses += [Use(Item(SIZE, node), lengthens(world, held, entry)), Use(Item(BYTES, node, b"", low, end), is_changed)]
        if entry.opcode in (*READS, *WRITES) and entry.offset == AT_POSITION:
            uses.append(written(POSITION, held))
    return uses + row_of_buffer(world, ring, entry)


def row_of_buffer(world: World, ring: int, entry: Entry) -> List[Use]:
    if entry.opcode not in (READ_FIXED, WRITE_FIXED) or entry.buffer >= len(world.buffers[ring]):
        return []
    address, buffer = world.buffers[ring][entry.buffer]
    low = entry.address - address
    is_there = buffer.size > 0 and 0 <= low and low + entry.length <= buffer.size
    return [Use(Item(BUFFER, (ring, entry.buffer), b"", low, low + entry.length), entry.opcode == READ_FIXED)] if is_there else []


def is_anywhere(world: World, held: int, entry: Entry) -> bool:
    """Whether the start of a transfer hangs on the position, or on the size."""
    return entry.offset == AT_POSITION or entry.opcode in WRITES and world.descriptions[held].append


def moved(world: World, held: int, entry: Entry) -> Tuple[int, int]:
    """The bytes of a file that an operation uses: the first and the end."""
    if entry.opcode == FTRUNCATE:
        return entry.offset, GREATEST_SIZE
    if entry.opcode == FALLOCATE:
        return entry.offset, min(entry.offset + entry.address, GREATEST_SIZE) if entry.length in ZEROING else 0
    if is_anywhere(world, held, entry):
        return 0, GREATEST_SIZE
    return entry.offset, min(entry.offset + entry.asked(), GREATEST_SIZE)


def lengthens(world: World, held: int, entry: Entry) -> bool:
    """Whether an operation writes the size of the file."""
    size = world.nodes[world.descriptions[held].node].size
    if entry.opcode == FALLOCATE:
        return entry.length in EXTENDING and size < min(entry.offset + entry.address, GREATEST_SIZE)
    if entry.opcode in WRITES:
        return is_anywhere(world, held, entry) or entry.asked() > 0 and size < min(entry.offset + entry.asked(), GREATEST_SIZE)
    return entry.opcode == FTRUNCATE


def row_of_open(world: World, place: Place, entry: Entry) -> List[Use]:
    path = way(world, entry.fd, entry.side)
    return [*path.looked_up(), *room(world, place.chain.ring, entry), *new_description(world, place), *row_of_way(world, place, path, entry.own_flags)]


def row_of_way(world: World, place: Place, path: Way, flags: int) -> List[Use]:
    """What is opened where a path leads: the name of a file that is made, all of one that is cut."""
    if path.last and path.found is None and flags & CREAT:
        return [*path.changed(), made(SIZE, world.items + 1 + place.number)]
    if path.found is not None and not world.is_directory(path.found) and flags & TRUNC:
        return [written(SIZE, path.found), written(BYTES, path.found, 0, GREATEST_SIZE)]
    return []


def room(world: World, ring: int, entry: Entry) -> List[Use]:
    """Where an OPENAT puts the description."""
    if entry.file_index:
        return handle(world, ring, True, entry.file_index - 1, True)
    return [Use(ALL_DESCRIPTORS, False), *([written(DESCRIPTOR, world.table.index(None))] if None in world.table else [])]


def row_of_names(world: World, place: Place, entry: Entry) -> List[Use]:
    """What another operation on paths uses."""
    if entry.opcode in (LINKAT, RENAMEAT):
        old, path = both_ways(world, entry)
        uses = [*old.looked_up(), *path.looked_up(), *(old.changed() if entry.opcode == RENAMEAT else ())]
    else:
        path = way(world, entry.fd, entry.side)
        uses = path.looked_up()
    uses += path.changed()
    if entry.opcode == MKDIRAT:
        uses.append(made(COUNT, world.items + 1 + place.number))
    counts = entry.opcode == RENAMEAT or entry.opcode == UNLINKAT and entry.own_flags
    return uses + ([read(COUNT, path.found)] if counts and path.found is not None and world.is_directory(path.found) else [])


# What a place uses, and what it reaches for.


def order(place: Place) -> List[Use]:
    """The order of its ring and its chain, which each place uses."""
    chain = place.chain
    return [Use(Item(ORDER, chain.queue), chain.is_drained), *([written(CHAIN, chain.number)] if len(chain.steps) > 1 else [])]


def used(world: World, place: Place, own: List[Use]) -> List[Use]:
    """What a place uses, of which the items of its operation are these."""
    step, always = place.step(), order(place)
    if place.chain.is_doomed or place.chain.broken:
        return always
    if isinstance(step, Entry) and not step.given and world.fails(place.number, place.chain.ring, step):
        return [*always, *(Use(it.item, False) for it in own if not it.is_made)]
    return always + own


def decides(step: Step, item: AnyItem) -> bool:
    """Whether it hangs on this item of a step which ones the others are."""
    if isinstance(step, Seek):
        return bool({SLOT, DESCRIPTOR, DESCRIPTION} & set(kinds(item)))
    if isinstance(step, Setting):
        return step.what == OF_PATH and NAME in kinds(item)
    if not isinstance(step, Entry):
        return False
    if step.opcode in MOVING or step.has_no_path():
        return bool({SLOT, DESCRIPTOR, DESCRIPTION} & set(kinds(item)))
    return step.opcode in (*ON_PATHS, STATX) and NAME in kinds(item)


def reach(world: World, place: Place, own: List[Use], uses: List[Use], reached: Reached) -> List[Use]:
    """What a place may still use, where the places before it that have not run reach for so much."""
    step, always, new = place.step(), order(place), new_ones(world, place)
    if place.chain.is_doomed or place.chain.broken and not reached.writes(Item(CHAIN, place.chain.number)) or isinstance(step, Entry) and step.given:
        return always
    if any(decides(step, it.item) and reached.writes(it.item) for it in own):
        return [*always, *unknown(world, place, own), *new, *reached_room(step, own, reached)]
    if not any(reached.writes(it.item) for it in [*always, *own]):
        return uses
    kept = [it._replace(is_written=it.is_written or SIZE in kinds(it.item) and sets_size(step)) for it in own]
    if isinstance(step, Entry) and step.opcode == OPENAT:
        kept = [it for it in kept if not {SLOT, DESCRIPTOR} & set(kinds(it.item))]
    return [*always, *kept, *new, *reached_room(step, own, reached)]


def sets_size(entry: Entry) -> bool:
    return entry.opcode in WRITES or entry.opcode == FALLOCATE and entry.length in EXTENDING


def unknown(world: World, place: Place, own: List[Use]) -> List[Use]:
    """What an operation reaches for of which the items are not known."""
    entry, nodes, descriptions = place.step(), world.items + 1 + place.number, world.described + place.number
    contents, names = Use(All((BYTES, SIZE), nodes), True), Use(All((NAME, COUNT), nodes), True)
    if isinstance(entry, Seek):
        kept = [it for it in own if {SLOT, DESCRIPTOR} & set(kinds(it.item))]
        return [*kept, Use(All((POSITION,), descriptions), True), Use(All((DESCRIPTION,), descriptions), False)]
    if isinstance(entry, Setting):
        kept = [it for it in own if {SLOT, DESCRIPTOR} & set(kinds(it.item))]
        return [*kept, names, *([contents] if entry.flags & TRUNC else [])]
    if entry.opcode in MOVING or entry.has_no_path():
        kept = [it for it in own if {SLOT, DESCRIPTOR, BUFFER} & set(kinds(it.item))]
        return [*kept, contents, Use(All((POSITION,), descriptions), True), Use(All((DESCRIPTION,), descriptions), False)]
    if entry.opcode == STATX:
        return [names._replace(is_written=False), contents._replace(is_written=False)]
    return [names, contents] if entry.opcode == OPENAT and entry.own_flags & TRUNC else [names]


def new_ones(world: World, place: Place) -> List[Use]:
    """All that an OPENAT, a MKDIRAT or a set may make."""
    step, node = place.step(), world.items + 1 + place.number
    if isinstance(step, Setting) and step.what == TAKEN:
        return new_description(world, place)
    makes = step.what == OF_PATH if isinstance(step, Setting) else isinstance(step, Entry) and step.opcode in (OPENAT, MKDIRAT)
    return [*(made(kind, node) for kind in (SIZE, BYTES, COUNT)), *new_description(world, place)] if makes else []


def reached_room(step: Step, own: List[Use], reached: Reached) -> List[Use]:
    """The slot or the descriptors in which an OPENAT may put the description."""
    if not isinstance(step, Entry) or step.opcode != OPENAT:
        return []
    if not step.file_index and reached.writes(ALL_DESCRIPTORS):
        return [Use(ALL_DESCRIPTORS, True)]
    return [it for it in own if {SLOT, DESCRIPTOR} & set(kinds(it.item))]


# Rounds.


class Told(NamedTuple):
    """The round of a place, and for whom it waited last, if it waited."""

    round: int
    held: Optional[Held]


def held_back(world: World, shown: Sequence[Place]) -> Dict[int, Held]:
    """Those of the places looked at that are blocked, and by whom."""
    reached, held = Reached(), {}
    for place in shown:
        own = [] if place.chain.is_doomed else row(world, place)
        uses = used(world, place, own)
        holding = reached.holding(uses)
        if holding:
            held[place.number] = holding
        reached.add(place.number, reach(world, place, own, uses, reached))
    return held


def in_rounds(world: World, window: int) -> List[Told]:
    """Runs a trace in rounds, and gives what is told of each place."""
    waiting = [Place(chain.first + at, chain, at) for chain in world.chains for at in range(len(chain.steps))]
    told: Dict[int, Told] = {}
    last_held: Dict[int, Held] = {}
    number = 0
    while waiting:
        held = held_back(world, waiting[:window])
        for place in [it for it in waiting[:window] if it.number not in held]:
            run_step(world, place.chain, place.at)
            told[place.number] = Told(number, last_held.get(place.number))
        waiting = [it for it in waiting if it.number not in told]
        last_held, number = held, number + 1
    return [told[it] for it in sorted(told)]


# The text.


def node_text(world: World, node: int) -> str:
    return visible(world.item_paths[node]) if node <= world.items else "node of place {}".format(node - world.items - 1)


def item_text(world: World, item: AnyItem) -> str:
    if isinstance(item, All):
        return "all descriptors"
    kind, owner, name, low, end = item
    if kind in (SIZE, BYTES, NAME, COUNT):
        span = "from {}".format(low) if end == GREATEST_SIZE else "{} to {}".format(low, end)
        front = {SIZE: "size of", BYTES: "bytes {} of".format(span), NAME: "name {} in".format(visible(name)), COUNT: "number of names in"}
        return "{} {}".format(front[kind], node_text(world, owner))
    if kind == BUFFER:
        return "bytes {} to {} of buffer {} {}".format(low, end, *owner)
    if kind == SLOT:
        return "slot {} {}".format(*owner)
    front = {ORDER: "order of ring", CHAIN: "chain", DESCRIPTOR: "descriptor", DESCRIPTION: "description", POSITION: "position of description"}
    return "{} {}".format(front[kind], owner)


def sums(told: List[Told]) -> List[str]:
    """How many rounds there are, how wide they are, and how long the longest path is."""
    count = max((it.round for it in told), default=-1) + 1
    widths = [0] * count
    lengths: List[int] = []
    for it in told:
        widths[it.round] += 1
        lengths.append(lengths[it.held.holder] + 1 if it.held else 1)
    mean, longest = len(told) * 100 // max(count, 1), max(lengths, default=0)
    last = "longest {} to place {}".format(longest, lengths.index(longest)) if told else "longest 0"
    return ["rounds {}".format(count), "widest {}".format(max(widths, default=0)), "mean {}.{:02}".format(mean // 100, mean % 100), last]


def rounds(text: bytes, window: int) -> bytes:
    """What `rounds` tells of a trace; or it is Refused."""
    world = model_records.world_of(text)
    told = in_rounds(world, window)
    lines = ["uring-rounds 1"]
    for place, it in enumerate(told):
        held = " after={} on={}".format(it.held.holder, item_text(world, it.held.item)) if it.held else ""
        lines.append("{} round={}{}".format(place, it.round, held))
    return "\n".join([*lines, *sums(told), "end", ""]).encode()


def graph(text: bytes, window: int) -> bytes:
    """The same as a graph."""
    world = model_records.world_of(text)
    lines = ["digraph rounds {"]
    for place, it in enumerate(in_rounds(world, window)):
        lines.append('  {} [label="{} in round {}"];'.format(place, place, it.round))
        if it.held:
            label = item_text(world, it.held.item).replace("\\", "\\\\").replace('"', '\\"')
            lines.append('  {} -> {} [label="{}"];'.format(it.held.holder, place, label))
    return "\n".join([*lines, "}", ""]).encode()
