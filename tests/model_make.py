"""What a text means by docs/TEXT.md alone: the bytes of a trace, or the first place at which it is refused, and why."""
import re
import struct
from typing import Any, Callable, Dict, List, NamedTuple, Optional, Tuple

import record_traces
from drawing import LAST
from model_text import ACCESSES, BITS, ENTRY_FLAGS, ESCAPES, KEYS, OPEN, OPERATIONS, ORDER, Table, style_of
from record_traces import DESCRIPTION, DESCRIPTOR, SLOT, Holder
from traces import ENTRY, READV, WRITE, WRITEV, description, directory, file, fill, head, name, two_paths, with_side

# How many there may be of each kind, in versions 1 and 2 and in version 3, and how many bytes all strings may mean.
MOST = {"item": 65_535, "description": 65_535, "ring": 64, "slot": 1_024, "buffer": 1_024, "entry": 32_768, "place": 1_048_576}
MOST_OF_3 = {"item": 1 << 24, "description": 1 << 20, "ring": 1 << 20, "slot": 1 << 20, "buffer": 16_384, "entry": 32_768, "place": 1 << 31}
MOST_BYTES, LONGEST_PATH = 1 << 30, 65_535
# Blanks between words: the end of a line behind a backslash is one. What stands between lines. A word.
BLANKS, BETWEEN, WORD = re.compile(rb"(?:[ \t\r]|\\[ \t\r]*(?:\n|\Z))*"), re.compile(rb"(?:[ \t\r\n]|#[^\n]*)*"), re.compile(rb"[^ \t\r\n]*")
LETTERS = {letter: byte for byte, letter in ESCAPES.items()}
# Why bytes are no trace, by the name that `check` tells.
OF_TRACE = {
    "Path": "Path: expected names of 1 to 255 bytes, one slash apart; an item begins with one",
    "NoParent": "NoParent: expected a line above for the directory of this path",
    "Exists": "Exists: a line above has the same path",
    "Reference": "Reference: a number on this line names nothing above",
    "Side": "Side: the bytes of this entry do not fit it",
    "Overlap": "Overlap: a buffer above has some of these addresses",
    "Limit": "Limit: a number on this line is out of its range",
}


# The words of a result that is given: one that passes, one that fails, and an error on submission.
GIVEN, LEAST_ERROR = ("given", "failed", "refused"), (1 << 32) - 4_095
NO_SLOT, BOTH = "expected a slot: a number, `-` or `-*COUNT`", "expected strings or zeros=N, not both"
OF_VERSION = "expected `uring-trace 1`, `uring-trace 2` or `uring-trace 3`"


class Refused(Exception):
    """The text means nothing from a place on."""

    def __init__(self, at: int, why: str) -> None:
        super().__init__(at, why)
        self.at, self.why = at, why


class Word(NamedTuple):
    """A word, and where it begins."""

    text: bytes
    at: int

    def behind(self, count: int) -> "Word":
        return Word(self.text[count:], self.at + count)

    def value(self, key: str) -> Optional["Word"]:
        return self.behind(len(key) + 1) if self.text.startswith(key.encode() + b"=") else None


class Made(NamedTuple):
    """The bytes that a text means, and of each line that makes some where they begin and where the line does."""

    trace: bytes
    lines: List[Tuple[int, int]]

    def line_of(self, byte: int) -> int:
        return max((it for it in self.lines if it[0] <= byte), default=self.lines[0])[1]


def place_of(text: bytes, at: int) -> Tuple[int, int]:
    """Line and column, both from 1."""
    return text.count(b"\n", 0, at) + 1, at - text.rfind(b"\n", 0, at)


def digits(word: Word, base: int, bits: int, why: str, at: int) -> int:
    known = {8: b"01234567", 10: b"0123456789", 16: b"0123456789abcdef"}[base]
    if not word.text or word.text.strip(known):
        raise Refused(at, why)
    number = int(word.text, base)
    if number >> bits:
        raise Refused(at, "expected a number of at most {} bits".format(bits))
    return number


def number_of(word: Word, bits: int, how: str = "decimal", flags: Optional[Table] = None) -> int:
    """A number: decimal, 0x and hexadecimal, 0 and octal, or a minus; or such parts and names with bars between them."""
    why = "expected a number or a flag of this field" if how == "flags" else "expected a number"
    if word.text.startswith(b"-"):
        if word.text.startswith(b"-0"):
            raise Refused(word.at, "expected a number")
        number = digits(word.behind(1), 10, bits, "expected a number", word.at)
        if number > 1 << (bits - 1):
            raise Refused(word.at, "expected a number of at most {} bits".format(bits))
        return (1 << bits) - number
    total = 0
    for part in word.text.split(b"|"):
        named = (flags or {}).get(part.decode("latin1"))
        if how == "descriptor" and part == b"AT_FDCWD":
            named = (1 << 32) - 100
        if named is None:
            base, front = (16, 2) if part.startswith(b"0x") else (8, 1) if part.startswith(b"0") and len(part) > 1 else (10, 0)
            named = digits(Word(part[front:], word.at), base, bits, why, word.at)
        if total & named:
            raise Refused(word.at, "the same flag stands here twice")
        total |= named
    return total


def count_of(word: Word) -> int:
    if word.text.startswith(b"0") or not word.text or word.text.strip(b"0123456789"):
        raise Refused(word.at, "expected a count from 1 on")
    if int(word.text) >> 64:
        raise Refused(word.at, "expected a number of at most 64 bits")
    return int(word.text)


def letters_of(word: Word) -> bytes:
    path, at = bytearray(), 0
    while at < len(word.text):
        found = re.compile(rb"\\x([0-9a-f]{2})|([!-\[\]-~])").match(word.text, at)
        if not found:
            raise Refused(word.at + at, "expected a visible character, or `\\xHH` for a byte")
        path += bytes.fromhex(found[1].decode()) if found[1] else found[2]
        at = found.end()
    return bytes(path)


def counted(path: bytes, word: Word) -> bytes:
    """A path whose length stands in two bytes."""
    if len(path) > LONGEST_PATH:
        raise Refused(word.at, "expected a path of at most 65535 bytes")
    return path


def path_of(word: Word) -> bytes:
    if not word.text:
        raise Refused(word.at, "expected a path")
    return counted(letters_of(word), word)


class Reader:
    """A text, and the place up to which it has been read."""

    most = MOST
    versions: Tuple[bytes, ...] = (b"1", b"2")

    def __init__(self, text: bytes) -> None:
        self.text, self.at, self.room = text, 0, MOST_BYTES
        self.paths: Dict[bytes, int] = {b"/": 0}
        self.parts: List[bytes] = []
        self.lines: List[Tuple[int, int]] = []
        self.made = 32

    # Words.

    def match(self, pattern: "re.Pattern[bytes]", at: int) -> "re.Match[bytes]":
        found = pattern.match(self.text, at)
        assert found
        return found

    def first(self) -> Word:
        """The first word of the next line that has one."""
        at = self.match(BETWEEN, self.at).end()
        return Word(self.match(WORD, at)[0], at)

    def peek(self) -> Word:
        at = self.match(BLANKS, self.at).end()
        return Word(self.match(WORD, at)[0], at)

    def pass_word(self, word: Word) -> Word:
        self.at = word.at + len(word.text)
        return word

    def next(self) -> Word:
        return self.pass_word(self.peek())

    def is_at_end(self) -> bool:
        return self.text[self.peek().at : self.peek().at + 1] in (b"", b"\n", b"#")

    def end(self) -> None:
        at = self.peek().at
        if not self.is_at_end():
            raise Refused(at, "expected the end of the line")
        feed = self.text.find(b"\n", at)
        self.at = len(self.text) if feed < 0 else feed + 1

    def begin(self, count: int, kind: str) -> Word:
        """Passes the first word of a line, before which there are so many of its kind."""
        word = self.first()
        if count >= self.most[kind]:
            raise Refused(word.at, "there is one more of these than a trace may have")
        self.pass_word(word)
        return word

    def add(self, line: Word, made: bytes, hidden: int = 0) -> None:
        """Adds the bytes that a line makes; so many before them are of no line."""
        self.lines.append((self.made + hidden, line.at))
        self.parts.append(made)
        self.made += len(made)

    # Values.

    def next_path(self) -> bytes:
        if self.is_at_end():
            raise Refused(self.peek().at, "expected a path")
        return path_of(self.next())

    def keyed(self, key: str, bits: int) -> Optional[int]:
        value = self.peek().value(key)
        if value is None:
            return None
        number = number_of(value, bits)
        self.next()
        return number

    def node(self, word: Word) -> int:
        if word.text.startswith(b"@"):
            return number_of(word.behind(1), 32)
        path = path_of(word)
        if path not in self.paths:
            raise Refused(word.at, "expected the path of an item above, or `@` and its number")
        return self.paths[path]

    def next_number(self, number: int) -> None:
        word = self.next()
        try:
            told = number_of(word, 64)
        except Refused:
            told = -1
        if told != number:
            raise Refused(word.at, "expected the number {}, which is next".format(number))

    def is_string(self) -> bool:
        return self.peek().text.startswith((b'"', b'x"'))

    def letters(self, at: int) -> Tuple[bytes, int]:
        """The bytes of a string up to its mark, and the place behind it."""
        found = bytearray()
        while self.text[at : at + 1] != b'"':
            here = self.text[at : at + 1]
            if here == b"\\":
                escape = re.compile(rb"\\(?:x([0-9a-f]{2})|(.))", re.S).match(self.text, at)
                letter = escape[2].decode("latin1") if escape and escape[2] else None
                if not escape or letter is not None and letter not in LETTERS:
                    raise Refused(at, 'expected one of \\n \\t \\r \\0 \\" \\\\ \\xHH')
                found += bytes([LETTERS[letter]]) if letter is not None else bytes.fromhex(escape[1].decode())
                at = escape.end()
            elif b" " <= here <= b"~":
                found += here
                at += 1
            else:
                raise Refused(at, "expected a visible character, an escape or a quotation mark")
        return bytes(found), at + 1

    def pairs(self, at: int) -> Tuple[bytes, int]:
        """The same of a string of digits."""
        found = bytearray()
        while self.text[at : at + 1] != b'"':
            pair = re.compile(rb"[0-9a-f]{2}").match(self.text, at)
            if not pair:
                raise Refused(at, "expected two hexadecimal digits or a quotation mark")
            found += bytes.fromhex(pair[0].decode())
            at += 2
        return bytes(found), at + 1

    def string(self) -> bytes:
        start = self.peek()
        if start.text.startswith(b'"'):
            once, at = self.letters(start.at + 1)
        elif start.text.startswith(b'x"'):
            once, at = self.pairs(start.at + 2)
        else:
            cut = start.text.startswith(b"...")
            raise Refused(start.at, "the bytes here were left out by `show --first`" if cut else "expected a string")
        behind, times = Word(self.match(WORD, at)[0], at), 1
        if behind.text.startswith(b"*"):
            times = count_of(behind.behind(1))
        if len(once) * times > self.room:
            raise Refused(start.at, "expected strings of at most 1073741824 bytes in all")
        if behind.text and not behind.text.startswith(b"*"):
            raise Refused(at, "expected a string")
        self.pass_word(behind)
        self.room -= len(once) * times
        return once * times if once else b""

    def strings(self) -> bytes:
        parts = []
        while not self.is_at_end():
            parts.append(self.string())
        return b"".join(parts)

    # Lines.

    def version(self) -> int:
        word = self.first()
        if word.text != b"uring-trace":
            raise Refused(word.at, OF_VERSION)
        self.pass_word(word)
        number = self.next()
        if number.text not in self.versions:
            raise Refused(number.at, OF_VERSION)
        self.end()
        return int(number.text)

    def items(self) -> int:
        count = 0
        while self.first().text in (b"dir", b"file", b"name"):
            line = self.begin(count, "item")
            path = self.next_path()
            if line.text == b"dir":
                made = directory(path)
            elif line.text == b"file":
                made = self.file(path, self.keyed("size", 64))
            else:
                value = self.peek().value("of")
                if value is None:
                    raise Refused(self.peek().at, "expected of=PATH")
                made = name(path, self.node(value))
                self.next()
            self.end()
            count += 1
            self.paths.setdefault(path, count)
            self.add(line, made)
        return count

    def file(self, path: bytes, size: Optional[int]) -> bytes:
        data = self.strings()
        return file(path, len(data) if size is None else size, data)

    def descriptions(self) -> int:
        count = 0
        while self.first().text == b"open":
            line = self.begin(count, "description")
            self.next_number(count)
            if self.is_at_end():
                raise Refused(self.peek().at, "expected a path")
            node = self.node(self.peek())
            self.next()
            access, _, append = self.peek().text.decode("latin1").partition("|")
            if access not in ACCESSES or self.peek().text != access.encode() and append != "O_APPEND":
                raise Refused(self.peek().at, "expected O_RDONLY, O_WRONLY or O_RDWR, perhaps with |O_APPEND")
            self.next()
            position = self.keyed("pos", 64) or 0
            self.end()
            self.add(line, description(node, ACCESSES.index(access), int(append == "O_APPEND"), position))
            count += 1
        return count

    def slots(self) -> List[int]:
        slots: List[int] = []
        if self.is_at_end():
            raise Refused(self.peek().at, NO_SLOT)
        while not self.is_at_end():
            word = self.peek()
            if word.text == b"-" or word.text.startswith(b"-*"):
                more = 1 if word.text == b"-" else count_of(word.behind(2))
                added = [0] * min(more, MOST["slot"] + 1)
            else:
                number = number_of(word, 32)
                if number + 1 >> 32:
                    raise Refused(word.at, "expected a number of at most 32 bits")
                added = [number + 1]
            if len(slots) + len(added) > MOST["slot"]:
                raise Refused(word.at, "there is one more of these than a trace may have")
            slots += added
            self.next()
        self.end()
        return slots

    def rings(self) -> int:
        count = 0
        while self.first().text == b"ring":
            line = self.begin(count, "ring")
            self.next_number(count)
            self.end()
            count += 1
            slots_line, slots = None, []
            if self.first().text == b"slots":
                slots_line = self.pass_word(self.first())
                slots = self.slots()
            self.add(line, struct.pack("<H", len(slots)))
            buffers = self.buffers()
            packed = struct.pack("<{}I".format(len(slots)), *slots) + struct.pack("<H", len(buffers))
            if slots_line:
                self.add(slots_line, packed)
            else:
                self.parts.append(packed)
                self.made += len(packed)
            for buffer, made in buffers:
                self.add(buffer, made)
        return count

    def buffers(self) -> List[Tuple[Word, bytes]]:
        """The bytes that each line of a buffer makes."""
        buffers: List[Tuple[Word, bytes]] = []
        while self.first().text == b"buffer":
            buffer = self.begin(len(buffers), "buffer")
            self.next_number(len(buffers))
            address = number_of(self.next(), 64)
            buffers.append((buffer, struct.pack("<QI", address, number_of(self.next(), 32))))
            self.end()
        return buffers

    def records(self) -> int:
        count = places = 0
        while self.first().text in (b"enter", b"fill"):
            line = self.begin(count, "place")
            if line.text == b"enter":
                places += self.enter(line, places)
            else:
                if places >= MOST["place"]:
                    raise Refused(line.at, "there is one more of these than a trace may have")
                self.fill(line)
                places += 1
            count += 1
        return count

    def fill(self, line: Word) -> None:
        part = self.part(8)
        data = self.strings()
        self.end()
        self.add(line, fill(*part, data))

    def part(self, bits: int) -> Tuple[int, int, int]:
        """Where a fill goes: a ring, whose number has so many bits, a buffer and an offset."""
        ring = number_of(self.next(), bits)
        buffer = self.keyed("buffer", 16)
        if buffer is None:
            raise Refused(self.peek().at, "expected buffer=N")
        return ring, buffer, self.keyed("at", 32) or 0

    def enter(self, line: Word, places: int) -> int:
        ring = number_of(self.next(), 8)
        entries = self.entries(places, lambda first: Draft(opcode_of(first.text) or 0).read(self))
        self.add(line, struct.pack("<BBH", 1, ring, len(entries)))
        for first, made in entries:
            self.add(first, made)
        return len(entries)

    def entries(self, places: int, read: Callable[[Word], bytes]) -> List[Tuple[Word, bytes]]:
        """The bytes that each line of an entry makes."""
        self.end()
        entries: List[Tuple[Word, bytes]] = []
        while opcode_of(self.first().text) is not None:
            first = self.begin(len(entries), "entry")
            if places + len(entries) >= self.most["place"]:
                raise Refused(first.at, "there is one more of these than a trace may have")
            entries.append((first, read(first)))
        return entries

    def trace(self) -> Made:
        version = self.version()
        items, descriptions, table = self.items(), self.descriptions(), []
        if version == 2 and self.first().text == b"descriptors":
            line = self.pass_word(self.first())
            table = self.slots()
            self.add(line, struct.pack("<{}I".format(len(table)), *table))
        rings, records = self.rings(), self.records()
        self.finish()
        return Made(head(items, descriptions, rings, records, len(table), version) + b"".join(self.parts), self.lines)

    def finish(self) -> None:
        """Nothing follows."""
        stray = self.first()
        if stray.text:
            known = b"dir file name open descriptors ring slots buffer".split()
            order, entry = "a line of this kind cannot stand behind those above", "expected `enter RING` above an entry"
            other = entry if opcode_of(stray.text) is not None else "expected a line of a trace, or an operation"
            raise Refused(stray.at, order if stray.text in known else other)


class RecordsReader(Reader):
    """A text of version 3."""

    most = MOST_OF_3
    versions = (b"3",)

    def trace(self) -> Made:
        self.version()
        items, descriptions, size, full = self.items(), self.descriptions(), 0, []
        if self.first().text == b"descriptors":
            line = self.pass_word(self.first())
            size, full = self.table(lambda word: number_of(word, 32))
            self.add(line, b"".join(record_traces.descriptor(*it) for it in full))
        self.records()
        self.finish()
        return Made(b"".join([record_traces.head(items, descriptions, size, len(full)), *self.parts, record_traces.END]), self.lines)

    def file(self, path: bytes, size: Optional[int]) -> bytes:
        ranges: List[Tuple[int, bytes]] = []
        while not self.is_at_end():
            offset = self.keyed("at", 64)
            parts = [self.string()]
            while self.is_string():
                parts.append(self.string())
            ranges.append((offset or 0, b"".join(parts)))
        end = ranges[-1][0] + len(ranges[-1][1]) if ranges else 0
        return record_traces.file(path, min(end, (1 << 64) - 1) if size is None else size, ranges)

    def table(self, held: Callable[[Word], Any]) -> Tuple[int, List[Tuple[int, Any]]]:
        """How many slots follow, and those that are full."""
        size, full = 0, []
        if self.is_at_end():
            raise Refused(self.peek().at, NO_SLOT)
        while not self.is_at_end():
            word, more = self.peek(), 1
            if word.text == b"-" or word.text.startswith(b"-*"):
                more = 1 if word.text == b"-" else count_of(word.behind(2))
            else:
                full.append((size, held(word)))
            size += more
            if size > self.most["slot"]:
                raise Refused(word.at, "there is one more of these than a trace may have")
            self.next()
        self.end()
        return size, full

    def holder(self, word: Word) -> Holder:
        """What a slot gets: what a descriptor or a slot holds, or a description."""
        if word.text.startswith(b"fd:"):
            return DESCRIPTOR, 0, number_of(word.behind(3), 32)
        ring, colon, _ = word.text.partition(b":")
        if colon:
            return SLOT, number_of(Word(ring, word.at), 32), number_of(word.behind(len(ring) + 1), 32)
        return DESCRIPTION, 0, number_of(word, 32)

    def records(self) -> int:
        rings = 0
        while self.first().text in (b"ring", b"enter", b"fill", b"set", b"seek"):
            line = self.pass_word(self.first())
            if line.text == b"enter":
                self.enter(line, 0)
            elif line.text == b"fill":
                self.fill(line)
            elif line.text == b"set":
                self.set(line)
            elif line.text == b"seek":
                self.seek(line)
            elif self.is_end_of_ring():
                self.ring_ends(line)
            else:
                self.ring(line, rings)
                rings += 1
        return rings

    def held(self, word: Word) -> Holder:
        """A slot or a descriptor."""
        held = self.holder(word)
        if held[0] == DESCRIPTION:
            raise Refused(word.at, "expected a slot or a descriptor: RING:N or fd:N")
        return held

    def set(self, line: Word) -> None:
        held = self.held(self.next())
        word = self.peek()
        path, other = word.value("path"), word.value("of")
        if word.text in (b"nothing", b"taken"):
            made = record_traces.set_nothing(held) if word.text == b"nothing" else record_traces.set_taken(held)
            self.next()
        elif other is not None:
            made = record_traces.set_copy(held, self.held(other))
            self.next()
        elif path is not None:
            made = self.opened(held, path)
        else:
            raise Refused(word.at, "expected nothing, path=PATH, of=RING:N, of=fd:N or taken")
        self.end()
        self.add(line, made)

    def opened(self, held: Holder, path: Word) -> bytes:
        """What holds a new description of a path."""
        text = path_of(path)
        self.next()
        word, flags = self.peek().value("open_flags"), 0
        if word is not None:
            flags = number_of(word, 32, "flags", OPEN)
            self.next()
        return record_traces.set_path(held, text, flags, self.keyed("pos", 64) or 0)

    def seek(self, line: Word) -> None:
        held = self.held(self.next())
        position = self.keyed("pos", 64)
        if position is None:
            raise Refused(self.peek().at, "expected pos=N")
        self.end()
        self.add(line, record_traces.seek(held, position))

    def is_end_of_ring(self) -> bool:
        """Whether the second word from here is `ends`."""
        here = self.at
        self.next()
        second, self.at = self.peek(), here
        return second.text == b"ends"

    def ring_ends(self, line: Word) -> None:
        number = number_of(self.next(), 32)
        self.next()
        self.end()
        self.add(line, record_traces.ring_ends(number))

    def ring(self, line: Word, rings: int) -> None:
        """A new ring, before which there were so many."""
        if rings >= self.most["ring"]:
            raise Refused(line.at, "there is one more of these than a trace may have")
        self.next_number(rings)
        queue = self.keyed("queue", 32)
        self.end()
        slots_line, slots, full = line, 0, []
        if self.first().text == b"slots":
            slots_line = self.pass_word(self.first())
            slots, full = self.table(self.holder)
        self.add(line, struct.pack("<B3I", 5, LAST if queue is None else queue, slots, len(full)))
        buffers = self.buffers()
        self.add(slots_line, b"".join(struct.pack("<IBII", number, *held) for number, held in full))
        self.add(line, struct.pack("<H", len(buffers)))
        for buffer, made in buffers:
            self.add(buffer, made)

    def fill(self, line: Word) -> None:
        part = self.part(32)
        zeros = self.keyed("zeros", 32)
        made = record_traces.fill(*part, self.strings()) if zeros is None else record_traces.fill_of_zeros(*part, zeros)
        self.end()
        self.add(line, made)

    def enter(self, line: Word, places: int) -> int:
        ring = number_of(self.next(), 32)
        entries = self.entries(places, lambda first: RecordsDraft(opcode_of(first.text) or 0, first.at).read(self))
        self.add(line, struct.pack("<BIH", 1, ring, len(entries)))
        for first, made in entries:
            self.add(first, made)
        return len(entries)


def opcode_of(word: bytes) -> Optional[int]:
    text = word.decode("latin1")
    if text in OPERATIONS:
        return OPERATIONS.index(text)
    number = re.fullmatch(r"OP_(0|[1-9][0-9]{0,2})", text, re.A)
    return int(number[1]) if number and int(number[1]) < 256 else None


class Draft:
    """What the words of an entry have said so far."""

    def __init__(self, opcode: int) -> None:
        self.fields: Dict[str, int] = {"opcode": opcode}
        self.paths: Dict[str, bytes] = {}
        self.lengths: Optional[List[int]] = None
        self.data = b""
        own = {style_of(opcode, key).name: key for key in ORDER}
        self.known = {**{key: key for key in ORDER}, **own}

    def read(self, reader: Reader) -> bytes:
        strings = []
        while not reader.is_at_end():
            if reader.is_string():
                self.begin_string(reader.peek())
                strings.append(reader.string())
            else:
                self.word(reader.peek())
                reader.next()
        reader.end()
        self.data = b"".join(strings)
        return self.bytes()

    def begin_string(self, word: Word) -> None:
        """A string follows."""

    def word(self, word: Word) -> None:
        text = word.text.decode("latin1")
        key, sign, _ = text.partition("=")
        if text in ENTRY_FLAGS:
            bit = 1 << ENTRY_FLAGS.index(text)
            if self.fields.get("flags", 0) & bit:
                raise Refused(word.at, "the same flag stands here twice")
            self.fields["flags"] = self.fields.get("flags", 0) | bit
        elif text.startswith("["):
            self.vector(word)
        elif text == "...":
            raise Refused(word.at, "the bytes here were left out by `show --first`")
        elif sign and key in ("path", "old", "new"):
            if key in self.paths:
                raise Refused(word.at, "this stands here for the second time")
            value = word.behind(len(key) + 1)
            path = letters_of(value)
            self.paths[key] = counted(path, value) if key == "old" else path
        elif sign and key in self.known:
            field = self.known[key]
            if field in self.fields:
                raise Refused(word.at, "this stands here for the second time")
            style = style_of(self.fields["opcode"], field)
            self.fields[field] = number_of(word.behind(len(key) + 1), BITS[field], style.how, style.flags)
        else:
            raise Refused(word.at, "expected a flag, a field of this operation or a string")

    def vector(self, word: Word) -> None:
        if self.lengths is not None:
            raise Refused(word.at, "this stands here for the second time")
        if len(word.text) < 2 or not word.text.endswith(b"]"):
            raise Refused(word.at, "expected lengths, as [4,8]")
        at, self.lengths = word.at + 1, []
        for part in word.text[1:-1].split(b","):
            self.lengths.append(number_of(Word(part, at), 64))
            at += len(part) + 1

    def bytes(self) -> bytes:
        return with_side(self.packed(len(self.data)), self.front() + self.data)

    def front(self) -> bytes:
        """What stands beside the entry before the bytes that it writes."""
        lengths = self.lengths or []
        side = struct.pack("<{}Q".format(len(lengths)), *lengths) + self.paths.get("path", b"")
        if "old" in self.paths or "new" in self.paths:
            side += two_paths(self.paths.get("old", b""), self.paths.get("new", b""))
        return side

    def packed(self, written: int) -> bytes:
        """The 64 bytes of an entry that writes so many."""
        opcode = self.fields["opcode"]
        default = written if opcode == WRITE else len(self.lengths or []) if opcode in (READV, WRITEV) else 0
        whole = {**dict.fromkeys(KEYS, 0), "len": default, **self.fields}
        whole["fd"] -= (whole["fd"] >> 31) << 32
        return ENTRY.pack(*(whole[key] for key in KEYS))


class RecordsDraft(Draft):
    """The same in version 3, where the entry may have zeros, or a result that is given; and where its line begins."""

    def __init__(self, opcode: int, at: int) -> None:
        super().__init__(opcode)
        self.at = at
        self.zeros: Optional[int] = None
        self.given: Optional[Tuple[str, int]] = None
        self.has_strings = False

    def begin_string(self, word: Word) -> None:
        if self.zeros is not None:
            raise Refused(word.at, BOTH)
        self.has_strings = True

    def word(self, word: Word) -> None:
        zeros = word.value("zeros")
        result = next(((key, found) for key in GIVEN for found in [word.value(key)] if found), None)
        if result:
            if self.given:
                raise Refused(word.at, "this stands here for the second time")
            self.given = result[0], number_of(result[1], 32)
            if result[0] == "refused" and self.given[1] < LEAST_ERROR:
                raise Refused(result[1].at, "expected an error from -4095 to -1")
            return
        if zeros is None:
            super().word(word)
            return
        if self.zeros is not None or self.has_strings:
            raise Refused(word.at, BOTH if self.zeros is None else "this stands here for the second time")
        self.zeros = number_of(zeros, 32)

    def bytes(self) -> bytes:
        if self.given:
            return self.with_result(*self.given)
        if self.zeros is None:
            return record_traces.stored(super().bytes())
        packed, front = self.packed(self.zeros), self.front()
        length = struct.unpack_from("<I", packed, 24)[0]
        # As many bytes stand there as are read.
        if len(front) != min(self.zeros, 8 * length if packed[0] == WRITEV and length <= 1024 else 0):
            raise Refused(self.at, OF_TRACE["Side"])
        return packed + struct.pack("<BI", 1, self.zeros) + front

    def with_result(self, key: str, result: int) -> bytes:
        """The bytes of an entry whose result is given, which has nothing beside it."""
        if self.zeros is not None or self.front() or self.data:
            raise Refused(self.at, OF_TRACE["Side"])
        packed = self.packed(0)
        return packed + (struct.pack("<BI", 3, result) if key == "refused" else struct.pack("<BIB", 2, result, key == "failed"))


def has_version_3(text: bytes) -> bool:
    reader = Reader(text)
    return reader.pass_word(reader.first()).text == b"uring-trace" and reader.peek().text in RecordsReader.versions


def made_of(text: bytes) -> Made:
    """What a text of any version means, whether its bytes are a trace or not."""
    return (RecordsReader if has_version_3(text) else Reader)(text).trace()


def make(text: bytes) -> bytes:
    """The trace of a text of any version."""
    return made_of(text).trace


def refusal_line(text: bytes, at: int, why: str) -> bytes:
    """The line on standard error for a text that is refused from a place on."""
    line, column = place_of(text, at)
    return "text refused: {}:{}: {}\n".format(line, column, why).encode()


def refusal_of(text: bytes, made: Made, told: bytes) -> bytes:
    """The same where the bytes are no trace, by what `check` tells of them."""
    found = re.fullmatch(rb"trace refused: (\w+) at (\d+)\n", told)
    assert found, told
    return refusal_line(text, made.line_of(int(found[2])), OF_TRACE[found[1].decode()])
