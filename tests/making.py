"""Traces of any version from text: `make` gives the bytes that model_make.py says a text means, or refuses it at the same line and column for the
same reason. The texts are those of examples, of recorded traces and of drawn ones, half of them of version 3; such with some letters changed; and
mistakes that people make."""
import random
from functools import partial
from typing import Iterator, List, Optional, Tuple

import days
import examples
import model_make
import model_text
from harness import Answer, Job, Outcome, Program, difference, first, read, shown
from text import DRAWS

# How many traces are drawn, and how many changed texts, in how many lots.
DRAWN, LOTS = 3_000, 6
# The KiB of memory that a hostile text may take.
HOSTILE_MEMORY = 100 << 10
LETTERS = b' \t\n\r"\\#=|@-*.x[],0123456789abcdef~\x00\xff/ODNLo'
WORDS = (b"fd=1", b"len=4", b"-", b"-*3", b'"a"*16', b"x\"00\"", b"@1", b"of=/a", b"size=9", b"IO_LINK", b"0x80", b"pos=1", b"[1,2]", b"path=/a", b"...", b"\\\n", b"# c", b"O_RDWR",
         b"ring", b"enter 0", b"\nNOP", b"\ndir /q", b"rw_flags=RWF_SYNC|1", b"off=-1", b"1", b"00", b"18446744073709551616")
# Those that version 3 has besides.
WORDS_OF_RECORDS = (b"at=4", b"at=18446744073709551615", b"zeros=3", b"queue=0", b"fd:1", b"0:1", b":", b"ends", b"\nring 0 ends", b"\nring 1", b"\nfill 0 buffer=0 zeros=2", b"-*1048576",
                    b"given=5", b"given=-2147483648", b"failed=-4", b"failed=4294967295", b"refused=-22", b"refused=0", b"\nPOLL_ADD refused=-4095", b"nothing", b"taken", b"of=fd:0",
                    b"open_flags=O_RDWR", b"\nset 0:1 taken", b"\nset fd:1 of=0:0", b"\nset 0:2 path=/a open_flags=O_RDWR pos=4", b"\nseek 0:0 pos=5")
FRONT = "uring-trace 2\nfile /a \"abc\"\nopen 0 /a O_RDWR\ndescriptors 0 -\nring 0\n  slots 0 -*3\n  buffer 0 0x1000 16\n"
FRONT_OF_RECORDS = FRONT.replace("trace 2", "trace 3")
THREE = "uring-trace 3\n"
NO_SLOTS, NO_NUMBER, TWICE = "expected a slot: a number, `-` or `-*COUNT`", "expected a number", "this stands here for the second time"
OUT_OF_RANGE, NOT_THERE, ONE_MORE = "Limit: a number on this line is out of its range", "Reference: a number on this line names nothing above", "there is one more of these than a trace may have"
UNKNOWN = "expected a flag, a field of this operation or a string"
# A line up to a number in it, what is behind it, how many bits it may have, and what is told of the greatest number of so many.
NUMBERS_OF_LINES: Tuple[Tuple[str, str, int, str], ...] = (
    ("uring-trace 1\nfile /a size=", "", 64, "2:1: " + OUT_OF_RANGE), ("uring-trace 1\nfile /a\nopen 0 /a O_RDWR pos=", "", 64, "3:1: " + OUT_OF_RANGE),
    ("uring-trace 1\nfile /a\nopen 0 @", " O_RDWR", 32, "3:1: " + NOT_THERE), ("uring-trace 1\nring 0\n  buffer 0 0x1000 ", "", 32, "3:3: " + OUT_OF_RANGE),
    ("uring-trace 1\nring 0\n  buffer 0 ", " 1", 64, "3:3: " + OUT_OF_RANGE), (FRONT + "fill ", ' buffer=0 "a"', 8, "8:1: " + NOT_THERE),
    (FRONT + "fill 0 buffer=", ' "a"', 16, "8:1: " + NOT_THERE), (FRONT + "fill 0 buffer=0 at=", ' "a"', 32, "8:1: " + NOT_THERE), (FRONT + "enter ", "", 8, "8:1: " + NOT_THERE),
    (THREE + "descriptors ", "", 32, "2:1: " + NOT_THERE), (THREE + "file /a at=", ' "a"', 64, "2:1: " + OUT_OF_RANGE), (THREE + "ring 0\n  slots fd:", "", 32, "3:3: " + NOT_THERE),
    (THREE + "ring 0\n  slots ", ":0", 32, "3:3: " + NOT_THERE), (FRONT_OF_RECORDS + "ring 1\n  slots 0:", "", 32, "9:3: " + NOT_THERE), (THREE + "ring 0\n  slots ", "", 32, "3:3: " + NOT_THERE),
    (FRONT_OF_RECORDS + "set fd:0 path=/a open_flags=", "", 32, "8:1: " + OUT_OF_RANGE), (FRONT_OF_RECORDS + "set fd:0 path=/a pos=", "", 64, "8:1: " + OUT_OF_RANGE),
    (FRONT_OF_RECORDS + "seek fd:0 pos=", "", 64, "8:1: " + OUT_OF_RANGE), (FRONT_OF_RECORDS + "ring ", " ends", 32, "8:1: " + NOT_THERE), (FRONT_OF_RECORDS + "fill ", ' buffer=0 "a"', 32, "8:1: " + NOT_THERE),
    (FRONT_OF_RECORDS + "fill 0 buffer=0 zeros=", "", 32, "8:1: " + NOT_THERE), (FRONT_OF_RECORDS + "enter ", "", 32, "8:1: " + NOT_THERE),
    (FRONT_OF_RECORDS + "enter 0\n  WRITE zeros=", "", 32, "9:3: Side: the bytes of this entry do not fit it"),
)

# Mistakes: a text, and what is told of it.
MISTAKES: Tuple[Tuple[str, str], ...] = (
    ("", "1:1: expected `uring-trace 1`, `uring-trace 2` or `uring-trace 3`"),
    ("uring-trace\n", "1:12: expected `uring-trace 1`, `uring-trace 2` or `uring-trace 3`"),
    ("uring-trace 4\n", "1:13: expected `uring-trace 1`, `uring-trace 2` or `uring-trace 3`"),
    ("uring-trace 1 2\n", "1:15: expected the end of the line"),
    ("uring-trace 1\nfiel /a\n", "2:1: expected a line of a trace, or an operation"),
    ("uring-trace 1\nfile\n", "2:5: expected a path"),
    ("uring-trace 1\nfile a\n", "2:1: Path: expected names of 1 to 255 bytes, one slash apart; an item begins with one"),
    ("uring-trace 1\nfile /d/a\n", "2:1: NoParent: expected a line above for the directory of this path"),
    ("uring-trace 1\nfile /a\n\ndir /a\n", "4:1: Exists: a line above has the same path"),
    ("uring-trace 1\nfile /a\\20b\n", "2:8: expected a visible character, or `\\xHH` for a byte"),
    ("uring-trace 1\nfile /a b\n", "2:9: expected a string"),
    ("uring-trace 1\nfile /a \"a\\qc\"\n", "2:11: expected one of \\n \\t \\r \\0 \\\" \\\\ \\xHH"),
    ("uring-trace 1\nfile /a \"abc\nopen 0 /a O_RDWR\n", "2:13: expected a visible character, an escape or a quotation mark"),
    ("uring-trace 1\nfile /a \"abc\"*0\n", "2:15: expected a count from 1 on"),
    ("uring-trace 1\nfile /a \"abc\"3\n", "2:14: expected a string"),
    ("uring-trace 1\nfile /a x\"0g\"\n", "2:11: expected two hexadecimal digits or a quotation mark"),
    ("uring-trace 1\nfile /a \"\\0\"*99999999999\n", "2:9: expected strings of at most 1073741824 bytes in all"),
    ("uring-trace 1\nfile /a \"abc\" ...\n", "2:15: the bytes here were left out by `show --first`"),
    ("uring-trace 1\nfile /a size=2 \"abc\"\n", "2:1: Limit: a number on this line is out of its range"),
    ("uring-trace 1\nname /b of=/a\n", "2:12: expected the path of an item above, or `@` and its number"),
    ("uring-trace 1\nname /b /a\n", "2:9: expected of=PATH"),
    ("uring-trace 1\nopen 0 /a O_RDWR\n", "2:8: expected the path of an item above, or `@` and its number"),
    ("uring-trace 1\nfile /a\nopen 1 /a O_RDWR\n", "3:6: expected the number 0, which is next"),
    ("uring-trace 1\nfile /a\nopen 0 /a O_CREAT\n", "3:11: expected O_RDONLY, O_WRONLY or O_RDWR, perhaps with |O_APPEND"),
    ("uring-trace 1\nopen 0 / O_RDWR\n", "2:1: Limit: a number on this line is out of its range"),
    ("uring-trace 1\ndescriptors 0\n", "2:1: a line of this kind cannot stand behind those above"),
    ("uring-trace 1\nring 1\n", "2:6: expected the number 0, which is next"),
    ("uring-trace 1\nring 0\n  slots 0\n", "3:3: Reference: a number on this line names nothing above"),
    ("uring-trace 1\nring 0\n  slots - *3\n", "3:11: expected a number"),
    ("uring-trace 1\nring 0\n  slots -*1025\n", "3:9: there is one more of these than a trace may have"),
    ("uring-trace 1\nring 0\n  buffer 0 0x1000\n", "3:18: expected a number"),
    ("uring-trace 1\nring 0\n  buffer 0 4096 8\n  buffer 1 4100 8\n", "4:3: Overlap: a buffer above has some of these addresses"),
    ("uring-trace 1\nring 0\nfile /a\n", "3:1: a line of this kind cannot stand behind those above"),
    ("uring-trace 1\nring 0\nNOP\n", "3:1: expected `enter RING` above an entry"),
    ("uring-trace 1\nring 0\nenter 1\n  NOP\n", "3:1: Reference: a number on this line names nothing above"),
    (FRONT + "enter 0\n  READ fd=0 lenn=4\n", "9:13: expected a flag, a field of this operation or a string"),
    (FRONT + "enter 0\n  READ fd=0 fd=1\n", "9:13: this stands here for the second time"),
    (FRONT + "enter 0\n  READ FIXED_FILE IO_LINK FIXED_FILE\n", "9:27: the same flag stands here twice"),
    (FRONT + "enter 0\n  READ off=99999999999999999999\n", "9:12: expected a number of at most 64 bits"),
    (FRONT + "enter 0\n  READ len=4294967296\n", "9:12: expected a number of at most 32 bits"),
    *((FRONT + "enter 0\n  READ {}={}\n".format(key, 1 << bits), "9:{}: expected a number of at most {} bits".format(9 + len(key), bits)) for key, bits in (
        ("addr", 64), ("op_flags", 32), ("user_data", 64), ("buf_index", 16), ("file_index", 32), ("ioprio", 16), ("personality", 16), ("addr3", 64), ("pad", 64))),
    (FRONT + "enter 0\n  READ off=1k\n", "9:12: expected a number"),
    (FRONT + "enter 0\n  READ off=0X10\n", "9:12: expected a number"),
    (FRONT + "enter 0\n  READ rw_flags=RWF_SYNC|RWF_FAST\n", "9:17: expected a number or a flag of this field"),
    (FRONT + "enter 0\n  OPENAT dfd=AT_FDCWD path=/b open_flags=O_RDWR|O_CREATE\n", "9:42: expected a number or a flag of this field"),
    (FRONT + "enter 0\n  RENAMEAT old=/" + "n" * 65_535 + " new=/b\n", "9:16: expected a path of at most 65535 bytes"),
    (FRONT + "enter 0\n  OPENAT open_flags=O_RDWR|2\n", "9:21: the same flag stands here twice"),
    (FRONT + "enter 0\n  WRITE len=3 \"ab\"\n", "9:3: Side: the bytes of this entry do not fit it"),
    (FRONT + "enter 0\n  READV [4,8\n", "9:9: expected lengths, as [4,8]"),
    (FRONT + "enter 0\n  READV [4,,8]\n", "9:12: expected a number"),
    (FRONT + "enter 0\n  NOP\n  read fd=0\n", "10:3: expected a line of a trace, or an operation"),
    (FRONT + "fill 0 at=1 \"a\"\n", "8:8: expected buffer=N"),
    (FRONT + "fill 0 buffer=0 at=16 \"a\"\n", "8:1: Reference: a number on this line names nothing above"),
    (FRONT + "ring 0 ends\n", "8:6: expected the number 1, which is next"),
    (FRONT + "enter 0\n  WRITE zeros=3\n", "9:9: expected a flag, a field of this operation or a string"),
    ("# a trace\n uring-trace 3 2\n", "2:16: expected the end of the line"),
    ("uring-trace 3\nfile /a at=4 \"abc\" at=5 \"d\"\n", "2:1: Limit: a number on this line is out of its range"),
    ("uring-trace 3\nfile /a size=2 \"abc\"\n", "2:1: Limit: a number on this line is out of its range"),
    ("uring-trace 3\nfile /a at=0\n", "2:13: expected a string"),
    ("uring-trace 3\nfile /a \"abc\" size=4\n", "2:15: expected a string"),
    ("uring-trace 3\nring 0\n  slots fd:0\n", "3:3: Reference: a number on this line names nothing above"),
    ("uring-trace 3\nring 0\n  slots - fd:\n", "3:14: expected a number"),
    ("uring-trace 3\nring 0\n  slots -*1048577\n", "3:9: there is one more of these than a trace may have"),
    ("uring-trace 3\nring 0\nfile /a\n", "3:1: a line of this kind cannot stand behind those above"),
    ("uring-trace 3\nenter 0\n", "2:1: Reference: a number on this line names nothing above"),
    (FRONT_OF_RECORDS + "ring 2\n", "8:6: expected the number 1, which is next"),
    (FRONT_OF_RECORDS + "ring 1 queue=1\n", "8:1: Reference: a number on this line names nothing above"),
    (FRONT_OF_RECORDS + "ring 1\n  slots 1:0\n", "9:3: Reference: a number on this line names nothing above"),
    (FRONT_OF_RECORDS + "ring 0 ends 1\n", "8:13: expected the end of the line"),
    (FRONT_OF_RECORDS + "ring 0 ends\nenter 0\n  NOP\n", "9:1: Reference: a number on this line names nothing above"),
    (FRONT_OF_RECORDS + "enter 0\n  WRITE zeros=3 \"abc\"\n", "9:17: expected strings or zeros=N, not both"),
    (FRONT_OF_RECORDS + "enter 0\n  WRITE \"abc\" zeros=3\n", "9:15: expected strings or zeros=N, not both"),
    (FRONT_OF_RECORDS + "enter 0\n  WRITE zeros=3 zeros=3\n", "9:17: this stands here for the second time"),
    (FRONT_OF_RECORDS + "enter 0\n  WRITE len=2 zeros=3\n", "9:3: Side: the bytes of this entry do not fit it"),
    (FRONT_OF_RECORDS + "enter 0\n  WRITEV [1,2] zeros=3\n", "9:3: Side: the bytes of this entry do not fit it"),
    (FRONT_OF_RECORDS + "enter 0\n  READ zeros=3\n", "9:3: Limit: a number on this line is out of its range"),
    (FRONT_OF_RECORDS + "enter 0\n  READ given=1 failed=1\n", "9:16: this stands here for the second time"),
    (FRONT_OF_RECORDS + "enter 0\n  READ given=\n", "9:14: expected a number"),
    (FRONT_OF_RECORDS + "enter 0\n  READ failed=4294967296\n", "9:15: expected a number of at most 32 bits"),
    (FRONT_OF_RECORDS + "enter 0\n  READ refused=0\n", "9:16: expected an error from -4095 to -1"),
    (FRONT_OF_RECORDS + "enter 0\n  READ refused=-4096\n", "9:16: expected an error from -4095 to -1"),
    (FRONT_OF_RECORDS + "enter 0\n  WRITE given=1 \"a\"\n", "9:3: Side: the bytes of this entry do not fit it"),
    (FRONT_OF_RECORDS + "enter 0\n  WRITE zeros=0 failed=1\n", "9:3: Side: the bytes of this entry do not fit it"),
    (FRONT_OF_RECORDS + "enter 0\n  OPENAT path=/b given=5\n", "9:3: Side: the bytes of this entry do not fit it"),
    (FRONT_OF_RECORDS + "enter 0\n  READV [4] refused=-22\n", "9:3: Side: the bytes of this entry do not fit it"),
    (FRONT + "enter 0\n  READ given=1\n", "9:8: expected a flag, a field of this operation or a string"),
    (FRONT_OF_RECORDS + "fill 0 buffer=0 zeros=17\n", "8:1: Reference: a number on this line names nothing above"),
    (FRONT_OF_RECORDS + "fill 0 buffer=0 zeros=1 \"a\"\n", "8:25: expected the end of the line"),
    (FRONT_OF_RECORDS + "set 0:0\n", "8:8: expected nothing, path=PATH, of=RING:N, of=fd:N or taken"),
    (FRONT_OF_RECORDS + "set 0:0 empty\n", "8:9: expected nothing, path=PATH, of=RING:N, of=fd:N or taken"),
    (FRONT_OF_RECORDS + "set 0 nothing\n", "8:5: expected a slot or a descriptor: RING:N or fd:N"),
    (FRONT_OF_RECORDS + "set 0:1 of=0\n", "8:12: expected a slot or a descriptor: RING:N or fd:N"),
    (FRONT_OF_RECORDS + "set 0:4 nothing\n", "8:1: Reference: a number on this line names nothing above"),
    (FRONT_OF_RECORDS + "set fd:0 of=fd:2\n", "8:1: Reference: a number on this line names nothing above"),
    (FRONT_OF_RECORDS + "set fd:0 nothing pos=1\n", "8:18: expected the end of the line"),
    (FRONT_OF_RECORDS + "set fd:0 path=/a open_flags=3\n", "8:1: Limit: a number on this line is out of its range"),
    (FRONT_OF_RECORDS + "set fd:0 path=/a open_flags=O_RDWR|O_WRONGLY\n", "8:29: expected a number or a flag of this field"),
    (FRONT_OF_RECORDS + "set fd:0 path=/a pos=1 open_flags=O_RDWR\n", "8:24: expected the end of the line"),
    (FRONT_OF_RECORDS + "seek fd:0\n", "8:10: expected pos=N"),
    (FRONT_OF_RECORDS + "seek 0:0 pos=\n", "8:14: expected a number"),
    (FRONT_OF_RECORDS + "seek 0:0 pos=9223372036854775808\n", "8:1: Limit: a number on this line is out of its range"),
    (FRONT + "set 0:0 nothing\n", "8:1: expected a line of a trace, or an operation"),
    ("\nuring-trace 4\n", "2:13: expected `uring-trace 1`, `uring-trace 2` or `uring-trace 3`"),
    ("uring-tracer 1\n", "1:1: expected `uring-trace 1`, `uring-trace 2` or `uring-trace 3`"),
    ("uring-trace 1\ndir /\ndir /b\n", "2:1: Path: expected names of 1 to 255 bytes, one slash apart; an item begins with one"),
    ("uring-trace 1\nfile # a\n", "2:6: expected a path"),
    ("uring-trace 1\nopen 0 # a\n", "2:8: expected a path"),
    ("uring-trace 1\nfile /a\nopen 0 /a O_RDWR|O_EXCL\n", "3:11: expected O_RDONLY, O_WRONLY or O_RDWR, perhaps with |O_APPEND"),
    ("uring-trace 1\nring x\n", "2:6: expected the number 0, which is next"),
    ("uring-trace 1\nring 0\n  slots\n", "3:8: " + NO_SLOTS),
    (THREE + "ring 0\n  slots\n", "3:8: " + NO_SLOTS),
    *(("uring-trace 1\nring 0\n  slots {}\n".format(it), "3:3: " + NOT_THERE) for it in ((1 << 31) - 1, 1 << 31, (1 << 32) - 2)),
    *(("uring-trace 1\nring 0\n  slots {}\n".format(it), "3:9: expected a number of at most 32 bits") for it in ((1 << 32) - 1, 1 << 32)),
    ("uring-trace 1\nring 0\n  slots -*x\n", "3:11: expected a count from 1 on"),
    ("uring-trace 1\n" + "".join("ring {}\n".format(it) for it in range(65)), "66:1: " + ONE_MORE),
    ("uring-trace 1\nring 0\n" + "".join("buffer {} 0 0\n".format(it) for it in range(1_025)), "1027:1: " + ONE_MORE),
    (FRONT + "fill 0 buffer=0 \"a\"*\n", "8:21: expected a count from 1 on"),
    (FRONT + "fill 0 buffer=0 \"a\"*18446744073709551616\n", "8:21: expected a number of at most 64 bits"),
    (FRONT + "fill 0 buffer=0 \"a\"*18446744073709551615\n", "8:17: expected strings of at most 1073741824 bytes in all"),
    (FRONT + "fill 0 buffer=0 \"a\"*1073741825\n", "8:17: expected strings of at most 1073741824 bytes in all"),
    (FRONT + "fill 0 buffer=0 \"a\\", "8:19: expected one of \\n \\t \\r \\0 \\\" \\\\ \\xHH"),
    (FRONT + "enter 0\n  READ off=-0\n", "9:12: " + NO_NUMBER),
    (FRONT + "enter 0\n  READ off=08\n", "9:12: " + NO_NUMBER),
    (FRONT + "enter 0\n  READ off=AT_FDCWD\n", "9:12: " + NO_NUMBER),
    (FRONT + "enter 0\n  READ len=-2147483649\n", "9:12: expected a number of at most 32 bits"),
    (FRONT + "enter 0\n  OP_256\n", "9:3: expected a line of a trace, or an operation"),
    (FRONT + "enter 0\n  READ fd\n", "9:8: " + UNKNOWN),
    (FRONT + "enter 0\n  OPENAT path\n", "9:10: " + UNKNOWN),
    (FRONT + "enter 0\n  OPENAT path=/a path=/b\n", "9:18: " + TWICE),
    (FRONT + "enter 0\n  READV [1] [2]\n", "9:13: " + TWICE),
    (FRONT + "enter 0\n  READV [1] [2\n", "9:13: " + TWICE),
    (FRONT + "enter 0\n  READV []\n", "9:10: " + NO_NUMBER),
    (FRONT + "enter 0\n  READV [18446744073709551616]\n", "9:10: expected a number of at most 64 bits"),
    (FRONT_OF_RECORDS + "set 0:0 path=\n", "8:14: expected a path"),
    (FRONT_OF_RECORDS + "ring 1 queue=4294967296\n", "8:14: expected a number of at most 32 bits"),
    (FRONT_OF_RECORDS + "enter 0\n  WRITE path=/x zeros=3\n", "9:3: Side: the bytes of this entry do not fit it"),
    *((front + str(1 << bits) + behind + "\n", "{}:{}: expected a number of at most {} bits".format(front.count("\n") + 1, len(front) - front.rfind("\n"), bits))
      for front, behind, bits, _ in NUMBERS_OF_LINES),
    *((front + str((1 << bits) - 1) + behind + "\n", told) for front, behind, bits, told in NUMBERS_OF_LINES),
)


def answer_of(program: Program, text: bytes) -> Answer:
    """What `make` is to answer."""
    try:
        made = model_make.made_of(text)
    except model_make.Refused as refused:
        return Answer(1, b"", model_make.refusal_line(text, refused.at, refused.why))
    checked = program.run(["check"], made.trace)
    if checked.status == 0:
        return Answer(0, made.trace, b"")
    return Answer(1, b"", model_make.refusal_of(text, made, checked.errors))


def changed(source: random.Random, text: bytes) -> bytes:
    """A text with one to three letters, words or lines changed."""
    for _ in range(source.randrange(1, 4)):
        at = source.randrange(len(text) + 1)
        kind = source.randrange(7)
        if kind == 0:
            text = text[:at] + bytes([source.choice(LETTERS)]) + text[at:]
        elif kind == 1:
            text = text[:at] + text[at + source.randrange(1, 4) :]
        elif kind == 2:
            text = text[:at] + bytes([source.choice(LETTERS)]) + text[at + 1 :]
        elif kind == 3:
            gap = text.find(b" ", at)
            words = WORDS + WORDS_OF_RECORDS if text.startswith(b"uring-trace 3") else WORDS
            text = text[:gap] + b" " + source.choice(words) + text[gap:] if gap >= 0 else text
        elif kind == 4:
            parts = text.split(b" ")
            first_, second = source.randrange(len(parts)), source.randrange(len(parts))
            parts[first_], parts[second] = parts[second], parts[first_]
            text = b" ".join(parts)
        else:
            lines = text.split(b"\n")
            line = lines.pop(source.randrange(len(lines)))
            where = source.randrange(len(lines) + 1)
            text = b"\n".join([*lines[:where], *([line] * (kind - 5)), *lines[where:]])
    return text


def of_drawn(program: Program, seed: int) -> Optional[str]:
    """How the way there and back of a drawn trace fails, if it does, or that of its text with some letters changed."""
    trace = DRAWS[seed % len(DRAWS)](seed)
    if program.run(["check"], trace).status != 0:
        return None
    text = program.run(["show", *(["--places"] if seed % 3 == 0 else [])], trace).output
    told = difference(program.run(["make"], text), Answer(0, trace, b""))
    other = changed(random.Random(seed), text)
    told = told or difference(program.run(["make"], other), answer_of(program, other))
    return told and "{} ({!r})".format(told, other)


def lot(program: Program, seeds: range) -> List[Outcome]:
    faults = ["seed {}: {}".format(seed, told) for seed in seeds for told in [of_drawn(program, seed)] if told]
    day = " of {}".format(days.written()) if seeds[0] >= days.SEEDS_A_DAY else ""
    return [Outcome("texts there and back, {} to {}{} by {}".format(seeds[0], seeds[-1], day, program.compiler), first(faults))]


def of_mistakes(program: Program) -> List[Outcome]:
    faults = []
    for text, told in MISTAKES:
        wanted = Answer(1, b"", "text refused: {}\n".format(told).encode())
        wrong = difference(program.run(["make"], text.encode()), wanted) or difference(answer_of(program, text.encode()), wanted)
        faults += ["{!r}: {}".format(text, wrong)] if wrong else []
    return [Outcome("{} mistakes in a text by {}".format(len(MISTAKES), program.compiler), first(faults))]


def by_hand() -> Iterator[Tuple[str, str]]:
    """Texts as people write them, and the same as `show` gives them."""
    front = "uring-trace 1\nfile /a \"0123456789\"\nopen 0 /a O_RDWR\nring 0\n  slots 0 -*3\n"
    yield front + "enter 0\n  WRITE FIXED_FILE off=2 \"ab\"\n", front.replace("\n", " # a comment\n\n").replace("  ", "\t") + "enter\t0\r\n WRITE \"a\" off=0x2 \\\n  FIXED_FILE x\"62\"\r\n# the end"
    yield front + "enter 0\n  READ FIXED_FILE off=-1 len=8\n", front + "enter 0\nOP_22 len=010 off=0xffffffffffffffff fd=0 FIXED_FILE user_data=0"
    yield front + "enter 0\n  READ fd=-1 len=3 rw_flags=RWF_HIPRI|RWF_SYNC\n", front + "enter 0\n  READ op_flags=5 fd=0xffffffff len=3\n"
    yield front + "enter 0\n  OPENAT path=/" + "n" * 70_000 + "\n", front + "enter 0\n  OPENAT dfd=0 path=/" + "\\x6e" * 70_000 + "\n"
    yield front + "enter 0\n  READV FIXED_FILE [4,8]\n", front + "enter 0\n  READV [4,8] len=2 FIXED_FILE\n"
    yield front + "enter 0\n  READ len=2147483648\n", front.replace("open 0 /a", "open 0 @1") + "enter 0\n  READ len=-2147483648\n"
    yield front + "enter 0\n  RENAMEAT old=/m new=\n  RENAMEAT old= new=/m\n", front + "enter 0\n  RENAMEAT old=/m\n  RENAMEAT new=/m\n"
    longest = "/" + "n" * 65_534
    yield front + "enter 0\n  RENAMEAT old={} new=/m\n".format(longest), front + "enter 0\n  RENAMEAT new=/m old={}\n".format(longest)
    rings = "uring-trace 1\nring 0\n  slots -*1024\n" + "".join("ring {}\n".format(it) for it in range(1, 63)) + "ring 63\n"
    yield rings + "".join("  buffer {} 0x0 0\n".format(it) for it in range(1_024)), rings.replace("-*1024", "-*1000 -*24") + "".join("buffer {} 0 0\n".format(it) for it in range(1_024))
    three = front.replace("trace 1", "trace 3")
    yield three + "ring 1\n  slots -*1048576\n", three + "ring 1 queue=4294967295\n  slots -*1048575 -\n"
    yield "uring-trace 3\nfile /a\n", "uring-trace 3\nfile /a size=0\n"
    yield three + "ring 0 ends\nring 1 queue=0\n", "\n# of version 3\n  uring-trace\t3 \\\n\n" + three[len("uring-trace 3\n") :] + "ring 0x0 ends # 0\nring 0x1 queue=00"
    yield three + "enter 0\n  WRITE FIXED_FILE zeros=512\n  WRITEV FIXED_FILE [4,8] zeros=28\n", three + "enter 0\nWRITE zeros=0x200 len=512 FIXED_FILE\nOP_2 zeros=034 [4,010] FIXED_FILE len=2\n"
    sets = "set 0:1 of=0:0\nset 0:2 path=/a open_flags=O_RDWR pos=9\nset 0:3 path=/a\nset 0:0 nothing\nseek 0:1 pos=3\n"
    yield three + sets, three + "set 0:0x1 of=0:00 # 0\n set 0:2 \\\n path=/\\x61 open_flags=2 pos=0x9\nset 0:3 path=/a open_flags=0 pos=0\nset\t0:0 nothing\nseek 0:1 pos=03"
    yield "uring-trace 3\nfile /a \"abc\" at=8 \"d\"*8\n", "uring-trace 3\nfile /a size=16 at=0 \"a\" \"bc\" at=8 x\"6464\"*4\n"
    yield "uring-trace 3\ndescriptors - -*2\nring 0\n  slots fd:2 -*3\n", "uring-trace 3\ndescriptors -*3\nring 0\nslots fd:0x2 - - -\n"


def of_hand(program: Program) -> List[Outcome]:
    faults = []
    for text, other in by_hand():
        one, two = program.run(["make"], text.encode()), program.run(["make"], other.encode())
        faults += [repr(other)] if one.status or two.status or one != two else []
    return [Outcome("texts written by hand, by {}".format(program.compiler), first(faults))]


def hostile() -> Iterator[Tuple[str, bytes]]:
    """Texts of about a megabyte that ask for much work or room."""
    front, most = FRONT.encode(), 1 << 20

    def filled(start: bytes, piece: bytes, end: bytes = b"\n") -> bytes:
        return front + start + piece * (most // len(piece)) + end

    yield "one byte a billion times and more", front + b"fill 0 buffer=0 \"\\0\"*1073741825" + b" " * most + b"\n"
    yield "empty strings", filled(b"fill 0 buffer=0 ", b'""*18446744073709551615 ')
    yield "lines that go on", filled(b"fill 0 buffer=0 ", b"\\\n", b'"a"\n')
    yield "a backslash and blanks", filled(b"fill 0 buffer=0 \\", b" ", b"x\n")
    yield "comments", filled(b"", b"#\n")
    yield "nothing but feeds", filled(b"", b"\n")
    yield "calls with no entry", filled(b"", b"enter 0\n")
    yield "entries of one call", filled(b"enter 0\n", b"NOP\n")
    yield "calls with one entry each", filled(b"", b"enter 0\nNOP\n")
    yield "a long path", filled(b"enter 0\nOPENAT path=", b"/a")
    yield "paths that are no items", b"uring-trace 1\n" + b"dir /a\n" * (most // 7)
    yield "lengths", filled(b"enter 0\nREADV [0", b",0", b"]\n")
    yield "flags that are none", filled(b"enter 0\nREAD rw_flags=0", b"|0")
    yield "a number with many digits", filled(b"enter 0\nREAD off=0x", b"0")
    yield "a string that does not end", filled(b'fill 0 buffer=0 "', b"a", b"")
    yield "a word that is none", filled(b"", b"x", b"")
    yield "slots", filled(b"ring 1\nslots ", b"- ")
    three = FRONT_OF_RECORDS.encode()
    for label, start, piece, end in (("slots that get what is held", b"ring 1\nslots ", b"0:0 ", b"\n"), ("tables of empty slots", b"ring 1\nslots ", b"-*1048576 ", b"\n"),
                                     ("zeros", b"enter 0\n", b"WRITE zeros=4294967295\n", b""), ("fills of zeros", b"", b"fill 0 buffer=0 zeros=16\n", b""),
                                     ("rings that end", b"", b"ring 0 ends\n", b""), ("entries of version 3", b"enter 0\n", b"NOP\n", b""),
                                     ("sets", b"", b"set 0:0 nothing\n", b""), ("a long path of a set", b"set 0:0 path=", b"/a", b"\n"), ("seeks", b"", b"seek fd:0 pos=1\n", b"")):
        yield label, three + start + piece * (most // len(piece)) + end
    yield "rings", b"uring-trace 3\n" + b"".join(b"ring %d\n" % number for number in range(most // 12))
    yield "ranges", b"uring-trace 3\nfile /a" + b"".join(b" at=%d \"a\"" % (2 * number) for number in range(most // 14)) + b"\n"


def of_hostile(program: Program) -> List[Outcome]:
    """Each takes at most a second of a processor and 100 MB, and is made a trace or refused."""
    faults = []
    for label, text in hostile():
        got = program.run(["make"], text, shell='ulimit -t 1; ulimit -v {}; exec "$@"'.format(HOSTILE_MEMORY))
        is_well = got.status == 0 and not got.errors or got.status == 1 and not got.output and got.errors.startswith(b"text refused: ")
        faults += [] if is_well else ["{}: {}".format(label, shown(got))]
    return [Outcome("{} hostile texts by {}".format(len(list(hostile())), program.compiler), first(faults))]


def of_examples(program: Program) -> List[Outcome]:
    """The text of each example and recorded trace means that trace, and so does the one that stands beside it."""
    outcomes = []
    for at, names in examples.walked(()):
        for name in sorted(it for it in names if it.endswith(".trace") and it[: -len("trace")] + "refused" not in names):
            trace = read(at, name)
            told = name[: -len("trace")] + "text"
            texts = [model_text.show(trace), *([read(at, told)] if told in names else [])]
            wrong = first([it for text in texts for it in [difference(program.run(["make"], text), Answer(0, trace, b""))] if it])
            outcomes.append(Outcome("what the text of {} means by {}".format(name, program.compiler), wrong))
    return outcomes


def jobs(programs: List[Program]) -> List[Job]:
    size = DRAWN // LOTS
    starts = [at + back for back in (0, days.first_seed()) for at in range(0, DRAWN // 2, size)]
    lots = [range(at, at + size) for at in starts]
    found: List[Job] = [partial(each, it) for it in programs for each in (of_examples, of_mistakes, of_hand, of_hostile)]
    return found + [partial(lot, program, it) for program in programs for it in (lots if program is programs[0] else lots[:1])]
