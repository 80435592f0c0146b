#!/usr/bin/env python3
"""The models as a program that takes traces of every version, from standard input: `check`, `serial`, `rounds`, `depends` and `diff`. So the tests have
answers that the replayer did not give."""
import argparse
import os
import sys
from typing import Tuple

if __name__ == "__main__":
    sys.dont_write_bytecode = True

import model_depends
import model_diff
import model_records
import model_rounds
from harness import Answer, Input, Program, Words, refused, reports_refused
from model import Refused


class Models(Program):
    """The models in the place of a built program."""

    def run(self, words: Words, given: Input, *_) -> Answer:
        assert isinstance(given, bytes)
        return answer(asked(words), given)


MODELS = Models(os.path.abspath(__file__), "the models")


def asked(words: Words) -> argparse.Namespace:
    known = argparse.ArgumentParser(description=__doc__, formatter_class=argparse.RawDescriptionHelpFormatter)
    known.add_argument("command", choices=("check", "serial", "rounds", "depends", "diff"))
    known.add_argument("--sums", action="store_true", help="of serial: with the sums of files and buffers")
    known.add_argument("--window", type=int, default=64, help="of rounds: how many places are looked at (64)")
    return known.parse_args([str(it) for it in words])


def replayed(trace: bytes, has_sums: bool = False) -> Answer:
    """What `serial` gives of a trace: before a fault of one of version 3 the lines of the records that are whole."""
    try:
        return Answer(0, model_records.report(trace, has_sums), b"")
    except Refused as fault:
        return refused(str(fault), model_records.lines_before(trace))


def replayed_if_cut(trace: bytes, has_sums: bool = False) -> Answer:
    """The same of `serial --cut`: a trace of version 3 that ends too early behind its start is taken as one that ends behind its last whole record."""
    answer = replayed(trace, has_sums)
    if not answer.output or answer.errors != refused("Short at {}".format(len(trace))).errors:
        return answer
    report, at = model_records.cut_off(trace, has_sums)
    return Answer(0, report, b"cut at %d\n" % at)


def told(given: argparse.Namespace, text: bytes) -> Tuple[bytes, int]:
    """What a command that writes nothing before a fault writes, and its status."""
    if given.command == "diff":
        lines, are_alike = model_diff.difference(text, False, False)
        return lines, 0 if are_alike else 4
    if given.command == "check":
        return model_records.answer(text).encode(), 0
    return model_rounds.rounds(text, given.window) if given.command == "rounds" else model_depends.depends(text), 0


def answer(given: argparse.Namespace, text: bytes) -> Answer:
    if given.command == "serial":
        return replayed(text, given.sums)
    try:
        output, status = told(given, text)
    except Refused as fault:
        return refused(str(fault))
    except model_diff.Refused as fault:
        return reports_refused(str(fault))
    return Answer(status, output, b"")


def main() -> int:
    got = answer(asked(sys.argv[1:]), sys.stdin.buffer.read())
    sys.stdout.buffer.write(got.output)
    sys.stderr.buffer.write(got.errors)
    return got.status


if __name__ == "__main__":
    sys.exit(main())
