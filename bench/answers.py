"""Whether programs give the same answers: the replayers without proofs are worth a comparison only where they do."""
import hashlib
import os
import subprocess
import sys
import tempfile
from typing import BinaryIO, List

from costs import TOP

MODES = (["serial"], ["serial", "--sums"], ["check"])
PIECE = 1 << 16
EXAMPLES = os.path.join(TOP, "examples")
# Which the replayers without proofs do not read.
VERSION_3 = os.path.join(EXAMPLES, "version_3")


def sum_of(file: BinaryIO) -> str:
    """The sum of what is read from it, piece by piece: the peak memory of a program is never below that of the process that starts it."""
    summed = hashlib.sha256()
    for piece in iter(lambda: file.read(PIECE), b""):
        summed.update(piece)
    return summed.hexdigest()


def answer(words: List[str], trace: str) -> List[str]:
    """The status of a run and the sums of what it wrote."""
    with open(trace, "rb") as given, tempfile.TemporaryFile() as errors:
        with subprocess.Popen(words, stdin=given, stdout=subprocess.PIPE, stderr=errors) as started:
            output = sum_of(started.stdout)
        errors.seek(0)
        return [str(started.returncode), output, sum_of(errors)]


def same(programs: List[str], trace: str) -> None:
    """Ends this program where two of these give different answers to a trace."""
    for mode in MODES:
        first, *others = [answer([program, *mode], trace) for program in programs]
        for program, other in zip(programs[1:], others):
            if other != first:
                sys.exit("{} and {} differ on {} of {}".format(programs[0], program, " ".join(mode), trace))


def examples(programs: List[str]) -> int:
    """The same for all examples of versions 1 and 2, the refused ones too; how many there are."""
    folders = [(at, files) for at, _, files in os.walk(EXAMPLES) if at != VERSION_3]
    traces = [os.path.join(at, file) for at, files in folders for file in sorted(files) if file.endswith(".trace")]
    for trace in traces:
        same(programs, trace)
    return len(traces)
