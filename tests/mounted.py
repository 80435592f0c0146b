"""File systems that a test mounts, where the machine lets it: tests/passthrough.c over a folder of its own."""
import os
import shutil
import subprocess
import tempfile
from typing import Optional, Sequence

from harness import MADE_NO, TOP

SECONDS, UNTRIED = 30, 77


class Passthrough:
    """A file system in user space that passes all on to a folder, mounted as long as `with` lasts. `lacking` says why it is not."""

    def __init__(self, words: Sequence[str] = ()) -> None:
        self.words, self.lacking = words, None  # type: Sequence[str], Optional[str]
        self.folder = tempfile.TemporaryDirectory(prefix="uring-play-test-")
        self.source, self.mount, self.program = (os.path.join(self.folder.name, it) for it in ("source", "mount", "passthrough"))
        self.started: Optional[subprocess.Popen] = None

    def build(self) -> Optional[str]:
        compiler = os.environ.get("CC") or next((it for it in ("cc", "gcc", "clang") if shutil.which(it)), "")
        if not compiler:
            return "there is no C compiler"
        words = [*compiler.split(), "-O1", "-pthread", "-o", self.program, os.path.join(TOP, "tests", "passthrough.c")]
        try:
            ran = subprocess.run(words, stdin=subprocess.DEVNULL, stdout=subprocess.PIPE, stderr=subprocess.STDOUT)
        except OSError as error:
            return "the C compiler {} does not run: {}".format(compiler, error.strerror)
        return "{}passthrough: {}".format(MADE_NO, ran.stdout.decode("utf-8", "replace")[-300:]) if ran.returncode else None

    def __enter__(self) -> "Passthrough":
        self.lacking = self.build()
        if self.lacking:
            return self
        for it in (self.source, self.mount):
            os.mkdir(it)
        words = [self.program, self.source, self.mount, *self.words]
        self.started = subprocess.Popen(words, stdin=subprocess.PIPE, stdout=subprocess.PIPE, stderr=subprocess.PIPE)
        if self.started.stdout.readline() != b"mounted\n":
            self.lacking = self.started.stderr.read().decode("utf-8", "replace").strip() or "it ended with {}".format(self.started.wait(SECONDS))
        return self

    def __exit__(self, *_: object) -> None:
        if self.started:
            for it in (self.started.stdin, self.started.stdout, self.started.stderr):
                it.close()
            self.started.wait(SECONDS)
        self.folder.cleanup()
