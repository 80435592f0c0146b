"""Libraries in C that are loaded before a program's own, and stand between it and the system."""
import os
import shutil
import struct
import subprocess
import tempfile
from typing import Dict, List, Optional, Tuple

from harness import Answer, Input, Program, Words

HERE = os.path.dirname(os.path.abspath(__file__))


class Shim:
    """A library built from a file of this folder, in a folder of its own that goes with it."""

    def __init__(self, name: str, numbers: int) -> None:
        self.name = name
        self.numbers = numbers
        self.folder = tempfile.TemporaryDirectory(prefix="uring-replay-test-")
        self.file = os.path.join(self.folder.name, name + ".so")

    def lacking(self) -> Optional[str]:
        """Builds the library, or says why it cannot be built."""
        compiler = os.environ.get("CC") or next((it for it in ("cc", "gcc", "clang") if shutil.which(it)), "")
        if not compiler:
            return "there is no C compiler"
        words = [*compiler.split(), "-O2", "-shared", "-fPIC", "-o", self.file, os.path.join(HERE, self.name + ".c"), "-ldl"]
        try:
            ran = subprocess.run(words, stdin=subprocess.DEVNULL, stdout=subprocess.PIPE, stderr=subprocess.STDOUT)
        except OSError as error:
            return "the C compiler {} does not run: {}".format(compiler, error.strerror)
        return "the C compiler made no library: {}".format(ran.stdout.decode("utf-8", "replace")[-300:]) if ran.returncode else None

    def run(self, program: Program, words: Words, given: Input, **settings: object) -> Tuple[Answer, List[int]]:
        """Runs a program behind the library, and gives what the library counted."""
        environment: Dict[str, str] = {"LD_PRELOAD": self.file}
        environment.update({"{}_{}".format(self.name, key).upper(): str(value) for key, value in settings.items() if value})
        with tempfile.NamedTemporaryFile(dir=self.folder.name) as counts:
            counts.write(bytes(8 * self.numbers))
            counts.flush()
            environment["{}_COUNT".format(self.name).upper()] = counts.name
            answer = program.run(words, given, environment)
            counts.seek(0)
            return answer, list(struct.unpack("{}q".format(self.numbers), counts.read()))
