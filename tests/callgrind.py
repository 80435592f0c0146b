"""How many instructions a program takes, by callgrind of valgrind(1): unlike times, they hardly change from run to run, whatever else a machine does."""
import os
import re
import shutil
import subprocess
from typing import IO, Optional, Sequence, Union

COUNT = ("valgrind", "--tool=callgrind", "--callgrind-out-file=" + os.devnull)


def lacking() -> Optional[str]:
    """What lacks for that."""
    return None if shutil.which(COUNT[0]) else "instructions are counted by valgrind(1), which is not there"


def instructions(command: Sequence[Union[str, bytes]], given: IO[bytes]) -> Optional[int]:
    """Those of a run, in user space; none where it fails."""
    ran = subprocess.run([*COUNT, *command], stdin=given, stdout=subprocess.DEVNULL, stderr=subprocess.PIPE, check=False)
    found = re.search(rb"Collected : (\d+)", ran.stderr)
    return int(found[1]) if found and ran.returncode == 0 else None
