"""What a machine has of what some tests need: a C compiler, io_uring, ptrace, file systems in user space. `./test --need` fails where one lacks."""
import ctypes
import os
import platform
import shutil
import struct
import tempfile
from typing import Callable, Dict, Optional

# linux/io_uring.h, struct io_uring_params: 120 bytes; the call is number 425 on every architecture.
IO_URING_SETUP, PARAMETERS = 425, 120
# sys/ptrace.h
PTRACE_TRACEME = 0
# sys/mount.h
MNT_DETACH = 2


def cc() -> Optional[str]:
    compiler = os.environ.get("CC", "").split() or [it for it in ("cc", "gcc", "clang") if shutil.which(it)]
    return None if compiler and shutil.which(compiler[0]) else "there is no C compiler"


def io_uring() -> Optional[str]:
    """Sets up a ring of four entries, and closes it."""
    libc = ctypes.CDLL(None, use_errno=True)
    ring = libc.syscall(IO_URING_SETUP, 4, ctypes.create_string_buffer(PARAMETERS))
    if ring < 0:
        return "io_uring_setup(2): {}".format(os.strerror(ctypes.get_errno()))
    os.close(ring)
    return None


def ptrace() -> Optional[str]:
    """A child asks to be traced, and tells by its status whether it may be."""
    if platform.machine() != "x86_64":
        return "the recorder is for x86-64, and this is {}".format(platform.machine())
    libc = ctypes.CDLL(None, use_errno=True)
    reading, writing = os.pipe()
    child = os.fork()
    if child == 0:
        is_refused = libc.ptrace(PTRACE_TRACEME, 0, None, None) < 0
        os.write(writing, struct.pack("i", ctypes.get_errno() if is_refused else 0))
        os._exit(0)
    os.close(writing)
    with os.fdopen(reading, "rb") as told:
        (number,) = struct.unpack("i", told.read(4) or struct.pack("i", 1))
    os.waitpid(child, 0)
    return "ptrace(2): {}".format(os.strerror(number)) if number else None


def fuse() -> Optional[str]:
    """Mounts a file system in user space that nobody serves, and takes it away again."""
    libc = ctypes.CDLL(None, use_errno=True)
    with tempfile.TemporaryDirectory(prefix="uring-play-test-") as place:
        try:
            device = os.open("/dev/fuse", os.O_RDWR | os.O_CLOEXEC)
        except OSError as error:
            return "/dev/fuse: {}".format(error.strerror)
        words = "fd={},rootmode=40000,user_id={},group_id={}".format(device, os.getuid(), os.getgid())
        is_refused = libc.mount(b"none", place.encode(), b"fuse", 0, words.encode()) < 0
        number = ctypes.get_errno() if is_refused else 0
        if not is_refused:
            libc.umount2(place.encode(), MNT_DETACH)
        os.close(device)
    return "mount(2) of a file system in user space: {}".format(os.strerror(number)) if is_refused else None


NEEDS: Dict[str, Callable[[], Optional[str]]] = {"cc": cc, "io_uring": io_uring, "ptrace": ptrace, "fuse": fuse}
