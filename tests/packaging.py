"""`make install` and `make deb`, into a folder of their own: the files that are meant, which work; manual pages without a warning."""
import os
import shutil
import subprocess
import tempfile
from typing import List, Sequence

import needs
from harness import BUILT, TOP, Job, Outcome, Program, first, skipped

INSTALLED = (
    "bin/uring_replay",
    "bin/uring_record",
    "bin/uring_play",
    "bin/uring_minimise",
    "bin/uring_campaign",
    "bin/uring_timeline",
    "share/man/man1/uring_replay.1",
    "share/man/man1/uring_record.1",
    "share/man/man1/uring_play.1",
    "share/man/man1/uring_minimise.1",
    "share/man/man1/uring_campaign.1",
    "share/man/man5/uring-trace.5",
    "share/doc/uring-replay/README.md",
    "share/doc/uring-replay/docs/README.md",
    "share/doc/uring-replay/docs/layers.svg",
    "share/doc/uring-replay/LICENSE-MIT",
    "share/doc/uring-replay/LICENSE-APACHE",
    "share/doc/uring-replay/examples/read_four_bytes.trace",
    "share/doc/uring-replay/examples/recorded/qemu_disk_image.trace",
)
# What a package has of these, and what it has besides: manual pages are compressed there, and only the proved program is packed.
PACKED = ("./usr/bin/uring_replay", "./usr/share/man/man1/uring_replay.1.gz", "./usr/share/doc/uring-replay/copyright")
LEFT_OUT = ("uring_record", "uring_play", "uring_minimise", "uring_campaign")


def made(words: Sequence[str], out: str) -> str:
    """Runs make, and gives what is wrong, if anything is."""
    command = ["make", "-s", "-C", TOP, "BUILD=" + out, *words]
    ran = subprocess.run(command, stdin=subprocess.DEVNULL, stdout=subprocess.PIPE, stderr=subprocess.STDOUT)
    return "" if ran.returncode == 0 else "make ended with {}: {}".format(ran.returncode, ran.stdout.decode("utf-8", "replace")[-300:])


def installed() -> List[Outcome]:
    label = "make install"
    if not os.access(BUILT, os.X_OK):
        return skipped(label, "the proved program is not built")
    if needs.cc():
        return skipped(label, needs.cc())
    with tempfile.TemporaryDirectory(prefix="uring-replay-install-") as folder:
        root, out = os.path.join(folder, "root"), os.path.join(folder, "out")
        fault = made(["install", "PREFIX=" + root], out)
        if fault:
            return [Outcome(label, fault)]
        faults = ["{} is missing".format(it) for it in INSTALLED if not os.path.isfile(os.path.join(root, it))]
        trace = os.path.join(root, "share/doc/uring-replay/examples/read_four_bytes.trace")
        with open(trace, "rb") as given:
            ran = subprocess.run([os.path.join(root, "bin/uring_replay"), "check"], stdin=given, stdout=subprocess.PIPE)
        if ran.stdout != b"ok 1 places 1 rings\n":
            faults.append("the program gives {!r}".format(ran.stdout))
        faults += tools_alone(root)
        return [Outcome(label, first(faults))]


def tools_alone(root: str) -> List[str]:
    """Whether the tools in Python find what they share where they are installed: a job is drawn, and fails for want of a player alone."""
    lines = subprocess.run([os.path.join(root, "bin/uring_campaign"), "jobs", "--into", root + "/made", "--system", "a=" + root, "--traces", "1", "--mode", "chains",
                            "--replayer", os.path.join(root, "bin/uring_replay"), "--player", "/nonexistent"], stdout=subprocess.PIPE, stderr=subprocess.STDOUT)
    ran = subprocess.run(["sh", "-c", lines.stdout.decode()], stdout=subprocess.PIPE, stderr=subprocess.STDOUT)
    least = subprocess.run([os.path.join(root, "bin/uring_minimise"), "--help"], stdout=subprocess.PIPE, stderr=subprocess.STDOUT)
    faults = [] if ran.stdout == b"uring_campaign: /nonexistent: No such file or directory\n" else ["uring_campaign says {!r}".format(ran.stdout[-200:])]
    return faults + ([] if least.returncode == 0 else ["uring_minimise says {!r}".format(least.stdout[-200:])])


def pages() -> List[Outcome]:
    """Whether the manual pages are laid out without a warning. They need no program."""
    if not shutil.which("groff"):
        return skipped("manual pages", "there is no groff")
    with tempfile.TemporaryDirectory(prefix="uring-replay-pages-") as folder:
        fault = made(["manuals"], folder)
        if fault:
            return [Outcome("make manuals", fault)]
        made_ones = sorted(os.path.join(at, name) for at, _, names in os.walk(os.path.join(folder, "man")) for name in names)
        faults = ["{} pages are made".format(len(made_ones))] if len(made_ones) != sum("/man/" in it for it in INSTALLED) else []
        return [Outcome("make manuals", first(faults)), *(page(it) for it in made_ones)]


def page(file: str) -> Outcome:
    words = ["groff", "-man", "-t", "-ww", "-z", "-Tutf8", "-rLL=120n", file]
    ran = subprocess.run(words, stdout=subprocess.PIPE, stderr=subprocess.STDOUT)
    return Outcome("the manual page {}".format(os.path.basename(file)), ran.stdout.decode("utf-8", "replace")[:300] or None)


def packed() -> List[Outcome]:
    label = "make deb"
    if not os.access(BUILT, os.X_OK):
        return skipped(label, "the proved program is not built")
    if not shutil.which("dpkg-deb"):
        return skipped(label, "there is no dpkg-deb")
    with tempfile.TemporaryDirectory(prefix="uring-replay-deb-") as folder:
        fault = made(["deb"], folder)
        packages = [it for it in os.listdir(folder) if it.endswith(".deb")]
        if fault or not packages:
            return [Outcome(label, fault or "there is no package")]
        listed = subprocess.run(["dpkg-deb", "--contents", os.path.join(folder, packages[0])], stdout=subprocess.PIPE, check=True).stdout.decode()
        faults = ["{} is not packed".format(it) for it in PACKED if it + "\n" not in listed]
        faults += ["{} is packed".format(it) for it in LEFT_OUT if "/" + it in listed]
        return [Outcome(label, first(faults))]


def jobs(programs: List[Program]) -> List[Job]:
    return [installed, pages, packed]
