#!/usr/bin/env python3
"""Large traces for measuring, on standard output: the same words give the same bytes.

    workloads.py rw N SIZE FILE_MB   READs and WRITEs of about SIZE bytes at random offsets of one
                                        file of FILE_MB stored megabytes; 4 rings
    workloads.py rings N             64 rings with a file each; 64 bytes at offsets that meet again
                                        only after 1,024 entries of the ring: nothing near collides
    workloads.py one_file N          WRITEs of 64 bytes to one file, any two of which overlap; 4 rings
    workloads.py paths N             opens, creates, renames, unlinks in a tree of 1,000 directories
    workloads.py chains N            chains of 4 (WRITE, READ, FSYNC, READ), a drain every 100
                                        entries, every 50th chain broken by a short READ; 4 rings
    workloads.py big N MB            transfers of MB megabytes over a file of 8 times that: WRITE_FIXED,
                                        READ, READ_FIXED, READ, .. (a WRITE's bytes would not fit a trace)
    workloads.py position N FILE_MB  READs of 4,096 bytes at the position of a file of FILE_MB stored megabytes,
                                  from its start again by an OPENAT at its end
    workloads.py pages N FILE_MB     READs of 4,096 bytes at random pages of a file of FILE_MB stored megabytes, each fourth entry a
                                  WRITE, READ_FIXED or WRITE_FIXED of as many in turn; 64 buffers
    workloads.py appends N           WRITEs of 64 bytes to a file that is open to append
    workloads.py over N SIZE FILE_MB WRITEs of SIZE bytes one behind another to a file of FILE_MB megabytes, none of them stored, and from
                                  its start again at its end; 4 rings
    workloads.py files N KB          WRITEs of KB kilobytes to 64 files in turn, one behind another; nothing collides
    workloads.py lone N KB           the same, each in a record of its own

Enter records have 64 entries (`rings`: 16, `lone`: 1), rings take turns. N is at most 1,048,576.
"""
import os
import random
import sys

sys.path.insert(0, os.path.join(os.path.dirname(os.path.dirname(os.path.abspath(__file__))), "tests"))

import traces
from traces import AT_FDCWD, CLOSE, DRAIN, FIXED_FILE, FSYNC, LINK, OPENAT, READ, READ_FIXED, RENAMEAT, UNLINKAT, WRITE, WRITE_FIXED
from traces import directory, enter, entry, two_paths

O_CREAT, O_APPEND, O_RDWR = 0x40, 0x400, 2
MB = 1 << 20

out = sys.stdout.buffer


def file(path, size, stored=0, rnd=None):
    """the item's bytes, in parts"""
    yield traces.file_head(path, size, stored)
    while stored > 0:
        n = min(stored, MB)
        yield rnd.randbytes(n)
        stored -= n


def start(items, n_items, descs, rings, n, per):
    """header to rings; descs: nodes (access 2); rings: (slots, buffers)"""
    out.write(traces.head(n_items, len(descs), len(rings), -(-n // per)))
    for part in items:
        out.write(part)
    for node in descs:
        out.write(traces.description(node))
    for slots, buffers in rings:
        out.write(traces.ring(slots, buffers))


def records(n, per, n_rings, make):
    """make(k, ring) is the entry at place k with its side"""
    for first in range(0, n, per):
        count, ring = min(per, n - first), first // per % n_rings
        out.write(enter(ring, [make(k, ring) for k in range(first, first + count)]))


def rw(n, size, file_mb):
    r = random.Random(1)
    total = file_mb * MB
    start(file(b"/data", total, total, r), 1, [1, 1, 1, 1], [([i + 1], []) for i in range(4)], n, 64)
    data = r.randbytes(65536 + 2 * size)
    least, span = size - size // 4, 2 * (size // 4) + 1

    def make(k, ring):
        m = least + int(r.random() * span)
        off = int(r.random() * (total - m + 1))
        if r.random() < .5:
            return entry(READ, FIXED_FILE, offset=off, length=m, user_data=k)
        at = k & 0xffff
        return entry(WRITE, FIXED_FILE, offset=off, length=m, user_data=k, side=data[at:at + m])
    records(n, 64, 4, make)


def rings(n):
    r = random.Random(2)

    def items():
        for i in range(64):
            yield from file(b"/file%02d" % i, 65536, 65536, r)
    start(items(), 64, range(1, 65), [([i + 1], []) for i in range(64)], n, 16)
    data = r.randbytes(65536 + 64)

    def make(k, ring):
        j = k // 1024 * 16 + k % 16                # the entry's number in its ring
        off = 64 * (j * 613 % 1024)
        if r.random() < .5:
            return entry(READ, FIXED_FILE, offset=off, length=64, user_data=k)
        at = k & 0xffff
        return entry(WRITE, FIXED_FILE, offset=off, length=64, user_data=k, side=data[at:at + 64])
    records(n, 16, 64, make)


def one_file(n):
    r = random.Random(3)
    start(file(b"/data", 128), 1, [1, 1, 1, 1], [([i + 1], []) for i in range(4)], n, 64)
    data = r.randbytes(65536 + 64)

    def make(k, ring):
        at = k & 0xffff
        return entry(WRITE, FIXED_FILE, offset=int(r.random() * 33), length=64, user_data=k, side=data[at:at + 64])
    records(n, 64, 4, make)


def paths(n):
    r = random.Random(4)
    dirs = [b"/dir%d/sub%02d" % (i // 100, i % 100) for i in range(1000)]
    live = [b"%s/file%06d" % (d, i) for d in dirs for i in range(4)]

    def items():
        for i in range(10):
            yield directory(b"/dir%d" % i)
        for d in dirs:
            yield directory(d)
        for p in live:
            yield from file(p, 100)
    start(items(), 1010 + len(live), [], [([0] * 64, []) for _ in range(4)], n, 64)
    live = live[:]

    def make(k, ring):
        x = r.random()
        i = int(r.random() * len(live))
        new = b"%s/name%07d" % (dirs[int(r.random() * 1000)], k)
        slot = 1 + int(r.random() * 64)
        if x < .25 or len(live) < 2000 and x < .8:
            live.append(new)
            return entry(OPENAT, 0, AT_FDCWD, own_flags=O_CREAT | O_RDWR, user_data=k, file_index=slot, side=new)
        if x < .55:
            return entry(OPENAT, 0, AT_FDCWD, own_flags=O_RDWR, user_data=k, file_index=slot, side=live[i])
        if x < .75:
            old, live[i] = live[i], new
            return entry(RENAMEAT, 0, AT_FDCWD, length=0xffffff9c, user_data=k, side=two_paths(old, new))
        if x < .95:
            old, live[i] = live[i], live[-1]
            live.pop()
            return entry(UNLINKAT, 0, AT_FDCWD, user_data=k, side=old)
        return entry(CLOSE, 0, user_data=k, file_index=slot)
    records(n, 64, 4, make)


def chains(n):
    r = random.Random(5)

    def items():
        for i in range(4):
            yield from file(b"/file%d" % i, MB, MB, r)
    start(items(), 4, [1, 2, 3, 4], [([i + 1], []) for i in range(4)], n, 64)
    data = r.randbytes(65536 + 64)

    def make(k, ring):
        fl = FIXED_FILE | (LINK if k % 4 != 3 else 0) | (DRAIN if k % 100 == 0 else 0)
        off = 64 * int(r.random() * (MB // 64))
        if k % 4 == 0:
            at = k & 0xffff
            return entry(WRITE, fl, offset=off, length=64, user_data=k, side=data[at:at + 64])
        if k % 4 == 2:
            return entry(FSYNC, fl, user_data=k)
        if k % 200 == 1:
            off = MB - 32                           # short: breaks the chain
        return entry(READ, fl, offset=off, length=64, user_data=k)
    records(n, 64, 4, make)


def big(n, mb):
    r = random.Random(6)
    size = mb * MB
    start(file(b"/data", 8 * size, min(8, 256 // mb) * size, r), 1, [1], [([1], [(4096, size)])], n, 64)

    def make(k, ring):
        op = (WRITE_FIXED, READ, READ_FIXED, READ)[k % 4]
        return entry(op, FIXED_FILE, offset=int(r.random() * 8) * size, address=0 if op == READ else 4096, length=size, user_data=k)
    records(n, 64, 1, make)


def position(n, file_mb):
    r = random.Random(7)
    reads = file_mb * MB // 4096
    start(file(b"/data", file_mb * MB, file_mb * MB, r), 1, [1], [([1], [])], n, 64)

    def make(k, ring):
        if k % (reads + 1) == reads:
            return entry(OPENAT, 0, AT_FDCWD, own_flags=O_RDWR, user_data=k, file_index=1, side=b"/data")
        return entry(READ, FIXED_FILE, offset=(1 << 64) - 1, length=4096, user_data=k)
    records(n, 64, 1, make)


def pages(n, file_mb):
    r = random.Random(10)
    count = file_mb * MB // 4096
    buffers = [(4096 * (i + 1), 4096) for i in range(64)]
    start(file(b"/data", file_mb * MB, file_mb * MB, r), 1, [1], [([1], buffers)], n, 64)
    data = r.randbytes(65536 + 4096)

    def make(k, ring):
        off = int(r.random() * count) * 4096
        if k % 4 < 3:
            return entry(READ, FIXED_FILE, offset=off, length=4096, user_data=k)
        op = (WRITE, READ_FIXED, WRITE_FIXED)[k // 4 % 3]
        if op == WRITE:
            at = k & 0xffff
            return entry(op, FIXED_FILE, offset=off, length=4096, user_data=k, side=data[at:at + 4096])
        buffer = k * 613 % 64
        return entry(op, FIXED_FILE, offset=off, address=4096 * (buffer + 1), length=4096, user_data=k, buffer=buffer)
    records(n, 64, 1, make)


def appends(n):
    r = random.Random(8)
    start(file(b"/data", 0), 1, [], [([0], [])], n, 64)
    data = r.randbytes(65536 + 64)

    def make(k, ring):
        if k == 0:
            return entry(OPENAT, 0, AT_FDCWD, own_flags=O_RDWR | O_APPEND, user_data=k, file_index=1, side=b"/data")
        at = k & 0xffff
        return entry(WRITE, FIXED_FILE, offset=0, length=64, user_data=k, side=data[at:at + 64])
    records(n, 64, 1, make)


def over(n, size, file_mb):
    r = random.Random(11)
    total = file_mb * MB
    start(file(b"/data", total), 1, [1, 1, 1, 1], [([i + 1], []) for i in range(4)], n, 64)
    data = r.randbytes(65536 + size)

    def make(k, ring):
        at = k & 0xffff
        return entry(WRITE, FIXED_FILE, offset=k % (total // size) * size, length=size, user_data=k, side=data[at:at + size])
    records(n, 64, 4, make)


def files(n, kb, per=64):
    r = random.Random(9)
    size = kb << 10

    def items():
        for i in range(64):
            yield from file(b"/file%02d" % i, 0)
    start(items(), 64, range(1, 65), [(range(1, 65), [])], n, per)
    data = r.randbytes(size + 65536)

    def make(k, ring):
        at = k * 613 & 0xffff
        return entry(WRITE, FIXED_FILE, k % 64, k // 64 * size, length=size, user_data=k, side=data[at:at + size])
    records(n, per, 1, make)


def lone(n, kb):
    files(n, kb, 1)


KINDS = {"rw": (rw, 3), "rings": (rings, 1), "one_file": (one_file, 1), "paths": (paths, 1), "chains": (chains, 1),
         "big": (big, 2), "position": (position, 2), "pages": (pages, 2), "appends": (appends, 1), "files": (files, 2),
         "lone": (lone, 2), "over": (over, 3)}


def main(a):
    if len(a) < 1 or a[0] not in KINDS or len(a) - 1 != KINDS[a[0]][1] or not all(x.isdigit() and int(x) for x in a[1:]):
        sys.stderr.write(__doc__)
        return 2
    KINDS[a[0]][0](*map(int, a[1:]))
    out.flush()
    return 0


if __name__ == "__main__":
    sys.exit(main(sys.argv[1:]))
