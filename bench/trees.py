#!/usr/bin/env python3
"""Times copies, locks and removals of trees by one run of the program for each size, beside `cp -al` and `rm -r` of the same tree in
/dev/shm, and says which bounds hold.

usage: trees.py PROGRAM

A tree has 1,000, 10,000 or 100,000 files, 100 in a directory, each with a block of its own. Times are those of one call, the best of
RUNS trees; the second copy is made of the same tree, and a removal takes a copy away that was locked before.
"""
import os
import shutil
import struct
import subprocess
import sys
import tempfile
import time

from names import ATTR, DONE, OPENED, Program, call, make, name

SIZES = (1000, 10000, 100000)
WIDE = 100
RUNS = 3
COUNT = DONE + 4

# Entries a second at least, and how often a size ten times as great may take as long.
COPIES = 100000
CONTROLS = 150000
TENFOLD = 14


def directory(i):
    return b"%05d" % i


def copy(source, parent, text):
    return call(26, struct.pack(">QQ", source, parent) + name(text))


def lock(inode):
    return call(27, struct.pack(">Q", inode))


def remove(parent, text):
    return call(28, struct.pack(">Q", parent) + name(text))


def of_program(path, count):
    """Seconds for a copy, a second one, a lock and a removal of a tree of so many files."""
    it, took = Program(path), {}
    it.answers([make(7, 1, b"tree")], ATTR)
    inode, handle = 4, 1
    for i in range(count // WIDE):
        it.answers([make(7, 3, directory(i))], ATTR)
        frames = []
        for k in range(WIDE):
            frames += [make(8, inode, b"%02d" % k), call(18, struct.pack(">QQIQ", handle + k, 0, 8, i * WIDE + k + 1))]
        # All handles of the pass are closed.
        it.answers(frames + [call(32, b"")], (OPENED + COUNT) * WIDE + DONE)
        inode, handle = inode + 1 + WIDE, handle + WIDE
    took["copy"] = it.answers([copy(3, 1, b"one")], ATTR)
    took["second copy"] = it.answers([copy(3, 1, b"two")], ATTR)
    took["lock"] = it.answers([lock(inode)], DONE)
    took["removal"] = it.answers([remove(1, b"one")], DONE)
    it.end()
    return took


def seconds(words):
    start = time.perf_counter()
    subprocess.run(words, check=True)
    return time.perf_counter() - start


def of_tools(count):
    """The same work by `cp -al` and `rm -r` over a file system in memory."""
    top = tempfile.mkdtemp(dir="/dev/shm")
    try:
        for i in range(count // WIDE):
            folder = f"{top}/tree/{i:05d}"
            os.makedirs(folder)
            for k in range(WIDE):
                with open(f"{folder}/{k:02d}", "wb") as file:
                    file.write(struct.pack(">Q", i * WIDE + k + 1))
        return {
            "copy": seconds(["cp", "-al", f"{top}/tree", f"{top}/one"]),
            "second copy": seconds(["cp", "-al", f"{top}/tree", f"{top}/two"]),
            "removal": seconds(["rm", "-r", f"{top}/one"]),
        }
    finally:
        shutil.rmtree(top)


def best(runs):
    return {kind: min(run[kind] for run in runs) for kind in runs[0]}


def main():
    if len(sys.argv) != 2:
        sys.exit(__doc__)
    held = True
    own = {size: best([of_program(sys.argv[1], size) for _ in range(RUNS)]) for size in SIZES}
    tools = {size: best([of_tools(size) for _ in range(RUNS)]) for size in SIZES}
    for size in SIZES:
        entries = size + size // WIDE + 1
        for kind, took in own[size].items():
            rate = entries / took
            bound = COPIES if "copy" in kind else CONTROLS
            beside = f"; {entries / tools[size][kind]:.0f} by {'rm -r' if kind == 'removal' else 'cp -al'}" if kind in tools[size] else ""
            held = held and rate >= bound
            print(f"{size} files: {kind} {took:.4f} s, {rate:.0f} entries a second{beside}{'' if rate >= bound else ': BELOW ITS BOUND'}")
    for small, large in zip(SIZES, SIZES[1:]):
        for kind in own[small]:
            times = own[large][kind] / own[small][kind]
            held = held and times <= TENFOLD
            print(f"{kind}: {large} files take {times:.1f} times as long as {small}{'' if times <= TENFOLD else ': MORE THAN ' + str(TENFOLD)}")
    sys.exit(0 if held else 1)


if __name__ == "__main__":
    main()
