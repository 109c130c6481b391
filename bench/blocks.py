#!/usr/bin/env python3
"""Times the blocks of files by runs of the program, and says which bounds hold.

usage: blocks.py PROGRAM HASHING BLOCKS

BLOCKS is how many different blocks of 131,072 bytes are written and read; HASHING is the program that only hashes them. Frames are
made before the clock starts, those of large blocks in a file of /dev/shm, so that nothing else is timed with the program; what a run
takes longer that also reads, or writes a second file, is the time of that. Answers are counted by their bytes.
"""
import itertools
import os
import struct
import subprocess
import sys
import tempfile
import time

from names import ATTR, DONE, OPENED, Program, call, make

BLOCK = 131072
GROUP = 256
RUNS = 3

# The bytes of an answer that counts, and of one that has bytes.
COUNT = DONE + 4
BYTES = DONE + 4

SMALL = 4096
WRITES = 200000
PLACES = 50000
DIFFERENT = 20000
SHARED_PLACES = 100000
MEMORY = 64 << 20


def block(k):
    """A block that is different for each number."""
    return struct.pack(">Q", k) + b"a" * (BLOCK - 8)


def create(text):
    return make(8, 1, text)


def write(handle, offset, data):
    return call(18, struct.pack(">QQI", handle, offset, len(data)) + data)


def read(handle, offset, count):
    return call(17, struct.pack(">QQI", handle, offset, count))


def truncate(inode, size):
    return call(6, struct.pack(">QQ", inode, size))


def in_groups(it, frame, count, size):
    """Seconds for so many calls, whose frames are made a group at a time."""
    took = 0
    for first in range(0, count, GROUP):
        group = [frame(k) for k in range(first, min(first + GROUP, count))]
        took += it.answers(group, size * len(group))
    return took


def peak_of(it):
    """The most memory that the program had, in bytes."""
    with open(f"/proc/{it.process.pid}/status") as status:
        for line in status:
            if line.startswith("VmHWM:"):
                return int(line.split()[1]) * 1024
    sys.exit("blocks.py: the peak of memory is not told")


def hashing(words, data):
    """Seconds of a program that only hashes, over some standard input."""
    process = subprocess.Popen(words, stdin=subprocess.PIPE, stdout=subprocess.DEVNULL)
    start = time.perf_counter()
    for part in data:
        process.stdin.write(part)
    process.stdin.close()
    if process.wait() != 0:
        sys.exit("blocks.py: a program that hashes failed")
    return time.perf_counter() - start


class Bounds:
    """Rows that are printed, each with whether its bound holds."""

    def __init__(self):
        self.held = True

    def row(self, text, holds=True):
        print(text + ("" if holds else ": PASSED"), flush=True)
        self.held = self.held and holds


def of_file(program, frames, size):
    """Seconds of a run over a file of frames, the best of RUNS, whose answers have so many bytes; and the peak of its memory."""
    with tempfile.NamedTemporaryFile(dir="/dev/shm") as given, tempfile.NamedTemporaryFile(dir="/dev/shm") as written:
        for frame in frames:
            given.write(frame)
        given.write(struct.pack(">IB", 1, 18))
        given.flush()
        best = []
        for _ in range(RUNS):
            with open(given.name, "rb") as source, open(written.name, "wb") as sink:
                start = time.perf_counter()
                process = subprocess.Popen([program, "replay", str(BLOCK), "64", "8"], stdin=source, stdout=sink)
                _, status, used = os.wait4(process.pid, 0)
                best.append((time.perf_counter() - start, used.ru_maxrss * 1024))
            if status != 0 or os.path.getsize(written.name) != size:
                sys.exit("blocks.py: the program failed, or some call was refused")
        return min(best)


def large_blocks(program, hash_alone, blocks, bounds):
    alone = min(hashing([hash_alone, str(blocks)], []) for _ in range(RUNS))
    by_sum = hashing(["sha256sum"], (block(k) for k in range(blocks)))
    bounds.row(f"hashing {blocks} blocks of {BLOCK} bytes: {alone:.2f} s alone; sha256sum, with a pipe: {by_sum:.2f} s")
    files = [create(b"a"), create(b"b")]
    writes = lambda handle: (write(handle, k * BLOCK, block(k)) for k in range(blocks))
    reads = (read(1, k * BLOCK, BLOCK) for k in range(blocks))
    size = OPENED * 2 + COUNT * blocks
    written, peak = of_file(program, itertools.chain(files, writes(1)), size)
    bounds.row(f"written: {written:.2f} s, {written / alone:.2f} times hashing alone", written <= 1.5 * alone)
    was_read = of_file(program, itertools.chain(files, writes(1), reads), size + (BYTES + BLOCK) * blocks)[0] - written
    bounds.row(f"read: {was_read:.2f} s, {was_read / alone:.2f} times hashing alone", was_read <= 1.5 * alone)
    again = of_file(program, itertools.chain(files, writes(1), writes(2)), size + COUNT * blocks)[0] - written
    bounds.row(f"written into another file: {again:.2f} s")
    bounds.row(f"peak of memory: {peak / 1e6:.0f} MB, of which {blocks * BLOCK / 1e6:.0f} MB are objects")


def small_blocks(program, bounds):
    it = Program(program, SMALL)
    it.answers([create(b"a")], OPENED)
    tenth = WRITES // 10
    took = []
    for part in range(10):
        frames = []
        for i in range(part * tenth, (part + 1) * tenth):
            frames.append(write(1, i % PLACES * SMALL, struct.pack(">Q", i % DIFFERENT + 1) * (SMALL // 8)))
        took.append(it.answers(frames, COUNT * tenth))
    it.end()
    bounds.row(
        f"{WRITES} Writes of {SMALL} bytes: {sum(took):.2f} s; the first tenth {took[0]:.2f} s, the last {took[-1]:.2f} s, "
        f"{took[-1] / took[0]:.2f} times the first",
        took[-1] <= 1.5 * took[0],
    )


def memory(program, bounds):
    it = Program(program, SMALL)
    last = 2**50 - SMALL
    it.answers([create(b"a")], OPENED)
    it.answers([truncate(3, 2**50)], ATTR)
    it.answers([write(1, 0, b"x" * SMALL), write(1, last, b"y" * SMALL)], COUNT * 2)
    peak = peak_of(it)
    it.end()
    bounds.row(f"a file of 2^50 bytes with two blocks: {peak / 1e6:.0f} MB", peak <= MEMORY)
    it = Program(program, SMALL)
    it.answers([create(b"a")], OPENED)
    in_groups(it, lambda k: write(1, k * SMALL, b"x" * SMALL), SHARED_PLACES, COUNT)
    peak = peak_of(it)
    it.end()
    bounds.row(f"one block at {SHARED_PLACES} places: {peak / 1e6:.0f} MB", peak <= MEMORY)


def main():
    program, hash_alone, blocks = sys.argv[1], sys.argv[2], int(sys.argv[3])
    bounds = Bounds()
    large_blocks(program, hash_alone, blocks, bounds)
    small_blocks(program, bounds)
    memory(program, bounds)
    sys.exit(0 if bounds.held else 1)


if __name__ == "__main__":
    main()
