#!/usr/bin/env python3
"""Times calls on names by one run of the program for each size, and the same work by `os` over /dev/shm.

usage: names.py PROGRAM

Each row is one kind of call: microseconds for a call at each size, how often the time at the smallest size goes into that at the
greatest, and then the same of `os`. Frames are made before the clock starts, and answers are counted by their bytes, of which
each kind of answer has a known number.
"""
import os
import shutil
import struct
import subprocess
import sys
import tempfile
import threading
import time

SIZES = (1000, 10000, 100000)
CALLS = 10000
DEPTH = 200
PAGE = 256

# The bytes of an answer: the length, the tag of an answer, the tag of a reply, and its fields.
DONE = 4 + 1 + 1
ATTR = DONE + 52
OPENED = DONE + 8 + 52


def call(code, fields):
    body = struct.pack(">BQQB", 1, 1, 5, code) + fields
    return struct.pack(">I", len(body)) + body


def name(text):
    return struct.pack(">H", len(text)) + text


def make(code, parent, text):
    return call(code, struct.pack(">Q", parent) + name(text) + struct.pack(">HII", 0o755, 0, 0))


def rename(parent, old, other, new):
    return call(11, struct.pack(">Q", parent) + name(old) + struct.pack(">Q", other) + name(new))


class Program:
    def __init__(self, path, block_size=4096):
        words = [path, "replay", str(block_size), "64", "8"]
        self.process = subprocess.Popen(words, stdin=subprocess.PIPE, stdout=subprocess.PIPE, bufsize=0)

    def answers(self, frames, size):
        """Gives the program these frames, and returns the seconds until it has answered with so many bytes."""
        data = b"".join(frames)
        writer = threading.Thread(target=self.give, args=(data,))
        left = size
        start = time.perf_counter()
        writer.start()
        while left > 0:
            part = os.read(self.process.stdout.fileno(), 1 << 20)
            if not part:
                sys.exit(f"{os.path.basename(sys.argv[0])}: the program ended too early")
            left -= len(part)
        took = time.perf_counter() - start
        writer.join()
        if left:
            sys.exit(f"{os.path.basename(sys.argv[0])}: an answer is longer than its kind has bytes: some call was refused or was not made")
        return took

    def give(self, data):
        view, fd = memoryview(data), self.process.stdin.fileno()
        while view:
            view = view[os.write(fd, view) :]

    def end(self):
        self.give(struct.pack(">IB", 1, 18))
        if self.process.wait() != 0:
            sys.exit(f"{os.path.basename(sys.argv[0])}: the program failed")


def file(i):
    return b"file-%07d" % i


def spread(count):
    """Numbers of files in no order, the same each time."""
    step = 7919
    return [k * step % count for k in range(CALLS)]


def of_program(path, count):
    """Seconds for a call of each kind, in a directory of so many files."""
    it, took = Program(path), {}
    it.answers([make(7, 1, b"many")], ATTR)
    parent, deep = 3, 3
    for k in range(DEPTH):
        it.answers([make(7, deep if k else 1, b"down")], ATTR)
        deep = 4 + k
    first = deep + 1
    creates = [make(8, parent, file(i)) for i in range(count)]
    took["create"] = it.answers(creates, OPENED * count) / count
    chosen = spread(count)
    took["lookup"] = it.answers([call(1, struct.pack(">Q", parent) + name(file(i))) for i in chosen], ATTR * CALLS) / CALLS
    within = [frame for i in chosen[::2] for frame in (rename(parent, file(i), parent, b"other"), rename(parent, b"other", parent, file(i)))]
    took["rename within"] = it.answers(within, DONE * len(within)) / len(within)
    down = [frame for i in chosen[::2] for frame in (rename(parent, file(i), deep, b"other"), rename(deep, b"other", parent, file(i)))]
    took["rename down"] = it.answers(down, DONE * len(down)) / len(down)
    # The directory has the same number of entries before and after.
    links = [frame for i in chosen[::2] for frame in (call(12, struct.pack(">QQ", first + i, parent) + name(b"further")), call(9, struct.pack(">Q", parent) + name(b"further")))]
    took["link, unlink"] = it.answers(links, (ATTR + DONE) * (len(links) // 2)) / len(links)
    pages, size, after, at = [], 0, b"", 0
    while at < count:
        found = min(PAGE, count - at)
        pages.append(call(20, struct.pack(">Q", parent) + name(after) + struct.pack(">H", PAGE)))
        size += DONE + 2 + found * (8 + 1 + 2 + len(file(0)))
        at += found
        after = file(at - 1)
    took["page of 256"] = it.answers(pages, size) / len(pages)
    it.end()
    return took


def timed(work, number):
    start = time.perf_counter()
    work()
    return (time.perf_counter() - start) / number


def of_os(count):
    """The same work by `os` over a file system in memory."""
    top = tempfile.mkdtemp(dir="/dev/shm").encode()
    try:
        many, deep, took = top + b"/many", top, {}
        os.mkdir(many)
        for _ in range(DEPTH):
            deep += b"/down"
            os.mkdir(deep)
        chosen = spread(count)

        def create():
            for i in range(count):
                os.close(os.open(many + b"/" + file(i), os.O_CREAT | os.O_WRONLY, 0o644))

        def lookup():
            for i in chosen:
                os.stat(many + b"/" + file(i))

        def moved(to):
            for i in chosen[::2]:
                os.rename(many + b"/" + file(i), to + b"/other")
                os.rename(to + b"/other", many + b"/" + file(i))

        def linked():
            for i in chosen[::2]:
                os.link(many + b"/" + file(i), many + b"/further")
                os.unlink(many + b"/further")

        took["create"] = timed(create, count)
        took["lookup"] = timed(lookup, CALLS)
        took["rename within"] = timed(lambda: moved(many), CALLS)
        took["rename down"] = timed(lambda: moved(deep), CALLS)
        took["link, unlink"] = timed(linked, CALLS)
        took["page of 256"] = timed(lambda: list(os.scandir(many)), (count + PAGE - 1) // PAGE)
        return took
    finally:
        shutil.rmtree(top)


def row(kind, all_of):
    times = [all_of[size][kind] * 1e6 for size in SIZES]
    return "".join(f"{it:10.2f}" for it in times) + f"{times[-1] / times[0]:8.2f}"


def main():
    if len(sys.argv) != 2:
        sys.exit(__doc__)
    own = {size: of_program(sys.argv[1], size) for size in SIZES}
    others = {size: of_os(size) for size in SIZES}
    heads = "".join(f"{size:10d}" for size in SIZES) + "   ratio"
    print(f"{'microseconds for a call':24}{heads}  |{heads}  (os over /dev/shm)")
    for kind in own[SIZES[0]]:
        print(f"{kind:24}{row(kind, own)}  |{row(kind, others)}")
    worst = max(own[SIZES[-1]][kind] / own[SIZES[0]][kind] for kind in own[SIZES[0]])
    print(f"the greatest ratio is {worst:.2f}: {'at most 3' if worst <= 3 else 'MORE THAN 3'}")


if __name__ == "__main__":
    main()
