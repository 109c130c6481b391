#!/usr/bin/env python3
"""Writes the frames of a replay to standard output. The same words give the same bytes.

usage: make_frames.py calls NUMBER    50 files are made, and then so many Write and Read calls in turn, each at a place below
                                      64 KiB of one of the files
       make_frames.py files NUMBER    so many files are made in the root, one after the other, and each is then used by 19 calls:
                                      Write, Read, Getattr, Utimes and Truncate in turn, at places below 4 KiB
"""
import struct
import sys


def call(now, code, fields):
    body = struct.pack(">BQQB", 1, 1, now, code) + fields
    return struct.pack(">I", len(body)) + body


def create(now, name):
    return call(now, 8, struct.pack(">QH", 1, len(name)) + name + struct.pack(">HII", 0o644, 0, 0))


def write(now, handle, offset, draw):
    data = bytes([draw % 256]) * (64 + draw % 300)
    return call(now, 18, struct.pack(">QQI", handle, offset, len(data)) + data)


def read(now, handle, offset):
    return call(now, 17, struct.pack(">QQI", handle, offset, 256))


def draws():
    state = 1
    while True:
        state = (6364136223846793005 * state + 1442695040888963407) % 2**64
        yield state >> 33


def calls(number):
    files = 50
    for i in range(files):
        yield create(i, b"f%d" % i)
    for i, draw in zip(range(number), draws()):
        handle = 1 + draw % files
        offset = (draw // files) % (64 * 1024 - 512)
        yield write(files + i, handle, offset, draw) if i % 2 == 0 else read(files + i, handle, offset)


def files(number):
    now = 0
    source = draws()
    for i in range(number):
        handle, inode = i + 1, i + 3
        now += 1
        yield create(now, b"f%d" % i)
        for k in range(19):
            draw = next(source)
            offset = draw % 3584
            now += 1
            if k % 5 == 0:
                yield write(now, handle, offset, draw)
            elif k % 5 == 1:
                yield read(now, handle, offset)
            elif k % 5 == 2:
                yield call(now, 2, struct.pack(">Q", inode))
            elif k % 5 == 3:
                yield call(now, 5, struct.pack(">QQ", inode, now))
            else:
                yield call(now, 6, struct.pack(">QQ", inode, offset))


def main():
    kinds = {"calls": calls, "files": files}
    if len(sys.argv) != 3 or sys.argv[1] not in kinds or not sys.argv[2].isdigit():
        sys.exit(__doc__)
    for frame in kinds[sys.argv[1]](int(sys.argv[2])):
        sys.stdout.buffer.write(frame)
    sys.stdout.buffer.write(struct.pack(">IB", 1, 18))


main()
