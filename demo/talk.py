#!/usr/bin/env python3
"""Sends a session of calls, written in words, to a file system of its own, and prints the answers in words.

usage: talk.py SESSION             runs `s3ql replay 4096 64 8` over the session, and prints each call with its answer
       talk.py --frames SESSION    writes the frames of the session to standard output, and runs nothing
       talk.py --answers SESSION   reads the answers to the session from standard input, and prints them

A session has one call a line: an operation and its fields in the order of docs/FORMATS.md, as in `write 1 0 'some text'`. A
number may be written 0o644, and text with spaces in quotes. `2: ` in front says that pass 2 calls; else it is pass 1. The first
call has the time 1, and each other one more. A line that begins with # is not read, and neither is what follows a # behind a blank.
"""
import errno
import os
import shlex
import struct
import subprocess
import sys

# The operations in the order of their codes, from 1 on. Fields: Q, I, H and B are numbers of 8, 4, 2 and 1 bytes, n is a name and
# d is data.
OPERATIONS = """lookup Qn, getattr Q, chmod QH, chown QII, utimes QQ, truncate QQ, mkdir QnHII, create QnHII, unlink Qn, rmdir Qn,
rename QnQn, link QQn, symlink QnnII, readlink Q, open Q, release Q, read QQI, write QQd, fsync Q, readdir QnH, statfs,
setxattr QnBd, getxattr Qn, listxattr QnH, removexattr Qn, copytree QQn, locktree Q, removetree Qn, flushcache, uploadmeta,
cachesize I, leave, unmount"""
SHAPES = {}
for number, operation in enumerate(OPERATIONS.split(","), 1):
    name, _, fields = operation.strip().partition(" ")
    SHAPES[name] = (number, fields)

KINDS = {1: "directory", 2: "file", 3: "link"}
CAUSES = {1: "link", 2: "keeper", 3: "disk", 4: "no memory"}


def field(form, word):
    if form in "nd":
        text = word.encode()
        return struct.pack(">H" if form == "n" else ">I", len(text)) + text
    return struct.pack(">" + form, int(word, 0))


def frame(body):
    return struct.pack(">I", len(body)) + body


def call(line, now):
    words = shlex.split(line)
    caller = 1
    if words[0].endswith(":"):
        caller = int(words.pop(0)[:-1])
    if words[0] not in SHAPES:
        sys.exit(f"{line}: no operation has this name")
    code, forms = SHAPES[words[0]]
    if len(words) != 1 + len(forms):
        sys.exit(f"{line}: {words[0]} has {len(forms)} fields")
    try:
        return frame(struct.pack(">BQQB", 1, caller, now, code) + b"".join(map(field, forms, words[1:])))
    except (ValueError, struct.error) as error:
        sys.exit(f"{line}: {error}")


class Answer:
    """The bytes of an answer, read from the left."""

    def __init__(self, body):
        self.body = body

    def take(self, count):
        front, self.body = self.body[:count], self.body[count:]
        return front

    def number(self, form):
        return struct.unpack(">" + form, self.take(struct.calcsize(form)))[0]

    def text(self, form):
        return repr(self.take(self.number(form)))[1:]

    def attributes(self):
        inode, kind, mode, uid, gid, links, size, mtime, ctime, locked = struct.unpack(">QBHIIQQQQB", self.take(52))
        return (f"{KINDS[kind]} {inode}, mode {mode:o}, owner {uid}:{gid}, links {links}, size {size}, "
                f"mtime {mtime}, ctime {ctime}" + (", locked" if locked else ""))

    def words(self):
        if self.number("B") == 27:
            return f"the input is refused at byte {self.number('Q')}"
        tag = self.number("B")
        if tag == 1:
            return "done"
        if tag == 2:
            return self.attributes()
        if tag == 3:
            return f"opened as handle {self.number('Q')}: {self.attributes()}"
        if tag == 4:
            return self.text("I")
        if tag == 5:
            return f"{self.number('I')} bytes written"
        if tag == 6:
            entries = [(self.number("Q"), self.number("B"), self.text("H")) for _ in range(self.number("H"))]
            return ", ".join(f"{KINDS[kind]} {inode} {name}" for inode, kind, name in entries) or "no entries"
        if tag == 7:
            return ", ".join(self.text("H") for _ in range(self.number("H"))) or "no names"
        if tag == 8:
            block, nodes, entries, size = struct.unpack(">IQQQ", self.take(28))
            return f"blocks of {block} bytes, nodes {nodes}, entries {entries}, bytes {size}"
        if tag == 9:
            code = self.number("H")
            return f"error {errno.errorcode.get(code, code)}: {os.strerror(code)}"
        if tag == 10:
            return f"fault: {CAUSES[self.number('B')]}"
        return "a block is lost"


def answers(written):
    while written:
        size = struct.unpack(">I", written[:4])[0]
        yield Answer(written[4:4 + size]).words()
        written = written[4 + size:]


def main():
    words = sys.argv[1:]
    mode = words.pop(0) if words and words[0] in ("--frames", "--answers") else ""
    if len(words) != 1:
        sys.exit(__doc__)
    with open(words[0]) as session:
        lines = [(" " + line).split(" #")[0].strip() for line in session]
    calls = [line for line in lines if line]
    frames = b"".join(call(line, now) for now, line in enumerate(calls, 1)) + frame(b"\x12")
    if mode == "--frames":
        sys.stdout.buffer.write(frames)
        return
    if mode == "--answers":
        written, status = sys.stdin.buffer.read(), 0
    else:
        program = os.path.join(os.path.dirname(os.path.abspath(__file__)), "..", "s3ql")
        ran = subprocess.run([program, "replay", "4096", "64", "8"], input=frames, stdout=subprocess.PIPE)
        written, status = ran.stdout, ran.returncode
    for line, answer in zip(calls, answers(written)):
        print(f"{line}\n    {answer}")
    sys.exit(status)


main()
