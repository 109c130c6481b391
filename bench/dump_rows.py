#!/usr/bin/env python3
"""Backs up with sqlite3 the rows that crates/dump_growth makes: those of N files with a block each, in a database in memory.

dump_rows.py N RUNS prints the number of rows, the bytes of the database, and the seconds that its backup into another one took,
best of RUNS. Only sqlite3 works in what is timed."""

import sqlite3
import sys
import time

SCATTER = 0x9E3779B97F4A7C15

TABLES = """
create table inodes (id integer primary key, kind integer, mode integer, uid integer, gid integer, mtime integer, ctime integer,
    refcount integer, size integer, locked integer) strict;
create table names (id integer primary key, refcount integer, name blob unique) strict;
create table contents (parent integer, name_id integer, inode integer, primary key (parent, name_id)) strict, without rowid;
create table inode_blocks (inode integer, blockno integer, block integer, primary key (inode, blockno)) strict, without rowid;
create table blocks (id integer primary key, digest blob unique, refcount integer, size integer, object integer) strict;
create table objects (id integer primary key, refcount integer, size integer) strict;
"""


def scattered(number):
    rest = number * SCATTER % 2**64
    return bytes(97 + (rest >> 4 * k) % 16 for k in range(16))


def digest(number):
    return (number * SCATTER % 2**64).to_bytes(8, "big") + bytes(24)


def filled(files):
    base = sqlite3.connect(":memory:")
    base.executescript(TABLES)
    base.executemany("insert into inodes values (?, 1, ?, 0, 0, 0, 0, 1, 0, 0)", [(1, 0o755), (2, 0o700)])
    base.executemany("insert into inodes values (?, 2, 420, 0, 0, 0, 0, 1, 4096, 0)", ((file + 3,) for file in range(files)))
    base.execute("insert into names values (1, 1, ?)", (b"lost+found",))
    base.executemany("insert into names values (?, 1, ?)", ((file + 2, scattered(file)) for file in range(files)))
    base.execute("insert into contents values (1, 1, 2)")
    base.executemany("insert into contents values (1, ?, ?)", ((file + 2, file + 3) for file in range(files)))
    base.executemany("insert into inode_blocks values (?, 0, ?)", ((file + 3, file + 1) for file in range(files)))
    base.executemany("insert into blocks values (?, ?, 1, 4096, ?)", ((file + 1, digest(file), file + 1) for file in range(files)))
    base.executemany("insert into objects values (?, 1, 4096)", ((file + 1,) for file in range(files)))
    base.commit()
    return base


def seconds(base):
    copy = sqlite3.connect(":memory:")
    start = time.perf_counter()
    base.backup(copy)
    took = time.perf_counter() - start
    copy.close()
    return took


def main():
    files, runs = int(sys.argv[1]), int(sys.argv[2])
    base = filled(files)
    pages, size = base.execute("pragma page_count").fetchone()[0], base.execute("pragma page_size").fetchone()[0]
    print(6 * files + 4, pages * size, "%.6f" % min(seconds(base) for _ in range(runs)))


main()
