#!/usr/bin/env bash
# Times copies, locks and removals of trees of 1,000, 10,000 and 100,000 files by the built program, 100 files in a directory and a block
# in each, beside `cp -al` and `rm -r` of the same tree over a file system in memory. Bounds: a tree of ten times as many files takes
# at most 14 times as long; 100,000 entries a second for copies, 150,000 for locks and removals. It needs python3 and /dev/shm.
set -eu
here=$(cd "$(dirname "$0")/.." && pwd)
printf '\0\0\0\1\22' | "$here/s3ql" replay 4096 64 8   # builds it where it has to
exec python3 "$here/bench/trees.py" "$here/crates/s3ql/out/s3ql"
