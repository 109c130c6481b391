#!/usr/bin/env bash
# Times the blocks of files by the built program, beside the program of crates/bench_blocks, which only hashes the same data, and
# `sha256sum`: 256 MB of different blocks of 128 KiB that are written, read, and written a second time into another file; then 200,000
# Writes of 4 KiB over 50,000 places; and the peak of memory of a file of 2^50 bytes and of one block at 100,000 places. It fails where
# a bound is passed. With a number as its word it takes so many blocks in place of 2,048. It needs python3, sha256sum, /proc and /dev/shm.
set -eu
here=$(cd "$(dirname "$0")/.." && pwd)
printf '\0\0\0\1\22' | "$here/s3ql" replay 4096 64 8   # builds it where it has to
(cd "$here/crates/bench_blocks" && rt run -- 1 >/dev/null)   # so does this
exec python3 "$here/bench/blocks.py" "$here/crates/s3ql/out/s3ql" "$here/crates/bench_blocks/out/bench_blocks" "${1:-2048}"
