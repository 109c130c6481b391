#!/usr/bin/env bash
# Times calls on names by the built program: in one directory of 1,000, 10,000 and 100,000 files Creates, Lookups, Renames within it
# and to a directory 200 levels down, Links, Unlinks, and pages of 256 entries, each beside the same work by Python's `os` over a
# file system in memory. It needs python3 and /dev/shm.
set -eu
here=$(cd "$(dirname "$0")/.." && pwd)
printf '\0\0\0\1\22' | "$here/s3ql" replay 4096 64 8   # builds it where it has to
exec python3 "$here/bench/names.py" "$here/crates/s3ql/out/s3ql"
