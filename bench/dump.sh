#!/usr/bin/env bash
# Times dumps: the built program of crates/dump_growth makes the tables of 10,000, 100,000 and 1,000,000 files with a block each,
# dumps them, reads the dump, and restores it into an empty keeper in memory, best of three runs. Beside it sqlite3 of python3 backs
# up the same rows from one database in memory to another. Bounds: dump and read_dump take at least 100 MB a second, and at most twice
# as long a byte for 1,000,000 files as for 100,000; a restore puts at least 300,000 rows a second. It needs python3 and awk.
set -eu
here=$(cd "$(dirname "$0")/.." && pwd)
folder=$(mktemp -d)
trap 'rm -rf "$folder"' EXIT
cd "$here/crates/dump_growth"
rt run -- 10 >/dev/null 2>&1   # builds it where it has to
program=out/dump_growth
runs=3

# The least of what the runs said of a step, in seconds.
best() { awk -v step="$1" '$1 == step && (least == "" || $2 < least) { least = $2 } END { printf "%.6f", least / 1e9 }' "$folder/times"; }

status=0
for files in 10000 100000 1000000; do
  : >"$folder/times"
  for _ in $(seq "$runs"); do "./$program" "$files" >"$folder/counts" 2>>"$folder/times"; done
  read -r rows _ bytes _ <"$folder/counts"
  dump=$(best dump) read=$(best read) restore=$(best restore) pages=$(best pages)
  read -r _ base backup < <(python3 "$here/bench/dump_rows.py" "$files" "$runs")
  awk -v files="$files" -v rows="$rows" -v bytes="$bytes" -v dump="$dump" -v read="$read" -v restore="$restore" -v pages="$pages" \
    -v base="$base" -v backup="$backup" 'BEGIN {
    printf "%d files, %d rows, %d bytes: dump %.4f s (%.0f MB/s), read_dump %.4f s (%.0f MB/s), restore %.3f s (%.0f rows/s), read_tables %.3f s\n",
      files, rows, bytes, dump, bytes / dump / 1e6, read, bytes / read / 1e6, restore, rows / restore, pages
    printf "  sqlite3: backup of the same rows, %d bytes of pages: %.4f s (%.0f MB/s)\n", base, backup, base / backup / 1e6
    exit bytes / dump < 1e8 || bytes / read < 1e8 || rows / restore < 3e5
  }' || { status=1; echo "  below a bound"; }
  if [ "$files" = 1000000 ]; then
    awk -v a="$before" -v b="$dump $read $bytes" 'BEGIN {
      split(a, x); split(b, y)
      d = (y[1] / y[3]) / (x[1] / x[3]); r = (y[2] / y[3]) / (x[2] / x[3])
      printf "a byte of 1,000,000 files takes %.2f times as long to dump as one of 100,000, and %.2f times as long to read\n", d, r
      exit d > 2 || r > 2
    }' || { status=1; echo "  not linear"; }
  fi
  before="$dump $read $bytes"
done
exit "$status"
