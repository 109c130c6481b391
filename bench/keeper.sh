#!/usr/bin/env bash
# Times the built program of crates/keeper_growth at 50,000 and at 100,000 commits: each puts one row and looks it up. The
# second 50,000 may take at most 1.5 times as long as the first. Best of 5 each; it needs awk.
set -eu
here=$(cd "$(dirname "$0")/.." && pwd)
cd "$here/crates/keeper_growth"
rt run -- 10 >/dev/null   # builds it where it has to
program=out/keeper_growth

seconds() {
  local start end
  start=$(date +%s.%N)
  "./$program" "$1" >/dev/null
  end=$(date +%s.%N)
  awk -v a="$start" -v b="$end" 'BEGIN { printf "%.3f", b - a }'
}

best() {
  for _ in 1 2 3 4 5; do seconds "$1"; echo; done | sort -g | head -1
}

half=$(best 50000)
whole=$(best 100000)
awk -v a="$half" -v b="$whole" 'BEGIN {
  printf "the first 50,000 commits: %s s; the second: %.3f s, %.2f times as long\n", a, b - a, (b - a) / a
  exit !(b - a <= 1.5 * a)
}'
