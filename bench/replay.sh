#!/usr/bin/env bash
# Times the built program: 200,000 and 400,000 Write and Read calls over 50 files, beside `cat` of the same input, with the peak of
# its memory, which grows by the objects of blocks that were written over, since nothing takes them away yet; then 20 calls (Create, Write, Read, Getattr, Utimes, Truncate) on each
# of 1,000, 9,000 and 10,000 files of one directory, to compare the last tenth of the files with the first. It writes to files of a
# temporary folder, and needs python3 to make the input and /proc for the peak.
set -eu
here=$(cd "$(dirname "$0")/.." && pwd)
folder=$(mktemp -d)
trap 'rm -rf "$folder"' EXIT
printf '\0\0\0\1\22' | "$here/s3ql" replay 4096 64 8   # builds it where it has to

seconds() {
  local start end
  start=$(date +%s.%N)
  "$@"
  end=$(date +%s.%N)
  awk -v a="$start" -v b="$end" 'BEGIN { printf "%.3f", b - a }'
}

replay() { "$here/crates/s3ql/out/s3ql" replay 4096 64 8 <"$1" >"$folder/output"; }
copy() { cat <"$1" >"$folder/copy"; }

best_of() {
  local best= took
  for _ in $(seq "$1"); do
    took=$(seconds replay "$folder/input")
    best=$(printf '%s\n%s\n' "${best:-$took}" "$took" | sort -g | head -1)
  done
  echo "$best"
}

# The most memory that the program had, in KiB, by what Linux says of it last before it ends.
peak_of() {
  local key value last='' found process
  "$here/crates/s3ql/out/s3ql" replay 4096 64 8 <"$1" >"$folder/output" &
  process=$!
  while :; do
    found=
    while read -r key value _; do
      [ "$key" != VmHWM: ] || found=$value
    done 2>/dev/null <"/proc/$process/status" || break
    [ -n "$found" ] || break
    last=$found
    sleep 0.01
  done
  wait "$process"
  echo "$last"
}

declare -A peak
for number in 200000 400000; do
  python3 "$here/bench/make_frames.py" calls "$number" >"$folder/input"
  size=$(stat -c %s "$folder/input")
  best=$(best_of 3)
  plain=$(seconds copy "$folder/input")
  echo "$number calls, $size bytes: $best s ($(awk -v n="$number" -v t="$best" 'BEGIN { printf "%d", n / t }') calls a second, best of 3); cat: $plain s"
  peak[$number]=$(peak_of "$folder/input")
done
awk -v half="${peak[200000]}" -v whole="${peak[400000]}" 'BEGIN {
  printf "peak of memory: %d KiB after 200000 calls, %d KiB after 400000, which is %.2f times as much: %s\n", half, whole, whole / half,
    whole <= 1.2 * half ? "within 1.2 times" : "MORE THAN 1.2 TIMES" }'

declare -A took
for files in 1000 9000 10000; do
  python3 "$here/bench/make_frames.py" files "$files" >"$folder/input"
  took[$files]=$(best_of 5)
  echo "$files files, $((files * 20)) calls: ${took[$files]} s (best of 5)"
done
awk -v first="${took[1000]}" -v most="${took[9000]}" -v all="${took[10000]}" 'BEGIN {
  printf "the last tenth of the files: %.3f s, %.2f times the first\n", all - most, (all - most) / first }'
