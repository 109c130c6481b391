#!/usr/bin/env bash
# What cannot be written is a fault: writing to a full device ends with status 1 and not 0.
set -u
here=$(cd "$(dirname "$0")/.." && pwd)
status=0
"$here/s3ql" replay 4096 64 8 <"$here/crates/s3ql/stdin" >/dev/full || status=$?
if [ "$status" = 1 ]; then echo "a full device: status 1"; else echo "a full device: status $status, not 1"; exit 1; fi
