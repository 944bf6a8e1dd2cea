#!/usr/bin/env bash
# Times `fishstore select` on a large file of events beside `jq -c` and beside a plain Rust program over
# `serde_json`, all in one run on one core, by processor time, and prints the ratios and the peak memory.
#
# usage: bench/select.sh [BYTES]        (67108864 bytes where none are given)
#
# It needs Debian's packages jq, python3, time and util-linux; and librust-serde-json-dev with cargo for the Rust
# program, which is left out where they are missing. `make build` makes the program first.
set -euo pipefail
cd "$(dirname "$0")"
. ./measure.sh
program=../crates/fishstore/out/fishstore
runs=5

for tool in jq python3 /usr/bin/time taskset; do
  command -v "$tool" >/dev/null || { echo "bench: $tool is missing: apt-get install jq python3 time util-linux" >&2; exit 1; }
done
[ -x "$program" ] || { echo "bench: $program is missing: run 'make build' first" >&2; exit 1; }

file=$(events "${1:-67108864}")
baseline=$(rust_program select)

echo "$(machine), $(stat -c %s "$file") bytes, best of $runs runs on one core"
for filter in 'type ReleaseEvent few' 'type PushEvent half'; do
  read -r name value share <<< "$filter"
  rm -f data/ours.runs data/jq.runs data/rust.runs
  for _ in $(seq $runs); do
    measure ours "$program" select "take $name" "\"$value\"" "$file"
    measure jq jq -c "select(.$name == \"$value\")" "$file"
    [ -z "$baseline" ] || measure rust "$baseline" "$name" "\"$value\"" "$file"
  done
  read -r ours memory <<< "$(best ours)"
  echo "$share match: fishstore $ours s of processor time, $memory KiB"
  read -r theirs kib <<< "$(best jq)"
  echo "$share match: jq -c $theirs s, fishstore is $(awk -v a="$theirs" -v b="$ours" 'BEGIN { printf "%.1f", a / b }') times as fast"
  if [ -n "$baseline" ]; then
    cmp data/ours.out data/rust.out
    read -r theirs kib <<< "$(best rust)"
    echo "$share match: serde_json $theirs s, $kib KiB, fishstore takes $(awk -v a="$ours" -v b="$theirs" 'BEGIN { printf "%.2f", a / b }') of its time"
  fi
done
