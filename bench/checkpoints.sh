#!/usr/bin/env bash
# Measures a checkpoint of a log that holds a large file of events, beside a plain C program that holds the same words and
# writes the same bytes with the same calls and syncs. Each of them runs as often as the other, in turn.
#
# usage: bench/checkpoints.sh [BYTES [FOLDER [RUNS]]]
#        (67108864 bytes where none are given, and no more; a folder for the files that are written, which don't stay; 9 runs)
#
# It needs python3 and cc. `make bench_checkpoints` proves and builds the program first, and then runs this.
set -euo pipefail
cd "$(dirname "$0")"
. ./measure.sh
program=${PROGRAM:-../crates/bench/out/bench}
command -v cc > /dev/null || { echo "bench: cc is missing: apt-get install gcc" >&2; exit 1; }
[ -x "$program" ] || { echo "bench: $program is missing: run 'make bench_checkpoints' first" >&2; exit 1; }
file=$(events "${1:-67108864}")
folder=$(mktemp -d -p "${2:-data}")
trap 'rm -r "$folder"' EXIT

# both have real-time priority where that is allowed, so that other work on the machine waits
first=
chrt -f 10 true 2> /dev/null && first="chrt -f 10"

cc -O2 -o data/plain_checkpoint flush/plain.c
rm -f data/checkpoints.runs
for _ in $(seq "${3:-9}"); do
  $first "$program" checkpoint "$file" "$folder/store" 2>> data/checkpoints.runs
  $first data/plain_checkpoint "$folder/store" "$folder/plain" 2>> data/checkpoints.runs
  cmp "$folder/store" "$folder/plain" || { echo "bench: the two files differ" >&2; exit 1; }
  rm "$folder/store" "$folder/plain"
done
awk '$6 == 0 { exit 1 }' data/checkpoints.runs || { echo "bench: a checkpoint was refused" >&2; exit 1; }

# the middle nanoseconds of a work
middle() {
  awk -v work="$1" '$1 == work { print $4 }' data/checkpoints.runs | sort -n |
    awk '{ each[NR] = $1 } END { print each[int((NR + 1) / 2)] }'
}

# the middle of the ratios of two works, run by run
ratio() {
  awk -v ours="$1" -v plain="$2" '$1 == ours { o = $4 } $1 == plain { print $4 / o }' data/checkpoints.runs | sort -n |
    awk '{ each[NR] = $1 } END { printf "%.2f (%.2f to %.2f)", each[int((NR + 1) / 2)], each[1], each[NR] }'
}

bytes=$(awk '{ print $6; exit }' data/checkpoints.runs)
echo "$(machine), $bytes bytes of lines in $(df --output=fstype "$folder" | tail -1), middle of ${3:-9} runs"
for kind in "" _cpu; do
  awk -v kind="${kind:+, processor time}" -v o="$(middle "checkpoint$kind")" -v p="$(middle "plain$kind")" -v b="$bytes" \
    -v r="$(ratio "checkpoint$kind" "plain$kind")" 'BEGIN {
    printf "checkpoint %.1f ms (%.0f MB/s), plain %.1f ms (%.0f MB/s), speed against it %s%s\n",
      o / 1e6, 1000 * b / o, p / 1e6, 1000 * b / p, r, kind }'
done
