#!/usr/bin/env bash
# Measures scans: rows that an index gives, entries of other values that it passes, and full scans of a large file of
# events beside the selection of the same records in memory, by elapsed time.
#
# usage: bench/scans.sh [BYTES]        (67108864 bytes where none are given, and no more)
#
# It needs python3. `make bench_scans` proves and builds the program first, and then runs this.
set -euo pipefail
cd "$(dirname "$0")"
. ./measure.sh
program=${PROGRAM:-../crates/bench/out/bench}
[ -x "$program" ] || { echo "bench: $program is missing: run 'make bench_scans' first" >&2; exit 1; }
file=$(events "${1:-67108864}")

rm -f data/scans.runs
for _ in 1 2 3; do
  lanes scans "$program" scans "$file"
done

# the least and the middle nanoseconds of one thing that is done by a work
times() {
  awk -v work="$1" '$1 == work { print $4 / $6 }' data/scans.runs | sort -n |
    awk '{ each[NR] = $1 } END { print each[1], each[int((NR + 1) / 2)] }'
}

echo "$(machine), best and middle of 9 rounds"
echo "a row that the index gives:         $(times given) ns"
for kind in "" _spread; do
  echo "an entry that is walked$kind:  $(times "walked$kind") ns"
  echo "an entry that a scan passes$kind:  $(times "passed$kind") ns"
done
for kind in "" _half; do
  read -r full full_middle <<< "$(times "full$kind")"
  read -r select select_middle <<< "$(times "select$kind")"
  awk -v kind="$kind" -v f="$full" -v fm="$full_middle" -v s="$select" -v sm="$select_middle" 'BEGIN {
    printf "full scan%s: %.0f and %.0f MB/s, selection in memory %.0f and %.0f MB/s, ratio %.2f and %.2f\n",
      kind, 1000 / f, 1000 / fm, 1000 / s, 1000 / sm, s / f, sm / fm }'
done
