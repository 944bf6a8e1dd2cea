#!/usr/bin/env bash
# Measures ingest of a large file of events under four definitions from 1, 2 and 4 lanes, and reading the same payloads
# alone, as trees and with the reader that ingest has, in the same runs. Of each the best round counts, by elapsed time.
#
# usage: bench/ingest.sh [BYTES]        (67108864 bytes where none are given, and no more)
#
# It needs python3. `make bench_ingest` proves and builds the program first, and then runs this.
set -euo pipefail
cd "$(dirname "$0")"
. ./measure.sh
program=${PROGRAM:-../crates/bench/out/bench}
[ -x "$program" ] || { echo "bench: $program is missing: run 'make bench_ingest' first" >&2; exit 1; }
file=$(events "${1:-67108864}")

rm -f data/ingest.runs
for _ in 1 2 3; do
  lanes ingest "$program" ingest "$file"
done

# all bytes were stored and read in every round
awk '$6 != bytes && NR > 1 { exit 1 } { bytes = $6 }' data/ingest.runs ||
  { echo "bench: a lane stopped before its last payload, see bench/data/ingest.runs" >&2; exit 1; }

echo "$(machine), $(awk '{ print $6; exit }' data/ingest.runs) bytes of payloads, best of 9 rounds"
for count in 1 2 4; do
  awk -v lanes="$count" -v ingest="$(least ingest ingest "$count")" -v read="$(least ingest read "$count")" \
    -v tree="$(least ingest parse "$count")" 'BEGIN { if (ingest) printf "%d lanes: ingest %.0f MB/s, " \
    "reading alone %.0f MB/s (ratio %.2f), as trees %.0f MB/s\n", lanes, 1000 / ingest, 1000 / read, read / ingest, 1000 / tree }'
done
