#!/usr/bin/env bash
# Measures the log: stores of 1 KB from 1, 2 and 4 lanes beside a plain C++ loop of sequentially consistent stores to an
# array, run in turn; key entries linked from 1 and 4 lanes; entries walked down one chain. Of each the best run counts.
#
# usage: bench/log.sh
#
# It needs g++. `make bench_log` proves and builds the program first, and then runs this.
set -euo pipefail
cd "$(dirname "$0")"
. ./measure.sh
program=${PROGRAM:-../crates/bench/out/bench}
command -v g++ >/dev/null || { echo "bench: g++ is missing: apt-get install g++" >&2; exit 1; }
[ -x "$program" ] || { echo "bench: $program is missing: run 'make bench_log' first" >&2; exit 1; }

mkdir -p data
g++ -O2 -pthread -o data/plain log/plain.cpp
rm -f data/log.runs data/plain.runs
for _ in 1 2 3; do
  lanes log "$program" log
  lanes plain data/plain
done

# the stores of 1 KB
stores() {
  awk -v lanes="$1" -v ours="$(least log stores "$1")" -v plain="$(least plain stores "$1")" 'BEGIN {
    printf "stores of 1 KB, %d lanes: %.2f GB/s, plain loop %.2f GB/s, ratio %.2f\n",
      lanes, 1024 / ours, 1024 / plain, plain / ours }'
}

# the records of 3 lines without entries
plain() {
  awk -v lanes="$1" -v ours="$(least log plain "$1")" 'BEGIN {
    printf "records without entries, %d lanes: %.2f million/s, %.0f ns a record\n", lanes, 1000 / ours, ours }'
}

# the same with two entries, into so many buckets
links() {
  awk -v lanes="$1" -v buckets="$3" -v ours="$(least log "$2" "$1")" -v plain="$(least log plain "$1")" 'BEGIN {
    printf "entries linked, %d buckets, %d lanes: %.2f million/s, %.0f ns a record, an entry adds %.0f ns\n",
      buckets, lanes, 2000 / ours, ours, (ours - plain) / 2 }'
}

echo "$(machine), best of 9 runs"
for count in 1 2 4; do stores "$count"; done
for count in 1 4; do
  plain "$count"
  links "$count" few 16
  links "$count" many 65536
done
awk -v ours="$(least log walk 1)" 'BEGIN {
  printf "entries walked: %.1f million/s, %.1f ns an entry\n", 1000 / ours, ours }'
