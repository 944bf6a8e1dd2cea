#!/usr/bin/env bash
# Measures a store that is opened again: the opening beside the reading of its payloads alone, full scans of its records, all of
# which are in the file, beside the selection of the same payloads in memory, rows that the index gives from pages that are held,
# and how often a full scan reads the file.
#
# usage: bench/older.sh [BYTES [FOLDER [RUNS]]]
#        (67108864 bytes where none are given, and no more; a folder for the store, which doesn't stay; 3 runs of 3 rounds)
#
# It needs python3. `make bench_older` proves and builds the program first, and then runs this.
set -euo pipefail
cd "$(dirname "$0")"
. ./measure.sh
program=${PROGRAM:-../crates/bench/out/bench}
[ -x "$program" ] || { echo "bench: $program is missing: run 'make bench_older' first" >&2; exit 1; }
file=$(events "${1:-67108864}")
folder=$(mktemp -d -p "${2:-data}")
trap 'rm -r "$folder"' EXIT

# on one core, with real-time priority where that is allowed, so that other work on the machine waits
first="taskset -c $(($(nproc) - 1))"
chrt -f 10 true 2> /dev/null && first="$first chrt -f 10"

rm -f data/older.runs
for _ in $(seq "${3:-3}"); do
  $first "$program" older "$file" "$folder/store" 2>> data/older.runs
  rm "$folder/store"
done
awk '$6 == 0 { print "bench: " $1 " did nothing" > "/dev/stderr"; exit 1 }' data/older.runs

# the least and the middle nanoseconds of one thing that is done by a work
times() {
  awk -v work="$1" '$1 == work { print $4 / $6 }' data/older.runs | sort -n |
    awk '{ each[NR] = $1 } END { print each[1], each[int((NR + 1) / 2)] }'
}

# the middle of the ratios of two works, round by round
ratio() {
  awk -v ours="$1" -v plain="$2" '$1 == ours { o = $4 } $1 == plain { print $4 / o }' data/older.runs | sort -n |
    awk '{ each[NR] = $1 } END { printf "%.2f (%.2f to %.2f)", each[int((NR + 1) / 2)], each[1], each[NR] }'
}

# two works over the same bytes
compare() {
  local best middle other_best other_middle
  read -r best middle <<< "$(times "$2")"
  read -r other_best other_middle <<< "$(times "$4")"
  awk -v name="$1" -v other="$3" -v b="$best" -v m="$middle" -v ob="$other_best" -v om="$other_middle" \
    -v r="$(ratio "$2" "$4")" 'BEGIN {
    printf "%s: %.0f and %.0f MB/s, %s: %.0f and %.0f MB/s, speed against it %s\n",
      name, 1000 / b, 1000 / m, other, 1000 / ob, 1000 / om, r }'
}

pages=$(awk '$1 == "checkpoint" { print int(($6 + 1048575) / 1048576); exit }' data/older.runs)
echo "$(machine), a store of $pages pages in $(df --output=fstype "$folder" | tail -1), best and middle of the rounds"
compare "an opening" open "its payloads read alone" payloads
compare "a full scan, 1 in 100" older "selection in memory" select
compare "a full scan, 1 in 2" older_half "selection in memory" select_half
echo "a row that the index gives, 1 in 100: $(times row) ns, 1 in 2: $(times row_half) ns"
echo "reads of the file by a full scan: $(awk '$1 == "reads" || $1 == "reads_half" { print $6 }' data/older.runs | sort -n | uniq | paste -sd ' ')"
