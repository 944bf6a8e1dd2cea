#!/usr/bin/env bash
# Measures what a hundred registrations cost three and four lanes that ingest a large file of events: in one run, ingest
# beside a control pass that does nothing, and beside one that registers and ends a definition a hundred times, by
# elapsed time.
#
# usage: bench/registrations.sh [BYTES]        (67108864 bytes where none are given, and no more)
#
# It needs python3. `make bench_registrations` proves and builds the program first, and then runs this.
set -euo pipefail
cd "$(dirname "$0")"
. ./measure.sh
program=${PROGRAM:-../crates/bench/out/bench}
[ -x "$program" ] || { echo "bench: $program is missing: run 'make bench_registrations' first" >&2; exit 1; }
file=$(events "${1:-67108864}")
rm -f data/registrations.runs

# three lanes and the control pass, with real-time priority where that is allowed
first=
chrt -f 10 true 2> /dev/null && first="chrt -f 10"
for _ in $(seq 10); do
  $first "$program" registrations "$file" 2>&1 > /dev/null | grep ' 3 lanes ' >> data/registrations.runs
done

# With four lanes the control pass would then wait until one of them is done, where there are four cores. So the program
# has a session of its own here, which has the most of the common priority where that is allowed.
for _ in $(seq 10); do
  setsid -w bash -c '{ echo -20 > /proc/self/autogroup; } 2> /dev/null; exec "$@"' bash \
    "$program" registrations "$file" 2>&1 > /dev/null | grep ' 4 lanes ' >> data/registrations.runs
done

# all bytes were stored in every round
awk '$6 != bytes && NR > 1 { exit 1 } { bytes = $6 }' data/registrations.runs ||
  { echo "bench: a lane stopped before its last payload, see bench/data/registrations.runs" >&2; exit 1; }

# the middle one of the nanoseconds of a work with so many lanes
middle() {
  awk -v work="$1" -v lanes="$2" '$1 == work && $2 == lanes { print $4 / $6 }' data/registrations.runs | sort -n |
    awk '{ each[NR] = $1 } END { print each[int((NR + 1) / 2)] }'
}

echo "$(machine), $(awk '{ print $6; exit }' data/registrations.runs) bytes of payloads, 30 rounds each"
for count in 3 4; do
  for kind in best middle; do
    if [ "$kind" = best ]; then
      steady=$(least registrations steady "$count") changing=$(least registrations changing "$count")
    else
      steady=$(middle steady "$count") changing=$(middle changing "$count")
    fi
    awk -v lanes="$count" -v kind="$kind" -v steady="$steady" -v changing="$changing" 'BEGIN { printf "%d lanes, %s round: %.0f MB/s, " \
      "while definitions come and go %.0f MB/s (%.3f of it)\n", lanes, kind, 1000 / steady, 1000 / changing, steady / changing }'
  done
done
