#!/usr/bin/env bash
# Measures ingest of a large file of events beside two programs of this folder that have no proofs: one that reads with
# simdjson and stores as `ingest` does, and one that puts the same records and values into LMDB. All three run in turn,
# in one session. Of each the best round counts, by elapsed time.
#
# usage: bench/peers.sh [BYTES]        (67108864 bytes where none are given, and no more)
#
# It needs python3, g++ and Debian's libsimdjson-dev and liblmdb-dev; where a library is missing, its program is left
# out. `make bench_peers` proves and builds our program first, and then runs this.
set -euo pipefail
cd "$(dirname "$0")"
. ./measure.sh
program=${PROGRAM:-../crates/bench/out/bench}
[ -x "$program" ] || { echo "bench: $program is missing: run 'make bench_peers' first" >&2; exit 1; }
file=$(events "${1:-67108864}")

# whether a program of peers/ builds with these libraries
build() {
  local name=$1
  shift
  g++ -O2 -std=c++17 -pthread -o "data/peer-$name" "peers/$name.cpp" "$@" 2> "data/peer-$name.log" ||
    { echo "bench: peers/$name.cpp doesn't build, so it is left out (see bench/data/peer-$name.log)" >&2; return 1; }
}
command -v g++ > /dev/null || echo "bench: g++ is missing: apt-get install g++ libsimdjson-dev liblmdb-dev" >&2
simdjson=yes lmdb=yes
build simdjson -lsimdjson || simdjson=
build lmdb -lsimdjson -llmdb || lmdb=

rm -f data/ingest.runs data/peer-*.runs
for _ in 1 2 3; do
  lanes ingest "$program" ingest "$file"
  [ -z "$simdjson" ] || lanes peer-simdjson data/peer-simdjson "$file" 3
  [ -z "$lmdb" ] || lanes peer-lmdb data/peer-lmdb "$file" 2
done

# what a work does with so many lanes, in MB of payloads a second
speed() {
  awk -v each="$(least "$1" "$2" "$3")" 'BEGIN { if (each) printf "%.0f MB/s", 1000 / each; else printf "-" }'
}

echo "$(machine), $(awk '{ print $6; exit }' data/ingest.runs) bytes of payloads, best of 9 rounds (LMDB: of 6)"
for count in 1 2 4; do
  echo "$count lanes: ingest $(speed ingest ingest "$count"), reading alone $(speed ingest read "$count"), as trees" \
    "$(speed ingest parse "$count")"
  [ -z "$simdjson" ] || echo "$count lanes: simdjson with the same stores $(speed peer-simdjson ingest "$count")," \
    "reading alone $(speed peer-simdjson parse "$count")"
done
[ -z "$lmdb" ] || echo "1 lane: LMDB $(speed peer-lmdb lmdb 1)"
