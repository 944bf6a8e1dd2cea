#!/usr/bin/env bash
# Times `fishstore run` on a large file of events with four definitions beside sqlite3 with four indexed columns and beside
# a plain Rust program over `serde_json` that keeps a map of positions, all in one run on one core, by processor time:
# ingest in MB a second, one scan in milliseconds, peak memory. Each `run` makes a new store in data/ and ends with its
# checkpoint. Then it times a block of four lanes beside one lane.
#
# usage: [PAGES=128] [RUNS=3] bench/run.sh [BYTES]        (67108864 bytes where none are given)
#
# It needs Debian's packages python3, time and util-linux; sqlite3, and librust-serde-json-dev with cargo for the Rust program,
# which are left out with a note where they are missing. `make build` makes the program first.
set -euo pipefail
cd "$(dirname "$0")"
. ./measure.sh
program=${PROGRAM:-../crates/fishstore/out/fishstore}
runs=${RUNS:-3}
scans=20
[ -x "$program" ] || { echo "bench: $program is missing: run 'make build' first" >&2; exit 1; }
file=$(events "${1:-67108864}")
size=$(stat -c %s "$file")
store="data/store --pages ${PAGES:-128} --bits 16"

definitions() {
  printf 'register type as take type\nregister login as take actor.login\n'
  printf 'register push as flag when type = "PushEvent" and public = true\nregister size as bucket payload.size by 10\n'
}
{ definitions; echo "ingest json $file"; } > data/ingest.fish
{ cat data/ingest.fish; for _ in $(seq $scans); do echo 'scan type = "ReleaseEvent"'; done; } > data/scan.fish

# the same four subsets as columns, which the shell fills from the text of each line
{
  echo "PRAGMA journal_mode = OFF;"
  echo "CREATE TABLE lines (payload TEXT);"
  echo ".mode ascii"
  printf '.separator "\\037" "\\n"\n.import %s lines\n' "$file"
  cat <<'SQL'
CREATE TABLE events AS SELECT rowid - 1 AS number, payload,
  payload ->> '$.type' AS type,
  payload ->> '$.actor.login' AS login,
  CASE WHEN payload ->> '$.type' = 'PushEvent' AND payload ->> '$.public' = 1 THEN 1 END AS push,
  (payload ->> '$.payload.size') / 10 * 10 AS size
  FROM lines;
CREATE INDEX by_type ON events (type, number);
CREATE INDEX by_login ON events (login, number);
CREATE INDEX by_push ON events (push, number) WHERE push IS NOT NULL;
CREATE INDEX by_size ON events (size, number) WHERE size IS NOT NULL;
.mode list
SQL
} > data/ingest.sql
{
  cat data/ingest.sql
  for _ in $(seq $scans); do
    echo "SELECT number, length(payload), payload FROM events WHERE type = 'ReleaseEvent' ORDER BY number DESC;"
  done
} > data/scan.sql

baseline=$(rust_program positions)
sqlite=$(command -v sqlite3 || true)
[ -n "$sqlite" ] || echo "bench: sqlite3 is missing, so it is left out" >&2

rm -f data/*-ingest.runs data/*-scan.runs data/lanes*.runs
for _ in $(seq "$runs"); do
  rm -f data/store
  measure ours-ingest "$program" run $store data/ingest.fish
  rm -f data/store
  measure ours-scan "$program" run $store data/scan.fish
  [ -z "$sqlite" ] || measure sqlite-ingest "$sqlite" :memory: < data/ingest.sql
  [ -z "$sqlite" ] || measure sqlite-scan "$sqlite" :memory: < data/scan.sql
  [ -z "$baseline" ] || measure rust-ingest "$baseline" "$file" 0 '"ReleaseEvent"' 0
  [ -z "$baseline" ] || measure rust-scan "$baseline" "$file" 0 '"ReleaseEvent"' $scans
done

# what a program took for the file, and for one scan
tell() {
  local each kib more
  [ -f "data/$1-ingest.runs" ] || return 0
  read -r each kib <<< "$(best "$1-ingest")"
  read -r more _ <<< "$(best "$1-scan")"
  awk -v name="$2" -v bytes="$size" -v each="$each" -v more="$more" -v scans=$scans -v kib="$kib" 'BEGIN {
    printf "%s: ingest %.0f MB/s (%.2f s), a scan %.1f ms, %.0f MiB\n", name, bytes / each / 1e6, each, (more - each) * 1000 / scans, kib / 1024 }'
}
echo "$(machine), $size bytes, four subsets, best of $runs runs on one core"
tell ours "fishstore run"
tell sqlite "sqlite3 in memory"
tell rust "serde_json with maps"

# a block of four lanes, each with a quarter of the file, beside one lane with all of it, by elapsed time
split -n l/4 -d -a 1 "$file" data/quarter-
{ definitions; echo lanes; for i in 0 1 2 3; do printf 'lane\ningest json data/quarter-%s\n' $i; done; echo end; } > data/lanes.fish
elapsed() {
  local name=$1
  shift
  /usr/bin/time -o data/time -f '%e %M' "$@" > /dev/null
  cat data/time >> "data/$name.runs"
}
for _ in $(seq "$runs"); do
  rm -f data/store
  elapsed lanes1 "$program" run $store data/ingest.fish
  rm -f data/store
  elapsed lanes4 "$program" run $store data/lanes.fish
done
read -r one _ <<< "$(best lanes1)"
read -r four _ <<< "$(best lanes4)"
echo "four lanes $four s, one lane $one s: $(awk -v a="$one" -v b="$four" 'BEGIN { printf "%.2f", a / b }') times as fast"
