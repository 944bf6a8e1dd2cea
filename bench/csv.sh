#!/usr/bin/env bash
# Times the plain program over Rust's `csv` crate on a large file of rows: it reads each row and writes it back.
# Where another program is named that does the same, it is timed beside it, and the outputs are compared.
#
# usage: bench/csv.sh [BYTES [PROGRAM]]        (67000000 bytes where none are given)
#
# It needs Debian's packages python3, time, util-linux and librust-csv-dev, and cargo.
set -euo pipefail
other=${2:+$(realpath "$2")}
cd "$(dirname "$0")"
. ./measure.sh
size=${1:-67000000}
runs=5
plain=data/target/release/csv-baseline

mkdir -p data/cargo
printf '[source.crates-io]\nreplace-with = "debian"\n[source.debian]\ndirectory = "/usr/share/cargo/registry"\n' \
  > data/cargo/config.toml
CARGO_HOME=$PWD/data/cargo cargo build --quiet --offline --release --manifest-path csv/Cargo.toml \
  --target-dir data/target

for kind in some all; do
  file=data/rows-$size-$kind.csv
  [ -f "$file" ] || python3 rows.py "$size" "$kind" > "$file"
  rm -f data/plain.runs data/other.runs
  for _ in $(seq $runs); do
    measure plain "$plain" "$file"
    [ -z "$other" ] || measure other "$other" "$file"
  done
  read -r theirs memory <<< "$(best plain)"
  echo "quotes in $kind rows, $(stat -c %s "$file") bytes, best of $runs runs on one core"
  echo "  csv 1: $theirs s of processor time, $memory KiB"
  if [ -n "$other" ]; then
    cmp data/plain.out data/other.out
    read -r ours memory <<< "$(best other)"
    speed=$(awk -v a="$theirs" -v b="$ours" 'BEGIN { printf "%.2f", a / b }')
    echo "  $(basename "$other"): $ours s of processor time, $memory KiB, $speed of its speed"
  fi
done
