# What the benchmarks of whole programs share; the scripts of this folder read it in.

# one run's seconds of processor time, and its peak in KiB, added to a file
measure() {
  local name=$1
  shift
  /usr/bin/time -o data/time -f '%U %S %M' taskset -c 0 "$@" > "data/$name.out"
  awk '{ print $1 + $2, $3 }' data/time >> "data/$name.runs"
}

# the least seconds and the most KiB
best() {
  sort -n "data/$1.runs" | awk 'NR == 1 { least = $1 } $2 > most { most = $2 } END { print least, most }'
}

# a program that writes a line on standard error for each work with so many lanes, added to a file: what it does with
# one lane counts where it runs on the last core, the rest where it runs on all. It has real-time priority where that is
# allowed, so that other work on the machine waits.
lanes() {
  local name=$1 first=
  shift
  chrt -f 10 true 2> /dev/null && first="chrt -f 10"
  taskset -c "$(($(nproc) - 1))" $first "$@" 2>&1 > /dev/null | grep ' 1 lanes ' >> "data/$name.runs"
  [ "$(nproc)" -gt 1 ] || return 0
  $first "$@" 2>&1 > /dev/null | grep -v ' 1 lanes ' >> "data/$name.runs" || true
}

# the least nanoseconds of one thing that is done, over all runs of a work with so many lanes
least() {
  awk -v work="$2" -v lanes="$3" '
    $1 == work && $2 == lanes && $6 > 0 { each = $4 / $6; if (!least || each < least) least = each }
    END { print least }' "data/$1.runs"
}

# the machine, in one line
machine() {
  local model
  model=$(awk -F: '/model name/ { print $2; exit }' /proc/cpuinfo | sed 's/^ *//')
  echo "$(nproc) cores, $model, load $(cut -d' ' -f1 /proc/loadavg)"
}

# a file of events of so many bytes
events() {
  command -v python3 > /dev/null || { echo "bench: python3 is missing: apt-get install python3" >&2; exit 1; }
  mkdir -p data
  [ -f "data/events-$1.jsonl" ] || python3 events.py "$1" > "data/events-$1.jsonl"
  echo "data/events-$1.jsonl"
}

# a program of rust/ over Debian's serde_json, or nothing where that or cargo is missing
rust_program() {
  if ! ls -d /usr/share/cargo/registry/serde_json-* > /dev/null 2>&1 || ! command -v cargo > /dev/null; then
    echo "bench: librust-serde-json-dev or cargo is missing, so the Rust program is left out" >&2
    return 0
  fi
  mkdir -p data/cargo
  printf '[source.crates-io]\nreplace-with = "debian"\n[source.debian]\ndirectory = "/usr/share/cargo/registry"\n' \
    > data/cargo/config.toml
  if CARGO_HOME=$PWD/data/cargo cargo build --quiet --offline --release --manifest-path rust/Cargo.toml \
    --target-dir data/target 2> data/cargo.log; then
    echo "data/target/release/$1"
  else
    echo "bench: the Rust program doesn't build, see bench/data/cargo.log" >&2
  fi
}
