# FishStore, with the Rattle kit's `rt` on the path.
PREFIX ?= /usr/local
# How many crates are checked or tried at once. Each takes 1 to 4 GB.
JOBS ?= $(shell n=$$(nproc); [ $$n -lt 4 ] && echo $$n || echo 4)
PROGRAM = crates/fishstore/out/fishstore
BENCHMARKS = crates/bench/out/bench
TESTS := $(shell sed -n 's/^\(tests_[a-z]*\).*:.*/\1/p' crates.txt)
CRATES := $(shell sed -n 's/^\(fish[a-z_]*\).*:.*/\1/p' crates.txt)
# A variable as one word of the shell, with no name in it expanded: `take $2` stays so.
WORD = '$(subst ','\'',$(value $(1)))'
FILES = $(shell find $(1) -name out -prune -o \( -path '*/src/*' -o -path '*/specs/*' -o -path '*/proofs/*' \) -type f -print)
SOURCES := crates.txt $(call FILES,crates/fish*)

.PHONY: demo build test try quick hostile faults rolls soak edits gate install bench bench_run bench_log bench_ingest bench_registrations bench_scans bench_peers bench_checkpoints bench_older clean

# Runs `select` and `run` on the examples, built with no proof. With FILE, DEF and VALUE it is a `select` on a file of one's
# own (and FORM=csv), with SCRIPT a `run` of a script of one's own.
demo:
ifdef SCRIPT
	@tools/demo run $(call WORD,SCRIPT)
else ifdef FILE
	@tools/demo select $(call WORD,DEF) $(call WORD,VALUE) $(call WORD,FILE) $(if $(FORM),--form $(call WORD,FORM))
else
	@tools/demo
endif

# Proves the program and all below it, with crates side by side, and builds it; again where a source has changed. What a crate has
# passed is kept on the machine.
build: $(PROGRAM)

$(PROGRAM): $(SOURCES)
	tools/prove fishstore

# Proves every crate but the benchmarks, and the tests, runs these, and runs the program over the cases.
test:
	tools/prove fishstore $(TESTS)
	tools/cases cases/*.txt README.md

# Runs the program on files that are none, long files, closed outputs, full disks, little memory and damaged stores.
hostile: build
	tools/hostile

# Has each call of a run fail in turn, cuts stores, and tries limits: tools/hostility/faults.py is the table.
faults: build
	tools/faults

# Fills TABLES tables of one page from sixteen lanes, and compares each scan with a plain filter.
rolls: build
	tools/rolls $(TABLES)

# Runs random scripts of four lanes with kills, for SECONDS and from SEED, and compares each scan with a plain filter.
soak: build
	tools/soak $(or $(SECONDS),600) $(SEED)

# Runs all tests with no proof.
try:
	for crate in $(TESTS); do (cd crates/$$crate && rt try --test --seconds 120) || exit 1; done

# Formats every crate, and makes the checks that need neither a proof nor the program.
quick:
	tools/quick

# Tries every wrong body of every crate: each has to be refused. And no function may be dear to check.
edits:
	rt all check --jobs $(JOBS)
	tools/generated
	tools/edits --jobs $(JOBS) $(CRATES)

# The merge gate: every proof, the must-fail edits, the programs, the tests and the cases.
gate:
	bash .ci/run

install: build
	install -D -m 755 $(PROGRAM) $(DESTDIR)$(PREFIX)/bin/fishstore
	install -D -m 644 docs/fishstore.1 $(DESTDIR)$(PREFIX)/share/man/man1/fishstore.1

# Times the program beside jq and a plain Rust program.
bench: build
	bench/select.sh

# Times `run` on a large file of events beside sqlite3 and a plain Rust program, and four lanes beside one.
bench_run: build
	bench/run.sh

# The program of the seven benchmarks below, proved.
$(BENCHMARKS): $(SOURCES) $(call FILES,crates/bench)
	tools/prove bench

# Times the log: stores beside a plain C++ loop, linked key entries, and walks.
bench_log: $(BENCHMARKS)
	bench/log.sh

# Times ingest of events beside reading them alone.
bench_ingest: $(BENCHMARKS)
	bench/ingest.sh

# Times ingest of events while definitions are registered and ended, beside the same without.
bench_registrations: $(BENCHMARKS)
	bench/registrations.sh

# Times scans by an index, and full ones beside the selection of the same records in memory.
bench_scans: $(BENCHMARKS)
	bench/scans.sh

# Times ingest of events beside simdjson by hand and LMDB, where they are installed.
bench_peers: $(BENCHMARKS)
	bench/peers.sh

# Times checkpoints of a log of events beside a plain C program that writes the same bytes with the same syncs.
bench_checkpoints: $(BENCHMARKS)
	bench/checkpoints.sh

# Times a store that is opened again: the opening, and scans of its records in the file.
bench_older: $(BENCHMARKS)
	bench/older.sh

clean:
	rm -rf crates/*/out bench/data
