# What can be made here; `make help` lists it. `make test` is the gate.
.PHONY: help demo test checks oracle stored bench lib rust
SEEDS ?= 1 2 3 4 5
LINES ?= 70000

help:
	@echo 'make demo    prove what the demonstration needs, then seal, open and refuse a batch of readings'
	@echo 'make test    the gate: promises, imports; then everything proved from nothing, every wrong program tried, every program run'
	@echo 'make oracle  compare the proved program with the original Rust crate on random transcripts (SEEDS, LINES)'
	@echo 'make stored  make the stored transcript and its answers anew'
	@echo 'make bench   time the library, through the drop-in crate, beside the original Rust crate: tables, and docs/benchmarks.svg'
	@echo 'make lib     the archive for C and Rust: target/staticlib/libcapi.a'
	@echo 'make rust    the drop-in crate beside the original (CALLS, SEEDS), its examples, and the C program under valgrind'

demo:
	@mkdir -p target
	@echo 'proving what the demonstration needs: some minutes the first time'
	@cd crates/demo && rt run 2> ../../target/demo.log || { cat ../../target/demo.log; exit 1; }

checks:
	python3 tools/promises.py
	python3 tools/imports.py
	python3 tools/seams.py

# The verdict is that of `rt ci`, whose last line is 'N passed, M failed'; it also refuses what `rt fmt` has not laid out.
test: checks
	@tools/gate.sh

oracle:
	rust/oracle/build.sh
	cd crates/replay && rt run < /dev/null
	LINES=25000 KINDS=x tools/oracle.sh crates/replay/out/replay $(SEEDS)
	LINES=$(LINES) KINDS=all tools/oracle.sh crates/replay/out/replay $(SEEDS)

stored:
	rust/oracle/build.sh
	python3 tools/transcripts.py stored all crates/replay/stdin crates/replay/stdout

lib:
	cd crates/capi_c && rt lib
	@mkdir -p target/staticlib
	cp crates/capi_c/out/libcapi_c.a target/staticlib/libcapi.a

bench: lib
	rust/bench/build.sh
	target/bench/bench --plot docs/benchmarks.svg
	rust/bench/counts.sh

rust: lib
	rust/test.sh
