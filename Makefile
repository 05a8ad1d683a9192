# make run      an appliance in small: diallers over the proved table, in seconds once the library is proved
# make test     the gate: every crate proved, every must-fail edit refused, every program run (rt ci), and the library from
#               C and Rust (make native)
# make native   the library proved, linked and called from C and Rust, and the Rust original beside it
# make archive  target/native/libeidrovang.a, to be linked with include/eidrovang.h
# make kernel   the archive for a kernel, in target/native/kernel/: no vector registers, no red zone (docs/HOST.md); then the same tests
# make c-test   the library called from C
# make oracle   the whole comparison with the Rust original, in minutes
# make bench    times the library beside memcpy and the Rust original (docs/BENCH.md)
# make edits    the wrong programs that are not in the gate: each must be refused
# make fmt      lay the sources out
#
# All that is needed is Rattle's kit, whose command `rt` is on the PATH; C and Rust are called only where a compiler
# is to be had.

SEED ?= 1
# --proved from the gate: what rt ci has just proved is not proved again
PROVED ?=
ARCHIVE = target/native/libeidrovang.a

.PHONY: run tour test native archive kernel c-test oracle bench edits fmt kit

run: kit
	@if command -v cargo >/dev/null; then $(MAKE) --no-print-directory $(ARCHIVE) && \
	EIDROVANG_LIB_DIR=$$PWD/target/native cargo run --quiet --release --offline --manifest-path host/Cargo.toml --target-dir host/target --example appliance -- $(SEED); \
	else echo "there is no cargo: the tour of addresses instead of the appliance"; $(MAKE) --no-print-directory tour; fi

tour: kit
	@echo "proving and building tour (a minute or two the first time) .."
	@mkdir -p target && cd crates/tour && rt run 2>../../target/run.log || { tail -n 20 ../../target/run.log; exit 1; }

test: kit
	@.ci/run

native: archive c-test
	@scripts/oracle-tests
	@scripts/host-tests

archive: kit
	@echo "proving the library and building it for this machine (minutes, where it is not proved yet) .."
	@scripts/native-archive $(PROVED) eidrovang $(ARCHIVE)

$(ARCHIVE):
	@$(MAKE) --no-print-directory archive

kernel: kit
	@echo "proving the library and building it for a kernel on this machine (minutes, where it is not proved yet) .."
	@scripts/native-archive --kernel eidrovang target/native/kernel/libeidrovang.a
	@$(MAKE) --no-print-directory c-test ARCHIVE=target/native/kernel/libeidrovang.a
	@EIDROVANG_LIB_DIR=target/native/kernel scripts/host-tests

c-test: $(ARCHIVE)
	@command -v $(CC) >/dev/null || { echo "c-test: passed over, there is no C compiler ($(CC))"; exit 0; }; \
	for t in tests/c/*.c; do \
	    $(CC) -std=c11 -Wall -Wextra -Wpedantic -Werror -O2 -Iinclude $$t $(ARCHIVE) -o $(dir $(ARCHIVE))$$(basename $$t .c) && \
	    $(dir $(ARCHIVE))$$(basename $$t .c) || exit 1; \
	done

oracle: $(ARCHIVE)
	@scripts/oracle-all

bench: archive
	@command -v cargo >/dev/null || { echo "bench: passed over, there is no cargo"; exit 0; }; \
	scripts/native-archive bench_exports target/native/libbench_exports.a && \
	EIDROVANG_LIB_DIR=$$PWD/target/native cargo run --quiet --release --offline --manifest-path bench/Cargo.toml --target-dir target/bench

edits: kit
	@scripts/more-edits

fmt: kit
	@for crate in crates/*; do (cd $$crate && rt fmt) || exit 1; done

kit:
	@command -v rt >/dev/null || { echo "Rattle's kit is not installed: no command 'rt' on the PATH" >&2; exit 1; }
