# `rt`, the command of the Rattle kit, has to be on the PATH; for lib, test and bench also cc, for the last two cargo, for bench objcopy.
.PHONY: run test lib bench-lib bench-aligned bench bench-store

TAPE = samples/game.tap

# where the library for C is put: include/crumbthistle.h and lib/libcrumbthistle.a
LIB = target/crumbthistle

run: # prove and build the listing program, then list a tape: make run TAPE=FILE
	@mkdir -p target/bin
	@(cd crates/tape_list && rt run < /dev/null) > target/run.log 2>&1 || { tail -n 40 target/run.log; exit 1; }
	@cp crates/tape_list/out/tape_list target/bin/
	@target/bin/tape_list < "$(TAPE)"

test: # prove everything, try the edits that must be refused, run every program; then the tests beside the proofs
	@tests/run

lib: # prove and build the library for C
	@mkdir -p target/staticlib
	@(cd crates/capi && rt lib) > target/lib.log 2>&1 || { tail -n 40 target/lib.log; exit 1; }
	@cp crates/capi/out/libcapi.a target/staticlib/
	@mkdir -p "$(LIB)/include" "$(LIB)/lib"
	@cp include/crumbthistle.h "$(LIB)/include/"
	@cp target/staticlib/libcapi.a "$(LIB)/lib/libcrumbthistle.a"
	@echo "cc -I$(LIB)/include PROGRAM.c -L$(LIB)/lib -lcrumbthistle"

bench-lib: # prove and build the archive of the crate bench, which the Rust tests link too
	@mkdir -p target/staticlib
	@(cd crates/bench && rt lib) > target/bench-lib.log 2>&1 || { tail -n 40 target/bench-lib.log; exit 1; }
	@cp crates/bench/out/libbench.a target/staticlib/

# both archives for the bench, with every function at a multiple of 64 bytes, as those of the Rust implementation are
ALIGNED = target/aligned

bench-aligned: lib bench-lib
	@mkdir -p "$(ALIGNED)"
	@for name in capi bench; do \
	    objcopy -w --set-section-alignment '.text.*=64' "target/staticlib/lib$$name.a" "$(ALIGNED)/lib$$name.a" || exit 1; \
	done

BENCH = CRUMBTHISTLE_LIB="$(CURDIR)/$(ALIGNED)" cargo run --release --offline --quiet --bin bench --

bench: bench-aligned # our library and an independent Rust implementation side by side, and beside the stored ratios
	@cd tests/differential && $(BENCH)

bench-store: bench-aligned # the same, and its ratios are stored
	@cd tests/differential && $(BENCH) --store
