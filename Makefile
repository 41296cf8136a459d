# make run              the program on an example roll, and what it made
# make test             the gate
# make lib              the static library, target/staticlib/libtsm.a (proved again each time)
# make test-interface   the C and Rust faces of the library, and the examples
# make bench            speed, instructions and stack of the library beside ordinary Rust: target/bench.md and .svg
# make bench-docs       the same, put into docs/BENCHMARKS.md
# make install          library, headers, pkg-config file and, where it is built, the program, below DESTDIR and PREFIX
# make uninstall        removes what install put there
.PHONY: run test lib test-interface bench bench-docs install uninstall

VERSION = 0.4.0
PREFIX = /usr/local
DESTDIR =
ARCHIVE = target/staticlib/libtsm.a
PROGRAM = target/bin/roll_to_tsm

run: $(ARCHIVE)
	@sh .ci/tools cargo gcc
	@sh .ci/built roll_to_tsm >target/run.log 2>&1 || { cat target/run.log; exit 1; }
	@echo "a roll, examples/booleans.roll:"
	@od -A d -t x1 examples/booleans.roll
	@$(PROGRAM) <examples/booleans.roll >target/booleans.tsm
	@echo "its file, as the proved program writes it:"
	@od -A d -t x1 target/booleans.tsm
	@cmp target/booleans.tsm examples/booleans.tsm && echo "it is examples/booleans.tsm, byte for byte"
	@echo "the file, checked by the library:"
	@cargo run --offline --quiet --manifest-path examples/rust/Cargo.toml -- target/booleans.tsm
	@echo "a roll that is cut short is refused by its number:"
	@head -c 5 examples/booleans.roll | $(PROGRAM)

test:
	bash .ci/run

lib:
	sh .ci/built tsm

# Built where it is missing.
$(ARCHIVE):
	@echo "proving and building the library (some minutes the first time)"
	@mkdir -p target && sh .ci/built tsm >target/lib.log 2>&1 || { cat target/lib.log; exit 1; }

test-interface: $(ARCHIVE)
	tests/c/run
	tests/bindings/run

# The archives are built again, so that what is measured is what stands here.
bench: lib
	sh .ci/built bench_booleans
	@sh .ci/tools cargo gcc valgrind
	cargo build --offline --quiet --release --manifest-path bench/Cargo.toml
	bench/target/release/tsm_bench --plot target/bench.svg >target/bench.md
	@cat target/bench.md

bench-docs: bench
	sed -i -e '/^<!-- measured -->/,/^<!-- end -->/{//!d}' -e '/^<!-- measured -->/r target/bench.md' docs/BENCHMARKS.md
	cp target/bench.svg docs/benchmarks.svg

install: $(ARCHIVE)
	install -d "$(DESTDIR)$(PREFIX)/lib/pkgconfig" "$(DESTDIR)$(PREFIX)/include"
	install -m 644 $(ARCHIVE) "$(DESTDIR)$(PREFIX)/lib/libtsm.a"
	install -m 644 include/tsm.h include/tsm_roll.h "$(DESTDIR)$(PREFIX)/include"
	sed -e 's|@PREFIX@|$(PREFIX)|' -e 's|@VERSION@|$(VERSION)|' tsm.pc.in > "$(DESTDIR)$(PREFIX)/lib/pkgconfig/tsm.pc"
	chmod 644 "$(DESTDIR)$(PREFIX)/lib/pkgconfig/tsm.pc"
	if [ -f $(PROGRAM) ]; then install -d "$(DESTDIR)$(PREFIX)/bin" && install -m 755 $(PROGRAM) "$(DESTDIR)$(PREFIX)/bin/roll_to_tsm"; fi

uninstall:
	rm -f "$(DESTDIR)$(PREFIX)/lib/libtsm.a" "$(DESTDIR)$(PREFIX)/include/tsm.h" "$(DESTDIR)$(PREFIX)/include/tsm_roll.h" "$(DESTDIR)$(PREFIX)/lib/pkgconfig/tsm.pc" "$(DESTDIR)$(PREFIX)/bin/roll_to_tsm"
