# What people type. `rt` is the toolchain's command.
.PHONY: run test archive program records install room compare others bench bench-once bench-peers example c-example \
	rust-example rust-test bare records-test front-test run-test streams cases aligned installed lint clean

# Where `make install` puts things. DESTDIR, if set, comes before it.
PREFIX ?= /usr/local

# The pier network through the program `routes`.
run:
	@./run

# Everything: proves every crate, tries each must-fail edit, runs each program and compares what it prints; then all of the
# below that tests something.
test:
	@./test

# ---- what is built

# The archive for other languages, target/lib/libroutes.a, and the program `routes`, target/bin/routes: proved and built where
# the text has changed since.
archive:
	@tools/build.sh archive

program:
	@tools/build.sh program

# The converter of record streams between text and bytes: target/rust/release/records. It needs nothing proved.
records:
	@cd rust && cargo build --offline --quiet --release -p records

# The archive, its header and its pkg-config file, the program and the converter.
install: archive program records
	@install -d "$(DESTDIR)$(PREFIX)/lib/pkgconfig" "$(DESTDIR)$(PREFIX)/include" "$(DESTDIR)$(PREFIX)/bin"
	@install -m 644 target/lib/libroutes.a "$(DESTDIR)$(PREFIX)/lib/"
	@install -m 644 include/routes.h "$(DESTDIR)$(PREFIX)/include/"
	@sed "s|@PREFIX@|$(PREFIX)|" include/routes.pc.in >"$(DESTDIR)$(PREFIX)/lib/pkgconfig/routes.pc"
	@install -m 755 target/bin/routes target/rust/release/records "$(DESTDIR)$(PREFIX)/bin/"

# ---- what is tested

# The cases through the C functions (rust/compare/src/bin/cases): what is printed is what tests/ has, and what tests/ has is
# what other calculations give. What the program `forms` prints is held to its stdout by every check; here that is worked out.
cases: archive
	@cd rust && cargo build --offline --quiet --release -p compare --bin cases
	@set -e; for part in judging changing; do \
	    target/rust/release/cases $$part | cmp - tests/$$part.out; \
	    python3 -B tests/$$part.py | cmp - tests/$$part.out; \
	    echo "$$part: $$(wc -l <tests/$$part.out) cases, none differ"; \
	done
	@python3 -B tests/forms.py | cmp - crates/forms/stdout
	@echo "forms: $$(wc -l <crates/forms/stdout) cases, none differ"

# The product compared with an independent calculation, on cases and streams from fixed seeds (rust/compare).
# PART=jobs or PART=streams compares only these; FROM=100000000 takes other seeds.
compare: archive program
	@cd rust && cargo run --offline --quiet --release -p compare --bin compare -- $(PART) $(FROM)

# The product's trees judged by networkx, where it is installed (Debian's python3-networkx).
others: archive
	@cd rust && cargo build --offline --quiet --release -p compare --bin compare
	@for python in python3 /usr/bin/python3; do \
	    if $$python -c 'import networkx' 2>/dev/null; then \
	        target/rust/release/compare networks $(FROM) | $$python -B tests/others.py; exit; \
	    fi; \
	done; echo "networkx isn't installed, so it judged nothing"

# Each stream of tests/streams through the program.
streams: records program
	@tests/streams.sh target/rust/release/records target/bin/routes

# The pier network through the C functions, and through the Rust crate.
example: c-example rust-example

c-example: archive
	@mkdir -p target/tests
	@cc -std=c11 -Wall -Wextra -Wpedantic -Iinclude -o target/tests/pier tests/c/pier.c target/lib/libroutes.a
	@target/tests/pier

rust-example: archive
	@cd rust && cargo run --offline --quiet --release --example pier

# The Rust crate's tests, and the examples in its documentation.
rust-test: archive
	@cd rust && cargo test --offline --quiet

# The Rust crate without the archive: everything but linking works.
bare:
	@tests/bare.sh

records-test:
	@cd rust && cargo test --offline --quiet -p records

# What `./run` stands on, and `./run` itself.
front-test:
	@cd rust && cargo test --offline --quiet -p front

run-test: program
	@tests/run.sh

# What the archive is beside the one that `rt lib` built: alignments and no more.
aligned: archive
	@tests/aligned.sh target/lib/libroutes.a.built target/lib/libroutes.a

# A copy installed under target/installed, used as anyone would use it.
installed:
	@$(MAKE) --no-print-directory install PREFIX="$(CURDIR)/target/installed" DESTDIR=
	@tests/installed.sh target/installed

# The Rust code's layout, and what clippy says, where they are installed.
lint:
	@tests/lint.sh

# ---- what it costs

# How much of the stack each job takes, on the compiled archive.
room: archive
	@cd rust && cargo run --offline --quiet --release -p compare --bin room

# What it costs, against plain programs that rebuild from nothing: writes the table of docs/COST.md and its picture.
bench: room program
	@bench/peers/build.sh
	@cd bench && cargo build --offline --quiet --release
	@target/rust/release/bench

# One round of all that is measured: product, plain programs and the peers that are installed agree, and nothing is written.
bench-once: archive program
	@bench/peers/build.sh
	@cd rust && cargo build --offline --quiet --release -p compare --bin room
	@cd bench && cargo build --offline --quiet --release
	@target/rust/release/bench once >target/$@.log 2>&1 || { cat target/$@.log; false; }
	@tail -1 target/$@.log

# Installs the libraries that `make bench` sets beside the product where it finds them.
bench-peers:
	@bench/install.sh

clean:
	rm -rf target crates/*/out
