# `make` alone prints the targets. What each needs is said in one line before it starts, if it is missing.
.PHONY: help run test soak bench bench-page install uninstall dist fmt clean

PREFIX = /usr/local
measure = cargo run --offline --release --quiet --manifest-path rust/Cargo.toml --package bench --

help:
	@echo 'make run         the listing of the bench table, by the proved program'
	@echo 'make test        the gate: all is proved, wrong answers are tried, examples and tests run'
	@echo 'make install     header, libraries, pkg-config file, copybook, programs and manual below PREFIX=$(PREFIX); DESTDIR is honoured'
	@echo 'make uninstall   takes the same files away'
	@echo 'make dist        the same as a tarball in target/, for a machine without the prover'
	@echo 'make soak        compares the store with the judge on fresh seeds until it is stopped'
	@echo 'make bench       what a call costs, into target/bench/; make bench-page: into docs/'
	@echo 'make fmt         the layout of every source;  make clean: what was made'

run:
	@tools/run-example

test:
	@tools/gate

soak:
	@tools/soak

bench:
	@tools/needs rt gcc cargo python3
	@$(measure) target/bench

bench-page:
	@tools/needs rt gcc cargo python3
	@$(measure) docs

install:
	@tools/install '$(DESTDIR)$(PREFIX)'

uninstall:
	@tools/install --remove '$(DESTDIR)$(PREFIX)'

dist:
	@tools/dist

fmt:
	@tools/needs rt cargo
	for crate in crates/*/; do (cd $$crate && rt fmt) || exit 1; done
	cargo fmt --manifest-path rust/Cargo.toml --all

clean:
	rm -rf target rust/target crates/*/out
