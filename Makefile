# The commands of a machine with the Rattle kit.

# Lines for the listing program: its sample, or the file that IN names.
IN ?= crates/listing/stdin

# Where to install; DESTDIR, where it is given, stands before it.
PREFIX ?= /usr/local

# Builds the listing program from proved crates and runs it.
run:
	@echo 'proving listing and the crates that it stands on: target/build.log' >&2
	@tools/proving target/build.log crates/listing rt check
	@tools/run listing <$(IN)

# The gate: formatting, proofs, must-fail edits, programs, comparison with the Rust.
test:
	@bash .ci/run

# Proves the calls for C and makes target/libfendruscla.a of them.
archive:
	@tools/archive

# The header, the archive, fendruscla.pc and the licences.
install: archive
	@PREFIX='$(PREFIX)' DESTDIR='$(DESTDIR)' tools/install

.PHONY: run test archive install
