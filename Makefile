# What one does with this repository. 'make help' lists it.
.PHONY: help run test prove lib bench compare published vectors clean

help: ## this list
	@grep -hE '^[a-z]+:.*## ' $(MAKEFILE_LIST) | sed -E 's/:.*## /	/' | expand -t 12

FILE ?= crates/prefixsets/stdin
run: ## prove, build and run the text program on FILE, or on the covering union of the manual's A and B
	@tests/tools >&2
	@tests/built prefixsets >&2
	@target/bin/prefixsets < $(FILE)

test: ## the whole test suite: proofs, must-fail edits, programs, Rust tests
	@tests/run

prove: ## prove what changed since the last run; quick, and not the verdict
	@tests/tools
	@rt all check

lib: ## prove and build the static library for C and Rust, target/staticlib/liblhamtrovi.a
	@tests/tools
	@tests/built library
	@echo target/staticlib/liblhamtrovi.a

bench: lib ## time the library against ordinary fast Rust; the table goes to docs/BENCHMARKS.md by hand, the plot to docs/benchmarks.svg
	@cargo run --offline --release --quiet --manifest-path rust/Cargo.toml -p bench -- docs/benchmarks.svg

COUNT ?= 1000000
SEED ?= 1
compare: lib ## compare the library and the text program with the reference on COUNT random cases of SEED
	@tests/built prefixsets
	@cargo build --offline --release --quiet --manifest-path rust/Cargo.toml -p compare
	@rust/target/release/compare $(COUNT) $(SEED)

published: lib ## compare the published set views, if they are beside the project, with the library; COUNT cases of SEED at each width
	@cargo build --offline --release --quiet --manifest-path rust/Cargo.toml -p published
	@rust/target/release/published $(COUNT) $(SEED)

vectors: ## make the stored vectors anew from the Rust reference
	@tests/tools
	@mkdir -p build
	@cargo run --offline --release --quiet --manifest-path rust/Cargo.toml -p reference --bin make-vectors > build/vectors.txt
	@mv build/vectors.txt vectors/cases.txt
	@git diff --stat -- vectors/cases.txt

clean: ## remove what was built, and what the checks kept
	rm -rf target build rust/target crates/*/out
