# The commands of the repository. Each works from a clean clone with the Rattle kit (rt), cargo and make, and no network.

.PHONY: test run ask pictures oracle documents exports linked host compare bench

# The archive is for x86-64, and so is today's kit. An older one had an emulator for other processors: there the host side called the archive
# through it, some ten times slower, so `compare` has fewer questions there; and what was timed there was not the archive but its LLVM module,
# compiled for that processor (host/emulated/README.md, which stops today with a message).
ifeq ($(shell uname -m),x86_64)
LINKED := $(CURDIR)/crates/exports/out
TIMED := $(CURDIR)/crates/exports/out
PAYLOADS := --count 1000000
STORES :=
else
LINKED := $(CURDIR)/target/emulated
TIMED := $(CURDIR)/target/module
PAYLOADS := --count 100000
STORES := --small 40000 --medium 4000 --full 700 --scripts 6000 --mistakes 300
endif
CARGO := cd host && SALTBOBBIN_STATICLIB=$(LINKED) cargo

# The tests: the documents are the ones we work from, and the gate of the proofs with the oracle and what is run on top of them (.ci/gate). Its
# last line is 'N passed, 0 failed'.
test: documents
	.ci/gate

# The main job: a building firm's certificates and questions, put to the proved kernel.
run: ask
	./keyline examples/building-firm.txt

# Proves and builds the command that ./keyline runs.
ask:
	cd crates/ask && rt run -- --help </dev/null >/dev/null

# The authority graphs of some examples, as pictures in docs/pictures (Graphviz from the system; it says what to install where it is not there).
pictures: ask
	examples/pictures

# Builds the published Rust over its stand-ins and holds it against document 01's plain reading.
oracle:
	oracle/run

# The documents and the published Rust are byte for byte those that the work was given.
documents:
	cd docs && sha256sum --check --quiet CHECKSUMS

# The proved library as an archive for C and Rust: crates/exports/out/libexports.a.
exports:
	cd crates/exports && rt lib

# What the host side links: the archive itself, or on another processor the bridge to it.
linked: exports
ifneq ($(LINKED),$(CURDIR)/crates/exports/out)
	host/emulated/build
endif

# The host side's tests: a bounded part of what `compare` does.
host: linked
	$(CARGO) test --offline --quiet

# The kernel against the published Rust at scale: payloads, then whole stores. `make compare STORES='--seed 7'` has other stores.
compare: linked
	$(CARGO) run --offline --quiet --release --bin payloads -- $(PAYLOADS)
	$(CARGO) run --offline --quiet --release --bin stores -- $(STORES)

# Both sides timed in one run; whole stores twice, with the published Rust over hashed maps and over ordered ones.
bench: exports
ifneq ($(TIMED),$(CURDIR)/crates/exports/out)
	host/emulated/module
endif
	cd host && SALTBOBBIN_STATICLIB=$(TIMED) cargo run --offline --quiet --release --bin bench
	cd host && SALTBOBBIN_STATICLIB=$(TIMED) cargo run --offline --quiet --release --bin bench_stores
	cd host && SALTBOBBIN_STATICLIB=$(TIMED) cargo run --offline --quiet --release --features ordered --bin bench_stores
