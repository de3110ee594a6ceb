# `make` prints what there is. `make check` and `make quick` are beginnings of `make test`, the merge gate, that prove
# nothing. Those marked with * want the programs built, as `make test` leaves them.
EVENTS ?= examples/two-peers.events

# A target that proves or builds Rattle begins with this.
NEEDS_RT = @command -v rt > /dev/null || { echo "rt, the tool of Rattle, is not found: docs/TOOLCHAIN.md says where it comes from." \
	"Without it: cd rust && cargo test; make install" >&2; exit 1; }

.PHONY: help try check quick test lib dist install border relays engines soak runs generated faults mutants pictures bench

help:
	@echo "make try        builds replay WITHOUT A PROOF, and prints each event of an example beside its answer: a minute"
	@echo "make test       the merge gate: proves every crate, then runs all tests and programs: an hour"
	@echo "make check      checks of texts: names in documents, layout, places of wrong bodies: 10 seconds"
	@echo "make quick      these, and tests without a proof: minutes"
	@echo "make lib        proves and builds the static library for C and Rust: half an hour the first time"
	@echo "make dist       what callers without the toolchain need, in the folder dist"
	@echo "make install    the kept library for C, with header and pkg-config file, in PREFIX: seconds, needs cc alone"
	@echo "make mutants    tries all wrong bodies: most of an hour *"
	@echo "make border, relays, engines, runs, generated, faults    single steps of the gate *"
	@echo "make soak       twenty minutes of load and attack on relays *"
	@echo "make bench      times replay beside a plain Rust program *"
	@echo "make pictures   draws the pictures of the documents *"

try:
	$(NEEDS_RT)
	@echo "try: building replay without a proof, and running it on $(EVENTS): a minute or two"
	@answers=$$(mktemp) && (cd crates/replay && rt try -- 1 10) < $(EVENTS) > $$answers && \
		cut -c 1-60 $(EVENTS) | paste -d '\t' - $$answers | sed 's/^\t/  (at the end)\t/' | expand -t 64; \
		status=$$?; rm -f $$answers; exit $$status
	@echo "try: NOTHING WAS PROVED: make test proves"

check:
	$(NEEDS_RT)
	@scripts/gate static

quick:
	$(NEEDS_RT)
	@scripts/gate quick

test:
	$(NEEDS_RT)
	@scripts/gate

# The static library for callers in C and Rust. In C it is linked with `ffi/heap.c`.
lib:
	$(NEEDS_RT)
	@echo "lib: proving and building crates/broadcast_c/out/libbroadcast_c.a"
	cd crates/broadcast_c && rt lib

# What callers without the toolchain need, in one folder of `dist`.
dist:
	$(NEEDS_RT)
	@scripts/dist

# Needs no `rt`. `scripts/install` names the variables.
install:
	@scripts/install

border:
	$(NEEDS_RT)
	@echo "border: building the static library by both compilers, and calling it from C and Rust"
	@scripts/border

relays:
	@echo "relays: testing the async engine, and relays under attack, over that library"
	@scripts/relays

engines:
	$(NEEDS_RT)
	@echo "engines: running the same scenarios through the engine in Rattle and the async one"
	@scripts/engines

# Twenty minutes of load and attack; no part of the gate.
soak:
	@scripts/relays soak

runs:
	$(NEEDS_RT)
	@echo "runs: running each program over its stored runs, as both compilers built it"
	@scripts/stored_runs

generated:
	$(NEEDS_RT)
	@echo "generated: running programs over long generated inputs, and comparing them with models"
	@scripts/generated_runs

faults:
	$(NEEDS_RT)
	@echo "faults: refusing each allocation, read and write of a program in turn"
	@scripts/faults

mutants:
	$(NEEDS_RT)
	@echo "mutants: trying wrong bodies, each of which the prover or a test must refuse"
	@scripts/mutants

pictures:
	@scripts/pictures

bench:
	$(NEEDS_RT)
	@echo "bench: timing replay beside a plain Rust program"
	@bench/compare
