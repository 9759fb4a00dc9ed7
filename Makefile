# make run: the bench on a plan and a session. make audit: the figures of a plan and a list of jobs. make picture: a session drawn. make test: all proofs and tests.
PLAN ?= examples/plan-t/plan.bin
SESSION ?= examples/plan-t/session.txt
JOBS ?= examples/audits/plan-t/jobs.txt
OUT ?= picture.svg

# How long `make fuzz` looks for a difference, and from which seed on (empty: a new one).
SECONDS ?= 60
SEED ?=

.PHONY: run audit picture test bench fuzz model

run:
	@sh tools/prove.sh bench
	@sh tools/run-program.sh bench "$(PLAN)" "$(SESSION)"

audit:
	@sh tools/prove.sh audit
	@sh tools/run-program.sh audit "$(PLAN)" "$(JOBS)"

# A session as an SVG: what each device ran, what each job waited for, and the bounds.
picture:
	@sh tools/prove.sh bench audit
	@sh tools/picture.sh "$(PLAN)" "$(SESSION)" "$(OUT)"

model:
	@sh tools/need.sh cargo
	cargo test --offline --release --quiet --manifest-path model/Cargo.toml

bench:
	@sh tools/need.sh cargo
	@sh tools/prove.sh interface timing
	cargo run --offline --release --quiet --manifest-path model/Cargo.toml --features timing,session --bin bench

# Sessions of ever new seeds on the library and on the model; a difference is made small and saved in model/differences.
fuzz:
	@sh tools/need.sh cargo
	@sh tools/prove.sh interface
	cargo run --offline --release --quiet --manifest-path model/Cargo.toml --features session --bin fuzz -- $(SECONDS) model/differences $(SEED)

# The last line, 'N passed, 0 failed', is the verdict.
test:
	@sh tools/gate.sh
