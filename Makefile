SEED ?= 1
COUNT ?= 6000

.PHONY: run quick test compare bench

# Builds the printing program, proving all of it, and prints case A.
run:
	@bash tests/proving lts
	@bash tests/processor
	@sh examples/bytes examples/a.hex | target/bin/lts

# The inner loop: proves what has changed, without must-fail edits, and compares 500 inputs.
quick: COUNT = 500
quick:
	@bash tests/processor
	@rt all check
	@bash tests/proving lts one_tick calls
	@python3 tests/rows
	@SEED=$(SEED) COUNT=$(COUNT) bash tests/compare

# Every test: proofs, must-fail edits, programs, and the comparison with the second simulator.
test:
	@bash tests/all

# The comparison alone, after `make test` or `make run`: make compare SEED=7 COUNT=20000
compare:
	@bash tests/processor
	@bash tests/proving lts one_tick calls
	@SEED=$(SEED) COUNT=$(COUNT) bash tests/compare

# Speed beside the second simulator, in one run.
bench:
	@bash tests/processor
	@bash tests/proving lts repeat
	@cd workbench && cargo build --release --quiet --offline
	@programs=$$(bash tests/native lts repeat) && \
	    workbench/target/release/bench --ours $$programs/repeat --lts $$programs/lts
