# make run    the main job, on the example that ships with it
# make test   the gate: proves every crate, tries the edits that must be refused, runs programs and tests

.PHONY: run test

run:
	@mkdir -p target
	@cd crates/cardmaker && rt run -- 2 3 2 < ../../examples/records.txt 2> ../../target/run.log || { cat ../../target/run.log; exit 1; }

test:
	@tools/gate
