# run: proves and builds the bench program and what it rests on, and runs it on its sample input.
# test: the gate, all tests and proofs.
# bench: the frame library, single calls and the bench program, each beside independent Rust programs,
#        in one run; the memory that a panel and the bench program take.
# fuzz: the frame library and the programs' inputs, FUZZ_SECONDS (60) each; not part of the gate.
# check-times: proves every crate from nothing, one at a time, and writes docs/CHECKTIMES.md.
.PHONY: run test bench fuzz check-times

run:
	host/build bench
	crates/bench/out/bench <crates/bench/stdin

test:
	.ci/run

bench:
	host/build frame step_speed bench
	host/speed/run

fuzz:
	host/build frame bench orders
	host/fuzz/run

check-times:
	host/check_times
