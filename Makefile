# make demo   the main job on an example
# make test   the gate: rt ci; where rustc is at hand, before it the published Rust's answers are made again, and after it
#             drawn runs go through the Rust and through ours
# make host   a C program that calls the desk library, where cc is at hand
# make bench  the speed beside the published Rust's, where rustc is at hand
# make instructions  the instructions of a heavy macroblock, ours and the Rust's, where rustc and valgrind are at hand
# make acceptance  a minute of drawn runs through the published Rust and through ours, and pairs of runs from one start,
#                  where rustc is at hand
# make others      the inputs on which other decoders do otherwise, through the printer and the published Rust
# make fuzz        a minute of drawn inputs through the printer and the published Rust, where rustc is at hand
# make valgrind    the printer and the C entries under valgrind, where it is at hand
.PHONY: demo test compare host bench instructions acceptance others fuzz valgrind

demo:
	tools/demo/run.sh

compare:
	tools/reference/check.sh

test: compare
	tools/gate/run.sh

host:
	tools/host/run.sh

bench:
	tools/bench/run.sh

instructions:
	tools/bench/instructions.sh

acceptance:
	tools/acceptance/run.sh

others:
	tools/others/run.sh

fuzz:
	tools/fuzz/run.sh

valgrind:
	tools/valgrind/run.sh
