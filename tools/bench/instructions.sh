#!/bin/sh
# The instructions of a macroblock of the heavy film at 45 x 36, ours and the Rust's, by valgrind's callgrind: those of three runs less
# those of one, by the macroblocks of two.
set -eu

here=$(cd "$(dirname "$0")" && pwd)
root=$(cd "$here/../.." && pwd)
bench=$root/target/bench/bench

"$here/build.sh"
[ -x "$bench" ] || exit 0
command -v valgrind > /dev/null || { echo "instructions skipped: no valgrind"; exit 0; }

# counted SIDE ROUNDS: all instructions of that many runs
counted() {
    valgrind --tool=callgrind --callgrind-out-file=/dev/null "$bench" "$1" "$2" 2>&1 > /dev/null |
        sed -n 's/.*Collected : //p'
}
for side in ours rust; do
    macroblocks=$("$bench" "$side" 0)
    echo "$side: $((($(counted "$side" 3) - $(counted "$side" 1)) / (2 * macroblocks))) instructions a macroblock"
done
