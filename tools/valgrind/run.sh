#!/bin/sh
# The printer and the C entries under valgrind's memcheck, which fails at any error: drawn inputs of the printer
# (tools/fuzz), drawn runs through the C entries (tools/acceptance), and the C host (tools/host); what they print is
# compared as without valgrind. Needs valgrind, and rustc and the Rust's source for the first two.
#
#   run.sh [INPUTS [RUNS [SEED]]]      300 inputs, 2000 runs, seed 1
set -eu

here=$(cd "$(dirname "$0")" && pwd)
root=$(cd "$here/../.." && pwd)
out=$root/target/valgrind
inputs=${1:-300}
runs=${2:-2000}
seed=${3:-1}

if ! command -v valgrind >/dev/null 2>&1; then
    echo "valgrind skipped: no valgrind"
    exit 0
fi

mkdir -p "$out"
rm -f "$root/target/fuzz/fuzz" "$root/target/acceptance/acceptance" "$root/target/host/host"
memcheck="valgrind --error-exitcode=99 --leak-check=full --errors-for-leak-kinds=definite"

# checked NAME PROGRAM [ARGUMENT..]: what it prints goes to NAME.printed, valgrind's report to NAME.log.
checked() {
    name=$1
    shift
    $memcheck --log-file="$out/$name.log" "$@" > "$out/$name.printed" || { cat "$out/$name.printed" "$out/$name.log"; exit 1; }
    sed -n 's/^==[0-9]*== ERROR SUMMARY/memcheck/p' "$out/$name.log"
}

"$root/tools/fuzz/build.sh"
if [ -x "$root/target/fuzz/fuzz" ]; then
    echo "printer:"
    "$root/target/fuzz/fuzz" $memcheck -q "$root/target/bin/printer" -- count "$inputs" "$seed"
fi

"$root/tools/acceptance/build.sh"
if [ -x "$root/target/acceptance/acceptance" ]; then
    echo "C entries:"
    checked acceptance "$root/target/acceptance/acceptance" count "$runs" "$seed"
    cat "$out/acceptance.printed"
fi

"$root/tools/host/run.sh" > "$out/host.out" || { cat "$out/host.out"; exit 1; }
if [ -x "$root/target/host/host" ]; then
    echo "C host:"
    checked host "$root/target/host/host"
    cmp "$out/host.printed" "$root/tools/host/expected"
else
    cat "$out/host.out"
fi
