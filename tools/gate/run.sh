#!/bin/sh
# The gate, behind make test: rt ci, then a fixed part of tools/acceptance, which is skipped without rustc or the Rust's
# source. Says how far it is; rt ci's whole output goes to target/gate.log, and is printed where it fails. Ends with rt ci's
# last line ('N passed, 0 failed') and its exit status; a bad must-fail edit, or a difference in the part, is exit status 1 and
# another last line.
#
#   run.sh [RUNS [SEED]]      30000 runs, seed 1
set -eu

root=$(cd "$(dirname "$0")/../.." && pwd)
runs=${1:-30000}
seed=${2:-1}

kept=$(mktemp -d)
trap 'rm -rf "$kept"' EXIT
trap 'exit 1' HUP INT TERM

cd "$root"
echo "The gate: every crate proved, every must-fail edit tried, every program run. About 20 minutes on four processors, less where an earlier run has proved the same files."
# A pipeline's status is that of its end: rt's own goes through a file.
{
    status=0
    rt ci 2>&1 || status=$?
    echo "$status" > "$kept/status"
} | tools/gate/progress.sh "$kept/printed"
status=$(cat "$kept/status")
mkdir -p target
cp "$kept/printed" target/gate.log
[ "$status" -eq 0 ] || { cat "$kept/printed"; exit "$status"; }
if grep '^rt: ok.*, [0-9][0-9]* bad' "$kept/printed"; then
    grep 'BAD EDIT' "$kept/printed" || true
    echo "FAILED: bad must-fail edits, though rt ci passed"
    exit 1
fi

if ! tools/acceptance/run.sh count "$runs" "$seed"; then
    echo "FAILED: tools/acceptance, though rt ci passed"
    exit 1
fi
tail -n 1 "$kept/printed"
