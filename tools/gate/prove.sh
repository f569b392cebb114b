#!/bin/sh
# Proves crates and what they stand on, where that is not done yet, and says how far it is; where a proof fails, what rt printed.
#
#   prove.sh NAME..
set -eu

root=$(cd "$(dirname "$0")/../.." && pwd)
log=$root/target/prove.log

mkdir -p "$root/target"
for name in "$@"; do
    # A pipeline's status is that of its end: rt's own goes through a file.
    {
        status=0
        (cd "$root/crates/$name" && rt check 2>&1) || status=$?
        echo "$status" > "$log.status"
    } | "$root/tools/gate/progress.sh" "$log" "$name"
    status=$(cat "$log.status")
    [ "$status" -eq 0 ] || { cat "$log"; exit "$status"; }
done
