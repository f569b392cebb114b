#!/bin/sh
# Proves programs and what they stand on, and makes target/bin/NAME of each.
#
#   program.sh NAME..
set -eu

root=$(cd "$(dirname "$0")/../.." && pwd)

mkdir -p "$root/target/bin"
for name in "$@"; do
    "$root/tools/gate/prove.sh" "$name"
    # rt builds a program where it runs it.
    (cd "$root/crates/$name" && rt run < stdin > "$root/target/program.log" 2>&1) || { cat "$root/target/program.log"; exit 1; }
    cp "$root/crates/$name/out/$name" "$root/target/bin/$name"
done
