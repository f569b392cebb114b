#!/bin/sh
# Proves static libraries and what they stand on, and makes target/staticlib/libNAME.a of each: of the crate NAME_c, whose exports are those of NAME.
#
#   staticlib.sh NAME..
set -eu

root=$(cd "$(dirname "$0")/../.." && pwd)

mkdir -p "$root/target/staticlib"
for name in "$@"; do
    "$root/tools/gate/prove.sh" "${name}_c"
    (cd "$root/crates/${name}_c" && rt lib > "$root/target/staticlib.log" 2>&1) || { cat "$root/target/staticlib.log"; exit 1; }
    cp "$root/crates/${name}_c/out/lib${name}_c.a" "$root/target/staticlib/lib$name.a"
done
