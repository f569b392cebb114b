#!/bin/sh
# Proves and builds the printer, and builds target/fuzz/fuzz (README.md in this folder). Needs rustc and the Rust's source.
set -eu

here=$(cd "$(dirname "$0")" && pwd)
root=$(cd "$here/../.." && pwd)
out=$root/target/fuzz

published=$root/target/reference/reference.lib/libpublished.rlib
rm -f "$published" "$out/fuzz"
"$root/tools/reference/build.sh"
[ -f "$published" ] || exit 0

mkdir -p "$out"
"$root/tools/gate/program.sh" printer
rustc --edition 2024 -O --extern published="$published" -o "$out/fuzz" "$here/src/main.rs"
