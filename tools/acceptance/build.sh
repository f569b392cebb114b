#!/bin/sh
# Proves and builds the library, and builds target/acceptance/acceptance with it (README.md in this folder). Needs rustc and the Rust's source.
set -eu

here=$(cd "$(dirname "$0")" && pwd)
root=$(cd "$here/../.." && pwd)
out=$root/target/acceptance

published=$root/target/reference/reference.lib/libpublished.rlib
rm -f "$published" "$out/acceptance"
"$root/tools/reference/build.sh"
[ -f "$published" ] || exit 0
if [ "$(uname -m)" != x86_64 ]; then
    echo "acceptance skipped: the library is for x86-64"
    exit 0
fi

mkdir -p "$out"
"$root/tools/gate/staticlib.sh" desk
rustc --edition 2024 -O --extern published="$published" -L "native=$root/target/staticlib" -l static=desk \
    -o "$out/acceptance" "$here/src/main.rs"
