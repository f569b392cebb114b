#!/bin/sh
# Builds the published Rust, the proved libraries and target/bench/bench, which links both. Where rustc or the Rust's source is not at
# hand, as tools/reference says, nothing is built.
set -eu

here=$(cd "$(dirname "$0")" && pwd)
root=$(cd "$here/../.." && pwd)
out=$root/target/bench

rm -f "$out/bench"
published=$root/target/reference/reference.lib/libpublished.rlib
rm -f "$published"
"$root/tools/reference/build.sh"
[ -f "$published" ] || exit 0
if [ "$(uname -m)" != x86_64 ]; then
    echo "bench skipped: the library is for x86-64"
    exit 0
fi

mkdir -p "$out"
"$root/tools/gate/staticlib.sh" desk
rustc --edition 2024 -O --extern published="$published" -L "native=$root/target/staticlib" -l static=desk \
    -o "$out/bench" "$here/main.rs"
