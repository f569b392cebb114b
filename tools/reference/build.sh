#!/bin/sh
# Builds the published Rust, unchanged, as a program that answers queries (README.md in this folder).
#
#   build.sh            target/reference/reference, arithmetic as shipped
#   build.sh checked    the same, and target/reference/checked with overflow checks and assertions
#
# The Rust is looked for in ../shared/docs/src beside the repository, or in $SVQ3_RUST. Nothing of it is kept here.
set -eu

here=$(cd "$(dirname "$0")" && pwd)
root=$(cd "$here/../.." && pwd)
rust=${SVQ3_RUST:-$root/../shared/docs/src}
out=$root/target/reference

if [ ! -f "$rust/src/svq3_frame.rs" ]; then
    echo "comparison with the published Rust skipped: no source in $rust (set SVQ3_RUST)"
    exit 0
fi
if ! command -v rustc >/dev/null 2>&1; then
    echo "comparison with the published Rust skipped: no rustc"
    exit 0
fi

# What decode_inter_mb is compiled from; svq3_frame.rs gets our access behind it.
files="bitreader svq3 svq3_cbp svq3_coeff svq3_dequant svq3_frame svq3_mb svq3_mc svq3_mv svq3_picture svq3_pred
    svq3_recon svq3_scan"

rm -rf "$out/published"
mkdir -p "$out/published"
for name in $files; do
    cp "$rust/src/$name.rs" "$out/published/$name.rs"
    chmod u+w "$out/published/$name.rs"
done
for name in lib error svq3_tables svq3_filter; do
    cp "$here/published/$name.rs" "$out/published/$name.rs"
done
cat "$here/published/access.rs" >> "$out/published/svq3_frame.rs"

# Each file, up to the published length, holds the published bytes; only svq3_frame.rs is longer.
same=0
for name in $files; do
    length=$(($(wc -c < "$rust/src/$name.rs")))
    added=$(($(wc -c < "$out/published/$name.rs") - length))
    [ "$name" = svq3_frame ] || [ "$added" -eq 0 ] || { echo "$name.rs has $added bytes more than published"; exit 1; }
    dd if="$out/published/$name.rs" bs="$length" count=1 2>/dev/null | cmp - "$rust/src/$name.rs"
    same=$((same + 1))
done
echo "published files identical: $same"

# build PROGRAM FLAG..: the published crate, then the program that asks it.
build() {
    program=$1
    shift
    mkdir -p "$out/$program.lib"
    rustc --edition 2024 -O "$@" --cap-lints allow --crate-type rlib --crate-name published \
        --out-dir "$out/$program.lib" "$out/published/lib.rs"
    rustc --edition 2024 -O "$@" --extern published="$out/$program.lib/libpublished.rlib" \
        -o "$out/$program" "$here/src/main.rs"
}

build reference
if [ "${1:-}" = checked ]; then
    build checked -C overflow-checks=on -C debug-assertions=on
fi
