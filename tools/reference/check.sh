#!/bin/sh
# The fixed lists are what the published Rust answers: builds it both ways, makes the lists again and compares them.
#
#   check.sh            fails where a list differs from the one that is kept
#   check.sh write      keeps the lists as they are made
set -eu

here=$(cd "$(dirname "$0")" && pwd)
root=$(cd "$here/../.." && pwd)
out=$root/target/reference

rm -f "$out/reference" "$out/checked"
"$here/build.sh" checked
[ -x "$out/checked" ] || exit 0

for list in parts films; do
    "$out/reference" vectors $list > "$out/$list.bin"
    # No question makes the Rust overflow.
    "$out/checked" vectors $list | cmp - "$out/$list.bin"
    # A list is kept as the input of the program that replays it.
    kept=$root/crates/$list/stdin
    [ "${1:-}" != write ] || cp "$out/$list.bin" "$kept"
    cmp "$out/$list.bin" "$kept"
    echo "$list: $(($("$out/reference" vectors $list text | wc -l))) records, answers as kept"
done

# Nor does a drawn run, sound or damaged.
"$out/reference" runs 2000 1 > "$out/runs.txt"
"$out/reference" < "$out/runs.txt" > "$out/runs.answers"
"$out/checked" < "$out/runs.txt" | cmp - "$out/runs.answers"
if grep -v '^accepted=' "$out/runs.answers"; then
    exit 1
fi
echo "runs: $(($(wc -l < "$out/runs.txt"))) drawn, none overflows or panics"
