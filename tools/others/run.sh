#!/bin/sh
# The inputs of docs/DIFFERENCES.md, section "Other decoders": what is kept beside each is what is printed.
#
#   NAME.hex, NAME.printed    an input of the printer and its output: by the printer, and by the published Rust
#   NAME.query, NAME.left     a run from a start that the printer cannot be given, as a query of tools/reference, and what
#                             it leaves: by the proved library, and by the published Rust
#
# Without rustc or the Rust's source the printer alone is run.
set -eu

here=$(cd "$(dirname "$0")" && pwd)
root=$(cd "$here/../.." && pwd)
out=$root/target/others
printer=$root/target/bin/printer
reference=$root/target/reference/reference
acceptance=$root/target/acceptance/acceptance

mkdir -p "$out"
"$root/tools/gate/program.sh" printer
rm -f "$reference" "$acceptance"
"$root/tools/acceptance/build.sh"

inputs=0
for hex in "$here"/*.hex; do
    name=$(basename "$hex" .hex)
    for byte in $(cat "$hex"); do
        printf "\\$(printf %03o "0x$byte")"
    done > "$out/$name.input"
    "$printer" < "$out/$name.input" | cmp - "$here/$name.printed"
    [ ! -x "$reference" ] || "$reference" printer < "$out/$name.input" | cmp - "$here/$name.printed"
    inputs=$((inputs + 1))
done
echo "printer inputs: $inputs, printed as kept"

[ -x "$acceptance" ] || exit 0
queries=0
for query in "$here"/*.query; do
    name=$(basename "$query" .query)
    # The library's run does not tell what each call left.
    "$reference" < "$query" | sed 's/ calls=[^ ]*//' | cmp - "$here/$name.left"
    "$acceptance" query < "$query" | cmp - "$here/$name.left"
    queries=$((queries + 1))
done
echo "runs from other starts: $queries, left as kept"
