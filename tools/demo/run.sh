#!/bin/sh
# Proves and builds the printer, and runs it on document 01's example and on a film of three macroblocks; each record is shown with its fields.
set -eu

here=$(cd "$(dirname "$0")" && pwd)
root=$(cd "$here/../.." && pwd)

echo "Proving the printer and what it stands on: about 7 minutes on four processors, less where it was done before."
"$root/tools/gate/program.sh" printer
for input in example film; do
    echo
    echo "$input: $(od -An -v -tx1 "$here/$input" | tr -d '\n')"
    "$root/target/bin/printer" < "$here/$input" | awk -f "$here/fields.awk"
done
