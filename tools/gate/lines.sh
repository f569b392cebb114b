#!/bin/sh
# How large the repository is: its crates, files, functions and must-fail edits, and its lines of code (src/), definitions (specs/) and
# proof (proofs/), without blank lines, comments and lines that only name other files (use, mod).
#
#   lines.sh [DIR]      of the working tree in DIR, or of this one
set -eu

cd "${1:-$(dirname "$0")/../..}"

# counted FOLDER ENDING: files and lines
counted() {
    find crates/*/"$1" -name "*.$2" -exec cat {} + 2> /dev/null |
        grep -cvE '^[[:space:]]*($|--|//|use |ghost use |pub mod |mod )' || true
}
files=$(find crates -path '*/out' -prune -o \( -name '*.rt' -o -name '*.antt' \) -print | wc -l)
functions=$(cat crates/*/src/*.rt | grep -cE '^[[:space:]]*(pub )?(extern "C" )?fn ')
edits=$(find crates -name '*.edit' | wc -l)
echo "| crates | files | functions | must-fail edits | lines of code | of definitions | of proof |"
echo "| ---: | ---: | ---: | ---: | ---: | ---: | ---: |"
echo "| $(grep -c '^[a-z]' crates.txt) | $((files)) | $functions | $((edits)) | $(counted src rt) | $(counted specs antt) | $(counted proofs antt) |"
