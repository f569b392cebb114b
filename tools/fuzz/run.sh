#!/bin/sh
# Compares the proved printer with the published Rust on drawn inputs (README.md in this folder). Needs rustc and the Rust's source.
#
#   run.sh                       one minute, with a fresh seed
#   run.sh seconds S [SEED]      that long
#   run.sh count N SEED          a fixed part: N inputs
set -eu

here=$(cd "$(dirname "$0")" && pwd)
root=$(cd "$here/../.." && pwd)

"$here/build.sh"
[ -x "$root/target/fuzz/fuzz" ] || exit 0
"$root/target/fuzz/fuzz" "$root/target/bin/printer" -- "$@"
