#!/bin/sh
# Compares the proved library with the published Rust on drawn runs (README.md in this folder). Needs rustc and the Rust's source.
#
#   run.sh                       one minute, with a fresh seed
#   run.sh seconds S [SEED]      that long
#   run.sh count N SEED          a fixed part: N runs
#   run.sh query                 answers `run` queries of tools/reference by the library
set -eu

here=$(cd "$(dirname "$0")" && pwd)
root=$(cd "$here/../.." && pwd)

"$here/build.sh"
[ -x "$root/target/acceptance/acceptance" ] || exit 0
"$root/target/acceptance/acceptance" "$@"
