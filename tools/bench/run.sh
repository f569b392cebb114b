#!/bin/sh
# Times the proved library against the published Rust (docs/BENCHMARKS.md).
set -eu

here=$(cd "$(dirname "$0")" && pwd)
root=$(cd "$here/../.." && pwd)

"$here/build.sh"
[ ! -x "$root/target/bench/bench" ] || "$root/target/bench/bench"
