#!/bin/sh
# Proves and builds the desk library, links host.c with it and runs that: it prints what the file `expected` has.
set -eu

here=$(cd "$(dirname "$0")" && pwd)
root=$(cd "$here/../.." && pwd)
out=$root/target/host

if ! command -v cc >/dev/null 2>&1; then
    echo "host skipped: no cc"
    exit 0
fi
if [ "$(uname -m)" != x86_64 ]; then
    echo "host skipped: the library is for x86-64"
    exit 0
fi

mkdir -p "$out"
"$root/tools/gate/staticlib.sh" desk
lib=$root/target/staticlib/libdesk.a

cc -std=c11 -Wall -Wextra -Werror -O2 -I "$root/include" -o "$out/host" "$here/host.c" "$lib"
"$out/host" | tee "$out/printed"
cmp "$out/printed" "$here/expected"

# The header is C++ too.
if command -v c++ >/dev/null 2>&1; then
    c++ -Wall -Wextra -Werror -I "$root/include" -x c++ -fsyntax-only "$here/host.c"
fi
