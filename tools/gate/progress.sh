#!/bin/sh
# Says how far rt is, a line for each crate proved, each must-fail edit refused and each program run. All that rt prints goes to LOG.
#
#   rt check 2>&1 | progress.sh LOG NAME..      in the folder of a crate: of the crates named and those that they stand on
#   rt ci 2>&1 | progress.sh LOG                of all crates and all must-fail edits
set -eu

root=$(cd "$(dirname "$0")/../.." && pwd)
log=$1
shift

# The crates named and those that they stand on, or all; the kit's libraries are not counted.
crates=$(awk -v names="$*" '
    { sub(/#.*/, ""); if (split($0, side, ":") > 1) { name = side[1]; sub(/ .*/, "", name); needs[name] = side[2]; all = all " " name } }
    END {
        n = split(names == "" ? all : names, queue, " ")
        for (i = 1; i <= n; i++) {
            if ((queue[i] in met) || !(queue[i] in needs)) continue
            met[queue[i]] = 1
            count++
            k = split(needs[queue[i]], more, " ")
            for (j = 1; j <= k; j++) queue[++n] = more[j]
        }
        print count + 0
    }' "$root/crates.txt")
edits=0
for edit in "$root"/crates/*/must-fail/*.edit; do
    [ ! -f "$edit" ] || edits=$((edits + 1))
done

began=$(date +%s)
proved=0 refused=0
# so_far TEXT: the text, and how long it has taken until now
so_far() {
    now=$(($(date +%s) - began))
    printf '%s; %d min %02d s\n' "$1" $((now / 60)) $((now % 60))
}

: > "$log"
name=
while IFS= read -r line; do
    printf '%s\n' "$line" >> "$log"
    case $line in
    # of rt check
    'rt: chose --jobs '*' for '*) name=${line##* for } ;;
    'logic=proved'*)
        if [ -n "$name" ]; then
            proved=$((proved + 1))
            so_far "crate $proved of $crates at most: $name proved"
            name=
        fi
        ;;
    # of rt ci
    'rt: must-fail '*': refused'*)
        refused=$((refused + 1))
        line=${line#rt: must-fail }
        so_far "must-fail edit $refused of $edits: ${line%%:*} refused"
        ;;
    'rt: '*': its tests proved' | 'rt: note: '* | 'rt: '*': begins with what '*) ;;
    'rt: '*' NOT PROVED'*) so_far "${line#rt: }" ;;
    'rt: '*' proved' | 'rt: '*' is kept: '*)
        proved=$((proved + 1))
        line=${line#rt: }
        so_far "crate $proved of $crates: ${line%%:*}"
        ;;
    'rt: '*) printf '%s\n' "${line#rt: }" ;;
    esac
done
