#!/bin/sh
# Prints what a product is built from, a line each: for a crate that it stands on the SHA-256 of its sources and its line of crates.txt,
# for the library the C files too. Without words, of both products.
#
# usage: dist/sums.sh [program|library]
set -eu
export LC_ALL=C
cd "$(dirname "$0")/.."
case ${1:-both} in
program) roots=wasmloop ;;
library) roots=wasmloop_c ;;
both) roots='wasmloop wasmloop_c' ;;
*) sed -n 's/^# usage: /usage: /p' dist/sums.sh >&2 && exit 2 ;;
esac

# the lines of crates.txt of the roots and of all that they use
lines_below() {
    awk -v roots="$roots" '
        { sub(/#.*/, ""); gsub(/[ \t]+/, " "); sub(/^ /, ""); sub(/ $/, "") }
        /:/ { name = $0; sub(/[ :].*/, "", name); line[name] = $0 }
        END {
            count = split(roots, wanted, " ")
            for (i = 1; i <= count; i++) seen[wanted[i]] = 1
            for (at = 1; at <= count; at++) {
                print line[wanted[at]]
                deps = line[wanted[at]]; sub(/^[^:]*: ?/, "", deps)
                number = split(deps, used, " ")
                for (i = 1; i <= number; i++)
                    if (used[i] in line && !(used[i] in seen)) { seen[used[i]] = 1; wanted[++count] = used[i] }
            }
        }' crates.txt | sort
}

room=$(mktemp -d)
trap 'rm -rf "$room"' EXIT
lines_below > "$room/lines"
mkdir "$room/crates"
# a list of sources for each crate, and the sum of each list
sed 's/[ :].*//' "$room/lines" | while read -r crate; do
    find "crates/$crate/src" "crates/$crate/specs" "crates/$crate/proofs" -type f 2>/dev/null || true
done | sort | xargs sha256sum | awk -v room="$room/crates" '{ split($2, part, "/"); print > (room "/" part[2]) }'
(cd "$room/crates" && sha256sum -- *) | awk '
    NR == FNR { sum[$2] = $1; next }
    { name = $0; sub(/[ :].*/, "", name); print sum[name] "  " $0 }' - "$room/lines"
[ "$roots" = wasmloop ] || sha256sum capi/include/wasmloop.h capi/wasmloop.c capi/names.c capi/kit/stddef.h capi/kit/stdint.h dist/link.sh
