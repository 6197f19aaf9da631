#!/bin/sh
# Says whether a product in dist/ is what these sources give: its sum and those of the sources are the ones written beside it, and what
# was built of them has the same bytes, where that is given: the program as a file, the library as the folder that link.sh made.
#
# usage: dist/same.sh program [FILE]
#        dist/same.sh library [FOLDER]
set -eu
dist=$(cd "$(dirname "$0")" && pwd)

fail() {
    echo "dist: the $what $1" >&2
    echo "bring it up to date by dist/update.sh, and commit what it writes" >&2
    exit 1
}

what=${1:-}
case $what in
program) files=wasmloop ;;
library) files='libwasmloop.a libwasmloop.so.0' ;;
*) sed -n 's/^#  *\(usage: \)\{0,1\}dist/usage: dist/p' "$0" >&2 && exit 2 ;;
esac
changed=$("$dist/sums.sh" "$what" | grep -vxFf "$dist/SOURCES" || true)
[ -z "$changed" ] || fail "was built of other sources:
$(echo "$changed" | sed 's/^[0-9a-f]*  //; s/:.*//' | head -n 10)"
for file in $files; do
    (cd "$dist" && grep "  $file\$" SHA256 | sha256sum --check --quiet - >&2) || fail "has a file $file that dist/SHA256 does not name so"
    [ $# -eq 1 ] || cmp "$dist/$file" "$([ -d "$2" ] && echo "$2/$file" || echo "$2")" || fail "is not, byte for byte, $2"
done
echo "dist: the $what is of these sources${2:+, and $2 has the same bytes}"
