#!/bin/sh
# Proves all that program and library stand on and builds them, from nothing, in a folder of its own, and says whether the bytes are those
# of dist/. It needs the kit and Python 3, and 2.5 GB of disk space.
#
# usage: dist/prove.sh [program|library]
set -eu
case $* in
'') products='program library' crates='wasmloop wasmloop_c' ;;
program) products=program crates=wasmloop ;;
library) products=library crates=wasmloop_c ;;
*)
    echo 'usage: dist/prove.sh [program|library]' >&2
    [ "$1" = --help ] && exit
    exit 2
    ;;
esac
top=$(cd "$(dirname "$0")/.." && pwd)
folder=$(mktemp -d)
trap 'rm -rf "$folder"' EXIT
cp -r "$top/build.py" "$top/HANDLES" "$top/capi" "$top/dist" "$folder"
# (build.py's table of what each crate takes)
mkdir "$folder/tools"
cp "$top/tools/gate.txt" "$folder/tools"
"$top/dist/sums.sh" | sed -n 's/^[0-9a-f]*  \([a-z_]*\)[^:]*:.*/\1/p' | while read -r crate; do
    mkdir -p "$folder/crates/$crate"
    for part in src specs proofs; do
        [ ! -d "$top/crates/$crate/$part" ] || cp -r "$top/crates/$crate/$part" "$folder/crates/$crate"
    done
done
# (the kit refuses a crate that is named and isn't there)
while read -r line; do
    [ ! -d "$folder/crates/${line%%[ :]*}/src" ] || echo "$line"
done <"$top/crates.txt" >"$folder/crates.txt"
# (it says on standard error how far it is, and how many minutes are left)
python3 "$folder/build.py" $crates
for product in $products; do
    case $product in
    program) made=$folder/crates/wasmloop/out/wasmloop ;;
    library) made=$folder/linked && "$folder/dist/link.sh" "$made" ;;
    esac
    "$top/dist/same.sh" "$product" "$made"
done
