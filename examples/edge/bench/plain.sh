#!/bin/sh
# Builds the server over plain.c in place of the library: `plain.sh OUT`.
set -eu
here=$(cd "$(dirname "$0")" && pwd)
made=$(mktemp -d)
trap 'rm -rf "$made"' EXIT
"${CC:-cc}" -O2 -w -I "$here/../../../capi/include" -c "$here/plain.c" -o "$made/plain.o"
ar rcs "$made/libwasmloop.a" "$made/plain.o"
"$here/../build.sh" "$1" "$made"
