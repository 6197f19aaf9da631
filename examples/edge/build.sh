#!/bin/sh
# Builds the server: `build.sh OUT [LIBRARY]` makes the program OUT. LIBRARY is libwasmloop.a, or the folder that has it (dist/ by default); a
# wasmloop.h beside it is used instead of that of capi/. It needs libuv, and libllhttp or libhttp-parser (Debian: libuv1-dev and libllhttp-dev
# or libhttp-parser-dev). CC names the compiler, CFLAGS adds flags; with -static the program needs no other file.
set -eu
here=$(cd "$(dirname "$0")" && pwd)
library=${2:-$here/../../dist} header=$here/../../capi/include
[ ! -f "$library" ] || library=$(dirname "$library")
[ ! -f "$library/wasmloop.h" ] || header=$library
if pkg-config --exists libllhttp 2> /dev/null; then
    parser="-DEDGE_LLHTTP $(pkg-config --cflags --libs libllhttp)"
else
    parser=-lhttp_parser
fi
case " ${CFLAGS:-} " in
*' -static '*) uv=$(pkg-config --static --libs libuv-static) ;;
*) uv=-luv ;;
esac
# (-r records loops: the recorder stands between the server and the library)
recorder=$here/../../capi/record_wrap.c
wrapped=$(sed -n 's/^REAL(\([a-z_]*\),.*$/-Wl,--wrap=wasmloop_\1/p' "$recorder")
# shellcheck disable=SC2086
"${CC:-cc}" -std=c11 -D_GNU_SOURCE -O2 -Wall -Wextra -Wpedantic ${CFLAGS:-} -I"$header" -o "$1" \
    "$here"/*.c "$recorder" $wrapped "$library/libwasmloop.a" $uv $parser -lpthread
