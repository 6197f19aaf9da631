#!/bin/sh
# Runs the program, or a crate's tests, as the sources are now, without proving anything: the first look at a change. Needs Rattle's toolchain.
#
# usage: tools/try.sh WORD..           the program with these words, each file that they name at hand
#        tools/try.sh test [CRATE]     the tests of a crate, else of test_modules
#
# Ends as the program does, or with 1 if a test fails or the sources do not compile. A run has 120 seconds. In one checkout it and tools/prove.py
# wait for each other.
set -eu
top=$(cd "$(dirname "$0")/.." && pwd)
command -v rt > /dev/null || { echo "try.sh: there is no rt: Rattle's toolchain is not in PATH" >&2; exit 1; }
if [ "${1:-}" = test ]; then
    cd "$top/crates/${2:-test_modules}"
    exec rt try --test
fi
begun=
for word in "$@"; do
    [ -n "$begun" ] || set -- --
    begun=1
    if [ -f "$word" ]; then
        set -- --data "$(basename "$word")=$(readlink -f "$word")" "$@" "$(basename "$word")"
    else
        set -- "$@" "$word"
    fi
done
cd "$top/crates/wasmloop"
exec rt try "$@"
