#!/usr/bin/env bash
# Refuses the program each of its allocations in turn, and looks at how it ends: trials/memory/run.sh PROGRAM
#
# It needs cc and python3, and for the program that goes on after a fault, which it builds, a copy of the repository with
# what is proved of it, some gigabytes.
set -euo pipefail
if [ $# -ne 1 ]; then
    echo "usage: trials/memory/run.sh PROGRAM" >&2
    exit 2
fi
program=$(realpath "$1")
top=$(cd "$(dirname "$0")/../.." && pwd)
work=$(mktemp -d)
trap 'rm -rf "$work"' EXIT

cc -std=c11 -O1 -Wall -Wextra -shared -fPIC -o "$work/refuse.so" "$top/trials/memory/refuse.c"

# The same program, but that it goes on with the next steps of a script where one found no memory.
copy=$work/copy
mkdir -p "$copy/tools"
cp -a "$top/HANDLES" "$top/crates.txt" "$top/wasmloop" "$top/build.py" "$top/crates" "$copy/"
# (build.py's table of what each crate takes)
cp "$top/tools/gate.txt" "$copy/tools"
python3 "$top/trials/memory/go_on.py" "$copy/crates/scripting/src/running.rt"
"$copy/wasmloop" --version

python3 "$top/trials/memory/ends.py" "$program" "$copy/crates/wasmloop/out/wasmloop" "$work/refuse.so"
echo "each run ended as with memory, or by a named want of memory"
