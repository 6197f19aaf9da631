#!/bin/sh
# How many megabytes of a module are read and checked in a second, beside wabt's wasm-validate: bench/decode/run.sh PROGRAM
#
# The module is the largest example, sha256.wasm, with its functions repeated up to nearly 1,048,576 bytes
# (decode.py). `wasmloop check` reads, validates and links it, and `wasm-validate` reads and validates it; both are
# run RUNS times over, and the time of as many runs on an empty module is taken off.
set -eu
if [ $# -ne 1 ]; then
    echo "usage: bench/decode/run.sh PROGRAM" >&2
    exit 2
fi
program=$1
top=$(cd "$(dirname "$0")/../.." && pwd)
runs=${RUNS:-20}
folder=$(mktemp -d)
trap 'rm -r "$folder"' EXIT
printf '\0asm\1\0\0\0' >"$folder/empty.wasm"
python3 "$top/bench/decode/enlarge.py" "$top/examples/sha256.wasm" "$folder/large.wasm"

nanoseconds() { # of all runs of a command on a file
    begin=$(date +%s%N)
    for _ in $(seq "$runs"); do
        "$@" >/dev/null
    done
    echo $(($(date +%s%N) - begin))
}

throughput() { # of a command, which is given the file as its last word
    spent=$(($(nanoseconds "$@" "$folder/large.wasm") - $(nanoseconds "$@" "$folder/empty.wasm")))
    bytes=$(wc -c <"$folder/large.wasm")
    awk -v bytes="$((bytes * runs))" -v ns="$spent" 'BEGIN { printf "%.1f MB/s\n", bytes * 1000 / ns }'
}

"$program" check "$folder/large.wasm"
printf 'wasmloop check: %s\n' "$(throughput "$program" check)"
if command -v wasm-validate >/dev/null; then
    printf 'wasm-validate:  %s\n' "$(throughput wasm-validate)"
fi
