#!/usr/bin/env bash
# Runs `serve` 1,000 times (RUNS: another count), with 8 loops of a guest that asks for work and 16 workers. Each run has to print the same lines.
#
#     trials/serve/run.sh PROGRAM
set -euo pipefail
if [ $# -ne 1 ]; then
    echo "usage: trials/serve/run.sh PROGRAM" >&2
    exit 2
fi
top=$(cd "$(dirname "$0")/../.." && pwd)
runs=${RUNS:-1000}
wanted=$(for loop in $(seq 0 7); do echo "loop $loop over emits 6"; done)
for run in $(seq "$runs"); do
    printed=$("$1" serve "$top/examples/asks.wasm" --loops 8 --workers 16)
    if [ "$printed" != "$wanted" ]; then
        printf 'run %s printed other lines:\n%s\n' "$run" "$printed" >&2
        exit 1
    fi
done
echo "$runs runs agree"
