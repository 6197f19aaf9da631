#!/usr/bin/env bash
# What `serve` does with threads that no clause says: tests/threads.sh PROGRAM
#
# Where a thread can't be made, whichever it is, `serve` ends with `memory`, and no thread waits for ever. The work functions of one worker
# use one memory, one after the other. A thread that waits takes no processor time (trials/idle). It needs cc and python3.
set -euo pipefail
if [ $# -ne 1 ]; then
    echo "usage: tests/threads.sh PROGRAM" >&2
    exit 2
fi
program=$(realpath "$1")
top=$(cd "$(dirname "$0")/.." && pwd)
room=$(mktemp -d)
trap 'rm -rf "$room"' EXIT
fail() { echo "tests/threads.sh: $*" >&2; exit 1; }

cc -std=c11 -O1 -Wall -Wextra -shared -fPIC -o "$room/threads.so" "$top/tests/threads.c"

# uv_main asks for 32 pieces of work; the last after-work emits the sum of their results
python3 - > "$room/asks.wasm" << 'END'
import sys
sys.stdout.buffer.write(bytes.fromhex("""
    0061736d 01000000 011b0560037f7f7f017f60017e017f60000060017f017f60037f7f7f00
    021b020275760a71756575655f776f726b000002757604656d69740001 030403020304 0503010001 0610037f0141000b7f0141000b7f0141000b
    0725030775765f6d61696e00020775765f776f726b00030d75765f61667465725f776f726b0004
    0a45031c00034023004100410010001a230041016a240023004120490d000b0b0700200020006a0b1e00230220026a2402230141016a2401230141204604402302ad10011a0b0b"""))
END
right='loop 0 over emits 992
loop 1 over emits 992'

# serve [NAME=VALUE]: two loops and three workers, which makes five threads
serve() {
    status=0
    env LD_PRELOAD="$room/threads.so" "$@" timeout 60 "$program" serve "$room/asks.wasm" --loops 2 --workers 3 > "$room/out" 2> "$room/err" || status=$?
}
for thread in 1 2 3 4 5; do
    serve "REFUSED_THREAD=$thread"
    if [ "$status" != 1 ] || [ -s "$room/out" ] || [ "$(cat "$room/err")" != memory ]; then
        fail "without thread $thread serve ends with $status (124: it didn't end): $(cat "$room/out" "$room/err")"
    fi
done
serve REFUSED_THREAD=6
[ "$status" = 0 ] && [ "$(cat "$room/out")" = "$right" ] || fail "serve ends with $status: $(cat "$room/out" "$room/err")"

# a memory of 4 MiB for the loop, and one for the 32 work functions
env LD_PRELOAD="$room/threads.so" TELL_LARGE=1 "$program" serve "$room/asks.wasm" --loops 1 --workers 1 > "$room/out" 2> "$room/err"
[ "$(cat "$room/err")" = LL ] || fail "the 32 work functions of one worker don't use one memory: $(cat "$room/err")"

"$top/trials/idle/run.py" "$program"
echo "five threads refused one by one; one memory for 32 work functions"
