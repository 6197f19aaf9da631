#!/bin/sh
# Tests the tools of the Python package: lines of planted traps, replays of random hosts, sums of profiles, frozen guests; and the recorder for
# hosts in C, linked with the host on libuv. About a minute. Parts that need a missing compiler, llvm-symbolizer or libuv are left
# out, and said.
#
# usage: tests/desk.sh PROGRAM [OUT]       exits with 1 if a test fails
set -eu
top=$(cd "$(dirname "$0")/.." && pwd) program=$(readlink -f "$1") out=${2:-$(mktemp -d)}
mkdir -p "$out"
[ $# -gt 1 ] || trap 'rm -rf "$out"' EXIT
WASMLOOP_LIBRARY=$top/dist/libwasmloop.so.0 PYTHONPATH=$top/capi/python PYTHONDONTWRITEBYTECODE=1
export WASMLOOP_LIBRARY PYTHONPATH PYTHONDONTWRITEBYTECODE
command -v python3 > /dev/null || { echo 'left out: the tools in Python: python3 is missing'; exit 0; }
python3 "$top/capi/test/desk_test.py" "$program" "$out"
if command -v clang > /dev/null && command -v wasm-ld > /dev/null; then python3 "$top/capi/test/hostile_test.py" "$out/hostile"
else echo 'left out: hostile guests: clang is missing'; fi

# an unmodified host in C: the replay of each loop's record emits what the host printed
if [ ! -f /usr/include/uv.h ] || ! command -v cc > /dev/null; then echo 'left out: the recorder for C: cc or libuv1-dev is missing'; exit 0; fi
sed -n 's/^REAL(\([a-z_]*\),.*$/--wrap=wasmloop_\1/p' "$top/capi/record_wrap.c" > "$out/record_wrap.opts"
cc -std=c11 -D_GNU_SOURCE -Wall -Wextra -Werror -g -O1 -fsanitize=address,undefined -fno-sanitize-recover -I"$top/capi/include" -o "$out/recorded" \
    "$top/hosts/c/host_uv.c" "$top/capi/record_wrap.c" "$top/dist/libwasmloop.a" -luv -lpthread "-Wl,@$out/record_wrap.opts"
replayed=0
for guest in "$top"/examples/*.wasm "$out/racy.wasm"; do
    [ -f "$guest" ] || continue
    rm -rf "$out/records" && mkdir "$out/records"
    VIRTUAL=1 WASMLOOP_RECORD=$out/records "$out/recorded" 2 < "$guest" > "$out/printed" 2> "$out/said" || true
    for number in 1 2; do
        [ -f "$out/records/loop.$number" ] || continue
        status=0
        python3 -m wasmloop.replay "$out/records/loop.$number" > "$out/log" 2>> "$out/said" || status=$?
        [ $status = 0 ] || [ $status = 4 ] || { echo "FAILED: the record of $guest"; cat "$out/said"; exit 1; }
        # what the loop emitted, and whether it failed
        emitted=$(sed -n 's/^loop 0 run .* emit \(.*\)$/\1/p' "$out/log" | tr '\n' ' ')
        wanted=$(sed -n "s/^loop $((number - 1)) \([a-z]*\)\( emits\)\{0,1\}//p" "$out/printed")
        # shellcheck disable=SC2116,SC2086 # (blanks are made one)
    [ "$(echo $emitted)" = "$(echo $wanted)" ] || { echo "FAILED: $guest emitted $wanted, and again $emitted"; exit 1; }
        replayed=$((replayed + 1))
    done
done
echo "recorder for C: $replayed loops of host_uv replay to what they printed"

# the limit of a record, and records that are kept only if something failed
first=$top/examples/ticker.wasm
rm -rf "$out/records" && mkdir "$out/records"
VIRTUAL=1 WASMLOOP_RECORD=$out/records WASMLOOP_RECORD_MOST=0 "$out/recorded" 1 < "$first" > "$out/printed"
python3 -m wasmloop.replay "$out/records/loop.1" > "$out/log" 2> "$out/said"
grep -q 'the record ends here, at its limit' "$out/said" || { echo 'FAILED: a record without room does not say that it is full'; exit 1; }
rm -rf "$out/records" && mkdir "$out/records"
VIRTUAL=1 WASMLOOP_RECORD=$out/records WASMLOOP_RECORD_KEEP=failed "$out/recorded" 2 < "$first" > "$out/printed"
[ -z "$(ls "$out/records")" ] || { echo 'FAILED: the record of a loop that did not fail is kept'; exit 1; }
if [ -f "$out/racy.wasm" ]; then
    VIRTUAL=1 WASMLOOP_RECORD=$out/records WASMLOOP_RECORD_KEEP=failed "$out/recorded" 1 < "$out/racy.wasm" > "$out/printed" 2>&1 || true
    grep -q failed "$out/printed" && [ ! -f "$out/records/loop.1" ] && { echo 'FAILED: the record of a loop that failed is removed'; exit 1; }
fi
echo 'recorder for C: limit and removal'

# a host that is told why a module is rejected; a record that can't be written for a while is a beginning, which can be run again
cc -std=c11 -D_GNU_SOURCE -Wall -Wextra -Werror -g -O1 -fsanitize=address,undefined -fno-sanitize-recover -I"$top/capi/include" -o "$out/record_test" \
    "$top/capi/test/record_test.c" "$top/capi/record_wrap.c" "$top/dist/libwasmloop.a" "-Wl,@$out/record_wrap.opts"
rm -rf "$out/records" && mkdir "$out/records"
WASMLOOP_RECORD=$out/records "$out/record_test" "$top/examples" "$out/records" > "$out/said" || { echo 'FAILED: record_test'; cat "$out/said"; exit 1; }
for number in 1 2 3; do
    python3 -m wasmloop.replay "$out/records/loop.$number" > "$out/log" || { echo "FAILED: record_test's record $number"; exit 1; }
done
echo 'recorder for C: loads that say why not, and records that could not be written whole'

# the edge server's -r: two requests within one millisecond make its guest fail, and the record fails in the same line
if [ ! -f /usr/include/llhttp.h ] && [ ! -f /usr/include/http_parser.h ] || [ ! -f "$out/racy.wasm" ]; then
    echo 'left out: records of the edge server: an HTTP parser or clang is missing'
    exit 0
fi
"$top/examples/edge/build.sh" "$out/edge"
python3 "$top/capi/test/desk_edge.py" "$out/edge" "$out" 20
