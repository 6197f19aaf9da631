#!/bin/sh
# Builds the plug-ins of plugins/ and runs the tests of instances on them.
#
# usage: instance_test.sh PREFIX OUT       PREFIX: where install.sh put the library; OUT: a folder. Needs clang, wasm-ld and wat2wasm.
set -e
here=$(cd "$(dirname "$0")" && pwd) prefix=$(cd "$1" && pwd)
mkdir -p "$2"
out=$(cd "$2" && pwd)
clang --target=wasm32 -mcpu=mvp -O1 -fno-optimize-sibling-calls -ffreestanding -fno-builtin -c -o "$out/kv.o" "$here/plugins/kv.c"
wasm-ld --no-entry --stack-first -z stack-size=8192 -o "$out/kv.wasm" "$out/kv.o"
for name in start fails plain; do wat2wasm -o "$out/$name.wasm" "$here/plugins/$name.wat"; done
${CC:-cc} -std=c11 -Wall -Wextra -Werror -g -fsanitize=address,undefined -fno-sanitize-recover=all "-I$prefix/include" -o "$out/instance_test" \
    "$here/instance_test.c" "$prefix/lib/libwasmloop.a"
"$out/instance_test" "$out"
WASMLOOP_LIBRARY=$prefix/lib/libwasmloop.so.0 PYTHONPATH=$here/../python PYTHONDONTWRITEBYTECODE=1 python3 "$here/instance_test.py" "$out"
