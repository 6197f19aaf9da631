#!/bin/sh
# The kit's own tests: `run.sh PROGRAM`, offline, some seconds. They want clang, lld, wabt, wasi-libc and
# libclang-rt-14-dev-wasm32; a test that lacks one of them, or the program, says so and is left out.
set -eu
here=$(cd "$(dirname "$0")" && pwd)
kit=$here/..
program=${1:-}
work=$(mktemp -d)
trap 'rm -r "$work"' EXIT
libc=/usr/lib/wasm32-wasi

# has TEST TOOL..: whether all tools are there
has() {
    test=$1
    shift
    for tool; do
        command -v "$tool" >/dev/null || { echo "$test: left out, there is no $tool" && return 1; }
    done
}

# C's functions beside the processor and the C library
native() {
    clang -O2 -Wall -Wextra -ffp-contract=off -o "$work/soft" "$here/soft_test.c" -lm
    "$work/soft" "${TURNS:-300000}"
    clang -std=c11 -O2 -Wall -Wextra -fno-builtin -o "$work/mem" "$here/mem_test.c"
    "$work/mem"
}

soft_module() {
    clang --target=wasm32 -mcpu=mvp -O2 -ffreestanding -c -o "$work/soft.o" "$kit/soft.c"
    wasm-ld --no-entry --strip-all -o "$work/soft.wasm" "$work/soft.o"
}

# setjmp, longjmp and sums of floats through lower.py, beside the native program
jump() {
    for source in "$here/jump.c" "$kit/guest.c" "$kit/wasi.c" "$kit/nofiles.c" "$kit/setjmp.c" "$kit/../mem.c"; do
        case $source in *jump.c) jumps="-mllvm -enable-emscripten-sjlj" ;; *) jumps=-ffreestanding ;; esac
        clang --target=wasm32-wasi -mcpu=mvp -O2 $jumps -isystem "$kit" -I "$kit" -I "$kit/.." -c \
            -o "$work/wasm_$(basename "$source" .c).o" "$source"
    done
    wasm-ld --no-entry --export-table --stack-first --strip-all --import-undefined -z stack-size=65536 \
        -o "$work/jump.wasm" "$work"/wasm_*.o "$libc/libc.a" "$builtins"
    python3 "$kit/lower.py" "$work/jump.wasm" "$work/jump.wasm" --soft "$work/soft.wasm"
    clang -O2 -w -I "$kit" -o "$work/jump" "$here/jump.c" "$kit/native.c"
    "$work/jump" 5 </dev/null >"$work/native"
    "$program" work "$work/jump.wasm" 5 --fuel 100000000 --depth 128 >"$work/told"
    cmp "$work/native" "$work/told"
    echo "jump: $(wc -c <"$work/told") letters as native"
}

# bytes that fill.py lays into a guest
fill() {
    for source in "$here/schedule.c" "$kit/../mem.c"; do
        clang --target=wasm32 -mcpu=mvp -O2 -Wall -Wextra -ffreestanding -I "$kit/.." -c -o "$work/fill_$(basename "$source" .c).o" "$source"
    done
    wasm-ld --no-entry --export-table --stack-first --strip-debug -z stack-size=16384 --export=config --export=config_length \
        --export=config_room -o "$work/schedule.wasm" "$work"/fill_*.o
    printf '30 10 20' | python3 "$kit/fill.py" "$work/schedule.wasm" config "$work/filled.wasm"
    told=$("$program" serve "$work/filled.wasm" --loops 1 --workers 1)
    [ "$told" = "loop 0 over emits 1 10 2 20 0 30" ] || { echo "fill: FAILED: $told" && exit 1; }
    for bytes in 64 65; do
        head -c $bytes /dev/zero | python3 "$kit/fill.py" "$work/schedule.wasm" config "$work/filled.wasm" 2>"$work/problem" || echo refused
    done >"$work/told"
    [ "$(cat "$work/told")" = refused ] && grep -q 'config has room for 64 bytes; given: 65' "$work/problem" || { echo "fill: FAILED" && exit 1; }
    if python3 "$kit/fill.py" "$work/schedule.wasm" nothing "$work/filled.wasm" </dev/null 2>"$work/problem"; then echo "fill: FAILED" && exit 1; fi
    grep -q 'it exports no data nothing: link it with --export=nothing; it exports config, config_length, config_room' "$work/problem" ||
        { echo "fill: FAILED" && cat "$work/problem" && exit 1; }
    echo "fill: $told"
}

if has "soft and mem" clang; then native; fi
if has "fill" clang wasm-ld "${program:-PROGRAM}"; then fill; fi
if has "lower" clang wasm-ld wat2wasm; then
    soft_module
    python3 "$here/lower_test.py" "$work/soft.wasm" ${program:+"$program"}
fi
if has "random modules" clang wasm-ld node "${program:-PROGRAM}"; then
    soft_module
    python3 "$here/fuzz.py" "$program" "$work/soft.wasm" "${MODULES:-100}"
fi
if has "jump" clang wasm-ld "${program:-PROGRAM}"; then
    builtins=$(clang --target=wasm32-wasi -print-libgcc-file-name)
    if [ -f "$libc/libc.a" ] && [ -f "$builtins" ]; then
        soft_module
        jump
    else
        echo "jump: left out, there is no wasi-libc or no libclang-rt-14-dev-wasm32"
    fi
fi
