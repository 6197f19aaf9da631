#!/bin/sh
# Follows docs/GUESTS.md, and what examples/kit says of a library, in an empty folder: `guests_test.sh PROGRAM`. Files, commands and what
# they print are cut out of the pages, LOOP is this repository with PROGRAM as its `wasmloop`. It ends with 1 if something fails or is not
# what the page says. What lacks a package is left out, and said; zlib's source comes by apt (APT_CONFIG may name other lists).
set -u
top=$(cd "$(dirname "$0")/.." && pwd)
page=$top/docs/GUESTS.md
program=$(readlink -f "$1")
unset CARGO_TARGET_DIR
work=$(mktemp -d)
trap 'rm -r "$work"' EXIT
mkdir "$work/LOOP" "$work/here"
ln -s "$top/examples" "$work/LOOP/examples"
ln -s "$program" "$work/LOOP/wasmloop"
cd "$work/here" || exit 1
wrong=0

left_out() { echo "GUESTS: left out: $*"; }
fail() { echo "GUESTS: FAILED: $*"; wrong=1; }
has() { [ -e "$1" ] || command -v "$1" >/dev/null; }

# the block of code that stands under `NAME`:, to NAME
file() {
    awk -v name="\`$1\`:" '$0 == name { found = 1 } found && /^```/ { if (inside) exit; inside = 1; next } inside' "$page" >"$1"
    [ -s "$1" ] || fail "no file $1 in the page"
}
# the indented lines in which WORD stands
block() { awk -v RS= -v word="$1" '/^    / && index($0, word) { print; exit }' "$page" | sed 's/^    //'; }
# what stands between backquotes and begins so
inline() { grep -o "\`$1[^\`]*\`" "$page" | head -n 1 | tr -d '`'; }
run() { printf '%s\n' "$1" | sed "s|LOOP/|$work/LOOP/|g" | sh -e >told 2>problem || { fail "$1"; cat problem; }; }
# prints COMMANDS WANTED: all that COMMANDS print
prints() {
    run "$1"
    printf '%s\n' "$2" | cmp -s - told && echo "GUESTS: $(printf '%s' "$2" | tail -n 1)" || { fail "$1"; cat told; }
}

tick() {
    run "$(block 'examples/uv.h LOOP')"
    file tick.c
    prints "$(block 'check tick.wasm')" "$(block accepted)"
}
square() {
    file square.c
    run "$(block 'check tick.wasm' | head -n 2 | sed 's/tick/square/g')"
    prints "LOOP/wasmloop $(inline 'serve square.wasm')" "$(inline 'loop 0 over emits 1 0 144 2')"
    prints "$(inline 'LOOP/wasmloop work square.wasm 12')" "$(inline 'done 144')"
    run "$(inline 'LOOP/wasmloop work square.wasm 12 --trace') 2>&1 >/dev/null | sed 's/used //; s/ of .*//'"
    prints "LOOP/wasmloop work square.wasm 12 --fuel $(cat told)" "$(inline 'done 144')"
}
script() {
    block 'loops square.wasm' >square.steps
    run "$(block 'script.py square.steps')"
    prints "LOOP/wasmloop script square.json | tail -n 5" "$(block 'run after 2')"
    run "LOOP/wasmloop script square.json | sed 's/ used [0-9]*//'"
    cp told square.expected
    prints "$(block 'square.expected'); echo the log is as it was" "the log is as it was"
    run "$(block 'served.svg')"
    # the served run, taken again by a script
    run "(echo loops square.wasm; echo workers 1; sed -nE 's/^(clock .*)\$|^([a-z]+ [0-9]+) .*\$/\\1\\2/p' served.log) > served.steps
python3 LOOP/examples/script.py served.steps > served.json
LOOP/wasmloop script served.json"
    cp told played
    prints "grep -v '^loop 0: ' served.log | cmp - played; echo the served run is taken again" "the served run is taken again"
}
rust() {
    run "$(block 'examples/uv.rs .')"
    rm -f tick.wasm
    run "$(block "$1")"
    prints "LOOP/wasmloop serve tick.wasm --loops 1 --workers 1" "$(inline 'loop 0 over emits 10')"
}
cargo_template() {
    run "$(inline 'cp -r LOOP')"
    run "cd tick; $(inline 'RUSTC=')"
    prints "LOOP/wasmloop serve tick/target/wasm32-unknown-unknown/release/tick.wasm --loops 1 --workers 1" \
        "$(inline 'loop 0 over emits 10')"
}
library() {
    page=$top/examples/kit/README.md
    if ! block 'apt-get source' | sh -e >told 2>problem; then
        left_out "a library: $(tail -n 1 problem)"
        return
    fi
    rm -f ./*.o
    file squeeze.c
    prints "$(block 'squeeze.c')" "$(inline 'done 13 bytes')"
}

if has clang && has wasm-ld; then
    tick && square
    if has python3; then script; else left_out "a script: no python3"; fi
else
    left_out "C: no clang or no wasm-ld"
fi
if [ -d "$(rustc --print target-libdir --target wasm32v1-none 2>/dev/null)" ]; then
    rust 'rustc --edition 2021 --target wasm32v1-none'
else
    left_out "Rust: no rustc with wasm32v1-none"
fi
if has /usr/bin/rustc && has /usr/lib/rustlib/wasm32-unknown-unknown && has wasm-ld; then
    rust '/usr/bin/rustc --edition'
    if has /usr/bin/cargo; then cargo_template; else left_out "Cargo"; fi
else
    left_out "Rust: no rustc, libstd-rust-dev-wasm32 or lld of Debian's"
fi
if has clang && has /usr/lib/wasm32-wasi/libc.a; then library; else left_out "a library: no clang or no wasi-libc"; fi
exit $wrong
