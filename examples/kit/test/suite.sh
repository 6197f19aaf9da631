#!/bin/sh
# Runs the official suite's files of floating point and of bulk memory through lower.py: suite.sh PROGRAM. It takes them
# from Debian's package of binaryen's sources and wants wabt, clang and lld. Assertions of the suite's older form, which
# wast2json doesn't read, are written in the newer one; the type of a NaN is the one that the name of the function or of the
# file begins with. WORK names a folder that stays, whose spec may have the files.
set -eu
here=$(cd "$(dirname "$0")" && pwd)
program=$(readlink -f "$1")
work=${WORK:-$(mktemp -d)}
[ -n "${WORK:-}" ] || trap 'rm -r "$work"' EXIT
cd "$work"
if [ ! -d spec ]; then
    APT_CONFIG=$("$here/../../../tools/apt_config.sh" apt)
    export APT_CONFIG
    apt-get source -q --tar-only --download-only binaryen
    mkdir spec
    tar xf binaryen_*.orig.tar.* -C spec --strip-components=3 --wildcards '*/test/spec/*.wast'
fi
clang --target=wasm32 -mcpu=mvp -O2 -ffreestanding -c -o soft.o "$here/../soft.c"
wasm-ld --no-entry --strip-all -o soft.wasm soft.o
for f in f32 f32_bitwise f32_cmp f64 f64_bitwise f64_cmp conversions float_exprs float_literals float_memory float_misc const \
    bulk-memory; do
    case $f in f64*) kind=f64 ;; *) kind=f32 ;; esac
    sed -E -e "s/\(assert_return_(canonical|arithmetic)_nan (\(invoke \"(f32|f64)\.[^\"]*\".*\))\)/(assert_return \2 (\3.const nan:\1))/" \
        -e "s/\(assert_return_(canonical|arithmetic)_nan (\(invoke .*\))\)/(assert_return \2 ($kind.const nan:\1))/" \
        -e 's/^\(assert_trap (\(invoke .*\)\))\)$/(assert_trap \1 "")/' "spec/$f.wast" > "$f.wast"
    wast2json "$f.wast" -o "$f.json"
done
python3 "$here/suite.py" "$program" soft.wasm ./*.json
if command -v node >/dev/null; then node "$here/v8.mjs" bulk-memory.json; fi
