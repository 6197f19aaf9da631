#!/bin/sh
# What somebody meets who has no kit: clones the repository into an empty folder, hides `rt`, and goes each way in. Each way prints what it
# took; one that fails, or takes more than SECONDS, is reported, and the status is 1. What lacks a program is left out, and said. bare.sh does
# so in a bare Debian.
#
# usage: tests/outsider.sh [SECONDS]       20 by default; what is shipped must be of the sources of HEAD
set -u
from=$(cd "$(dirname "$0")/.." && pwd) most=${1:-20}
work=$(mktemp -d)
trap 'rm -rf "$work"' EXIT
version=$(sed -n 's/^#define WASMLOOP_VERSION "\(.*\)"$/\1/p' "$from/capi/include/wasmloop.h")
mkdir "$work/bin"
# every command of the path but rt
echo "$PATH" | tr : '\n' | while read -r folder; do
    for file in "$folder"/*; do
        name=${file##*/}
        [ "$name" = rt ] || [ ! -x "$file" ] || [ -e "$work/bin/$name" ] || ln -s "$file" "$work/bin/$name"
    done
done
PATH=$work/bin
unset WASMLOOP_LIBRARY WASMLOOP_FOLDER PKG_CONFIG_PATH CARGO_TARGET_DIR PYTHONPATH
cd "$work" || exit 1
wrong=0

# way NAME WANTED TOOL COMMANDS: where the tool is there, the commands print that
way() {
    command -v "$3" > /dev/null || { echo "left out: $1: there is no $3"; return; }
    began=$(date +%s%N)
    told=$(sh -eu -c "$4" 2> problem) && [ "$told" = "$2" ]
    status=$? took=$((($(date +%s%N) - began) / 10000000))
    printf '%-24s %3d.%02d s  ' "$1" $((took / 100)) $((took % 100))
    if [ $status -eq 0 ] && [ $took -le $((most * 100)) ]; then echo good; return; fi
    wrong=1
    echo "FAILED: $told $(tail -n 1 problem)"
}

way 'clone and first command' 'done 3 bytes 32 ba7816bf8f01cfea414140de5dae2223b00361a396177a9cb410ff61f20015ad' git \
    "git clone -q '$from' tree && tree/wasmloop work tree/examples/sha256.wasm 0 616263"
way 'by a link in the path' "wasmloop $version" ln 'mkdir link && ln -s "$PWD/tree/wasmloop" link/wasmloop && link/wasmloop --version'
way 'a guest in C' 'loop 0 over emits 0 10 20 30 0 -22' clang \
    'cp tree/examples/ticker.c g.c && cp tree/examples/uv.h tree/examples/mem.c . &&
     clang --target=wasm32 -mcpu=mvp -O2 -ffreestanding -c g.c mem.c &&
     wasm-ld --no-entry --export-table --stack-first -z stack-size=16384 -o g.wasm g.o mem.o && tree/wasmloop serve g.wasm --loops 1 --workers 1'
way 'a host in C' 891568578 cc \
    'PREFIX=$PWD/prefix tree/install.sh > told &&
     awk "/^\`\`\`c\$/ { on = 1; next } /^\`\`\`\$/ { if (on) exit } on" tree/docs/EMBEDDING.md > first.c &&
     cc -o first first.c -Iprefix/include prefix/lib/libwasmloop.a && ./first tree/examples/crc32.wasm'
if python3 -c 'import ensurepip' 2> /dev/null; then venv=python3; else venv=python3-venv; fi
way 'a host in Python' 891568578 $venv \
    'python3 -m venv env && env/bin/pip install -q --no-index --no-cache-dir --disable-pip-version-check ./tree/capi &&
     env/bin/python3 -c "from wasmloop import Module; print(Module(open(\"tree/examples/crc32.wasm\", \"rb\").read()).work(0, b\"abc\").value)"'
way 'a host in Rust' 'loop 0 over emits 0 10 20 30 0 -22' cargo 'cd tree/capi/rust && cargo run -q --offline --bin host ../../examples/ticker.wasm'
exit $wrong
