#!/bin/sh
# `check.sh PROGRAM [CRATE..]` builds `deflate` and `means.rs` by Debian's packages (cargo, rustc, libstd-rust-dev-wasm32,
# librust-miniz-oxide-dev, lld, clang), without a network, and runs them beside native builds of the same sources
# (check.py), and then these crates of crates/, or all. It ends with 1 where an answer differs; what lacks a package is left out, and said.
set -eu
here=$(cd "$(dirname "$0")" && pwd)
program=$1
shift
cargo=/usr/bin/cargo
target=wasm32-unknown-unknown
for file in $cargo /usr/bin/rustc /usr/lib/rustlib/$target /usr/share/cargo/registry/miniz_oxide-0.6.2 \
    "$(command -v wasm-ld || echo wasm-ld)" "$(command -v clang || echo clang)"; do
    [ -e "$file" ] || { echo "Rust: left out, there is no $file" && exit 0; }
done
work=$(mktemp -d)
trap 'rm -r "$work"' EXIT
cp -r "$here/deflate" "$here/means.rs" "$here/../uv.rs" "$work"
cp "$here/../uv.rs" "$work/deflate/src"

build() {
    (cd "$1" && shift && RUSTC=/usr/bin/rustc $cargo build -q --release --offline "$@" \
        --config 'source.crates-io.replace-with="debian"' --config 'source.debian.directory="/usr/share/cargo/registry"')
}

# native GUEST.rs NAME: the same source as a program
native() {
    rm -rf "$work/native/src"
    mkdir -p "$work/native"
    cp -r "$here/native/." "$work/native"
    mkdir "$work/native/src/guest"
    cp "$1" "$work/native/src/guest/mod.rs"
    cp "$here/../uv.rs" "$work/native/src/guest"
    build "$work/native"
    mv "$work/native/target/release/native" "$work/$2.native"
}

build "$work/deflate" --target $target
cp "$work/deflate/target/$target/release/deflate.wasm" "$work"
if grep -aq _ZN "$work/deflate.wasm"; then echo "Rust: its names are mangled" && exit 1; fi
native "$here/deflate/src/lib.rs" deflate

/usr/bin/rustc --edition 2021 --target $target -C target-cpu=mvp -C linker=wasm-ld --crate-type cdylib -O \
    -C panic=abort -C strip=debuginfo -C link-args="--export-table --demangle --stack-first -zstack-size=65536" \
    -o "$work/means.wasm" "$work/means.rs"
clang --target=wasm32 -mcpu=mvp -O2 -ffreestanding -c -o "$work/soft.o" "$here/../kit/soft.c"
wasm-ld --no-entry --strip-all -o "$work/soft.wasm" "$work/soft.o"
python3 "$here/../kit/lower.py" "$work/means.wasm" "$work/means.wasm" --soft "$work/soft.wasm"
native "$here/means.rs" means
python3 "$here/check.py" "$program" "$work" "$here/../crowd.svg" /usr/share/common-licenses/GPL-3 "$program"
python3 "$here/crates/check.py" "$program" "$work" "$@"
