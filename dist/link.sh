#!/bin/sh
# Makes libwasmloop.a and libwasmloop.so.0 in a folder, of the proved archive (`python3 build.py wasmloop_c`) and the C files of capi. The
# kit's own compiler, linker and libc do it, without the machine's headers, so that the bytes depend on the sources and the kit alone.
#
# usage: dist/link.sh OUT
set -eu
export LC_ALL=C
capi=$(cd "$(dirname "$0")/../capi" && pwd)
archive=$capi/../crates/wasmloop_c/out/libwasmloop_c.a
KIT=${KIT:-$(dirname "$(dirname "$(readlink -f "$(command -v rt)")")")}
mkdir -p "$1"
out=$(cd "$1" && pwd) parts=$(mktemp -d)
trap 'rm -rf "$parts"' EXIT
# one program of the kit is all of LLVM's tools, by the name that it is called by
for tool in clang ld.lld llvm-ar llvm-objcopy; do ln -s "$KIT/toolchain/bin/clang" "$parts/$tool"; done
names=$(sed -n 's/^[a-z].*[ *]\(wasmloop_[a-z_]*\)(.*/\1/p' "$capi/include/wasmloop.h")
version=$(sed -n 's/^#define WASMLOOP_VERSION "\(.*\)"$/\1/p' "$capi/include/wasmloop.h")

cd "$parts"
"$parts/llvm-ar" x "$archive"
"$parts/llvm-ar" x "$KIT/c/liblibc_c.a"
echo "$names" > names

# one object, in which the header's names alone are global: so a host may have other libraries of Rattle's beside it. Its words: the names' visibility
made() {
    for part in wasmloop names; do
        "$parts/clang" --target=x86_64-unknown-linux-gnu -std=c99 -Wall -Wextra -Werror -O2 -fPIC -fno-asynchronous-unwind-tables "-fvisibility=$1" \
            -nostdinc "-I$capi/include" -isystem "$capi/kit" -c -o "public_$part.o" "$capi/$part.c"
    done
    rm -f all.o wasmloop.o
    "$parts/ld.lld" -r -o all.o ./*.o
    "$parts/llvm-objcopy" --keep-global-symbols=names --strip-unneeded all.o wasmloop.o
    rm all.o
}

# a shared object that this archive is linked into does not export the header's names: two of them in a process may have two versions
made hidden
rm -f "$out/libwasmloop.a"
"$parts/llvm-ar" rcsD "$out/libwasmloop.a" wasmloop.o
made default

{
    echo 'WASMLOOP_0 { global:'
    echo "$names" | sed 's/$/;/'
    echo 'local: *; };'
} > names.map
metadata=$(printf '{"type":"rattle","name":"libwasmloop","version":"%s","logic":"%s"}' "$version" "$(sed 's/.* //' "$KIT/KIT-ID")")
"$parts/ld.lld" -shared -soname libwasmloop.so.0 --version-script names.map --no-undefined --hash-style=gnu --build-id=sha1 \
    -z now -z relro -z noexecstack -z separate-code "--package-metadata=$metadata" -o "$out/libwasmloop.so.0" wasmloop.o "$KIT/toolchain/lib/libc.so.6"
"$parts/llvm-objcopy" --strip-all "$out/libwasmloop.so.0"
