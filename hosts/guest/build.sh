#!/bin/sh
# Makes rules.wasm and echo.wasm beside their sources (clang, wasm-ld). The files in the repository are what Debian 12's clang 14 makes.
set -eu
cd "$(dirname "$0")"
for file in rules.c echo.c ../../examples/mem.c; do
    clang --target=wasm32 -mcpu=mvp -O2 -Wall -Wno-infinite-recursion -ffreestanding -I ../../examples -c -o "$(basename "$file" .c).o" "$file"
done
for name in rules echo; do
    wasm-ld --no-entry --export-table --stack-first --strip-debug -z stack-size=4096 -o $name.wasm $name.o mem.o
    chmod 644 $name.wasm
done
rm rules.o echo.o mem.o
