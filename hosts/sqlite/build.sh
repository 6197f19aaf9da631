#!/bin/sh
# Makes out/wasmloop.so, which SQLite loads. (libsqlite3-dev)
set -eu
cd "$(dirname "$0")"
mkdir -p out
# shellcheck disable=SC2086
${CC:-cc} -O2 -Wall -Wextra ${CFLAGS:-} -shared -fPIC -o out/wasmloop.so wasmloop_sqlite.c -I ../../capi/include \
    "${WASMLOOP_FOLDER:-../../dist}/libwasmloop.a" -Wl,--exclude-libs,ALL
