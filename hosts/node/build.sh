#!/bin/sh
# Makes out/wasmloop.node with the compiler alone. NODE_INCLUDE: where node_api.h is. (libnode-dev, or Node's own package)
set -eu
cd "$(dirname "$0")"
mkdir -p out
# shellcheck disable=SC2086
${CC:-cc} -O2 -Wall -Wextra ${CFLAGS:-} -shared -fPIC -o out/wasmloop.node addon.c -I "${NODE_INCLUDE:-/usr/include/node}" -I ../../capi/include \
    "${WASMLOOP_FOLDER:-../../dist}/libwasmloop.a" -Wl,--exclude-libs,ALL
