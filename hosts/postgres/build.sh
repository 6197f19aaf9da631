#!/bin/sh
# Makes the extension in out/, for the PostgreSQL that pg_config names: build.sh. `make -C out install` then installs it. (postgresql-server-dev-15)
set -eu
cd "$(dirname "$0")"
top=$(cd ../.. && pwd)
mkdir -p out/lib
cp wasmloop_pg.c modules.c wasmloop_pg.h wasmloop.control wasmloop--0.1.sql Makefile out
cp ../host.h out
sed -i 's|"../host.h"|"host.h"|' out/wasmloop_pg.h
cp -r "$top/capi/include" out
objcopy --redefine-sym malloc=wasmloop_pg_malloc --redefine-sym realloc=wasmloop_pg_realloc --redefine-sym free=wasmloop_pg_free \
    "${WASMLOOP_FOLDER:-$top/dist}/libwasmloop.a" out/lib/libwasmloop.a
make -s -C out with_llvm=no COPT=-Werror
