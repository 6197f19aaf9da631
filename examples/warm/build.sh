#!/bin/sh
# Builds Lua with a prelude and SQLite with a database as frozen guests: `build.sh OUT` writes OUT/shop.wasm and OUT/stock.wasm, whose requests
# are programs in Lua and in SQL. The sources come from Debian (apt-get source). It needs clang, lld, wasi-libc, libclang-rt-14-dev-wasm32,
# cc, make and tclsh.
set -eu
here=$(cd "$(dirname "$0")" && pwd)
mkdir -p "$1/src"
out=$(cd "$1" && pwd)
export PYTHONPATH="$here/../../capi/python"

# fetch PACKAGE: Debian's source of a package, unpacked
fetch() {
    [ ! -d "$out/src/$1" ] || return 0
    (
        cd "$out/src"
        APT_CONFIG=$("$here/../../tools/apt_config.sh" "$out/apt")
        export APT_CONFIG
        apt-get source -q --tar-only --download-only "$1" > "$out/apt.log" 2>&1
        mkdir "$1" && tar xf "$1"_*.orig.tar.* -C "$1" --strip-components=1
    )
}

fetch lua5.4
lua=$out/src/lua5.4/src
sources=$(find "$lua" -name 'l*.c' ! -name lua.c ! -name luac.c ! -name linit.c ! -name loslib.c ! -name liolib.c ! -name loadlib.c ! -name ldblib.c | sort)
# shellcheck disable=SC2086
python3 -m wasmloop.cc --libc --setjmp --stack 131072 -g -o "$out/lua.wasm" "$here/lua.c" $sources -- -w -I"$lua"
python3 -m wasmloop.freeze "$out/lua.wasm" --call init --in "$here/prelude.lua" -o "$out/shop.wasm"

fetch sqlite3
sqlite=$out/src/sqlite3
[ -f "$sqlite/sqlite3.c" ] || (cd "$sqlite" && ./configure > "$out/configure.log" 2>&1 && make sqlite3.c > "$out/make.log" 2>&1)
python3 -m wasmloop.cc --libc --stack 131072 -g -o "$out/sqlite.wasm" "$here/sqlite.c" "$sqlite/sqlite3.c" -- -w -Os -fno-jump-tables -I"$sqlite" \
    -DSQLITE_OS_OTHER=1 -DSQLITE_THREADSAFE=0 -DSQLITE_OMIT_LOAD_EXTENSION -DSQLITE_OMIT_WAL -DSQLITE_OMIT_DEPRECATED \
    -DSQLITE_OMIT_PROGRESS_CALLBACK -DSQLITE_OMIT_SHARED_CACHE -DSQLITE_OMIT_LOCALTIME -DSQLITE_OMIT_UTF16 -DSQLITE_OMIT_AUTHORIZATION \
    -DSQLITE_OMIT_TRACE -DSQLITE_OMIT_AUTOINIT -DSQLITE_DEFAULT_MEMSTATUS=0 -DSQLITE_DQS=0 -DSQLITE_TEMP_STORE=3 -DSQLITE_MAX_EXPR_DEPTH=0 \
    -DSQLITE_DEFAULT_CACHE_SIZE=500 -DSQLITE_OMIT_DECLTYPE -DSQLITE_UNTESTABLE -DSQLITE_DEFAULT_LOOKASIDE=1200,40
python3 -m wasmloop.freeze "$out/sqlite.wasm" --call init --in "$here/schema.sql" -o "$out/stock.wasm"
