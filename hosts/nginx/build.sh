#!/bin/sh
# Makes out/ngx_http_wasmloop_module.so for Debian's nginx. (nginx-dev)
set -eu
here=$(cd "$(dirname "$0")" && pwd)
room=$(mktemp -d)
trap 'rm -rf "$room"' EXIT
mkdir -p "$here/out"
cp -a /usr/share/nginx/src/. "$room"
cd "$room"
# shellcheck disable=SC2016
bash -c '. ./conf_flags; ./configure "${NGX_CONF_FLAGS[@]}" --add-dynamic-module="$0"' "$here" > log 2>&1 || { tail -5 log; exit 1; }
make -f objs/Makefile modules > made 2>&1 || { grep -E "error|warning" -A5 made; exit 1; }
cp objs/ngx_http_wasmloop_module.so "$here/out"
