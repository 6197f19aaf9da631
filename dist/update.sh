#!/bin/sh
# Brings what is shipped up to date: proves and builds what has changed, and writes program and library, their sums, those of their sources,
# the manual pages, and the statement of proof. With the outputs of runs of `rt ci` over these sources, the last one last, and of
# `tools/wrong.py --promises`, it takes what that has proved and built.
#
# usage: dist/update.sh [LOG..]
set -eu
for word; do case $word in -*) sed -n 's/^# usage: /usage: /p' "$0" >&2; exit 2 ;; esac; done
dist=$(cd "$(dirname "$0")" && pwd)
if [ $# -eq 0 ]; then
    python3 "$dist/../build.py" wasmloop wasmloop_c
else
    python3 "$dist/../build.py" wasmloop_c --over-gate
fi
cp "$dist/../crates/wasmloop/out/wasmloop" "$dist/wasmloop"
"$dist/link.sh" "$dist"
"$dist/../tools/pages.py" "$dist/wasmloop"
(cd "$dist" && sha256sum wasmloop libwasmloop.a libwasmloop.so.0 >SHA256)
"$dist/sums.sh" >"$dist/SOURCES"
"$dist/../tools/statement.py" ${1:+--of "$@"}
