#!/bin/sh
# Others' code as work functions, beside native builds of it: all libraries of C and C++, and all crates of Rust, in some half an hour. Then the
# exact profiles of all, and Lua and SQLite as plug-ins that ask their host.
#
# usage: examples/others.sh PROGRAM       ends with 1 if an answer is not the native one; what lacks a package is left out, and said
set -u
here=$(cd "$(dirname "$0")" && pwd) program=$(readlink -f "$1") wrong=0
WASMLOOP=$program python3 "$here/libraries/run.py" || wrong=1
"$here/rust/check.sh" "$program" || wrong=1
export WASMLOOP="$program" WASMLOOP_LIBRARY="$here/../dist/libwasmloop.so.0" PYTHONPATH="$here/../capi/python"
python3 "$here/../capi/test/exact_test.py" "$program" || wrong=1
for plugin in lua sqlite; do python3 "$here/kit/ask/$plugin.py" || wrong=1; done
exit $wrong
