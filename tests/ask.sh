#!/bin/sh
# Questions and typed calls: a fuzzer of plug-ins that ask and of their hosts, the plug-ins of examples/kit/ask and examples/plugins, what `bind`
# writes for Python, C and Rust. Half a minute. What needs clang, binaryen, cc or rustc is left out where it isn't there, and said.
#
# usage: tests/ask.sh [OUT [SEED]]       ends with 1 if anything is not as it should be
set -eu
top=$(cd "$(dirname "$0")/.." && pwd) out=${1:-$(mktemp -d)}
mkdir -p "$out"
[ $# -gt 0 ] || trap 'rm -rf "$out"' EXIT
WASMLOOP_LIBRARY=$top/dist/libwasmloop.so.0 PYTHONPATH=$top/capi/python PYTHONDONTWRITEBYTECODE=1
export WASMLOOP_LIBRARY PYTHONPATH PYTHONDONTWRITEBYTECODE
command -v python3 > /dev/null || { echo 'left out: questions and typed calls: there is no python3'; exit 0; }
wrong=0
python3 "$top/capi/test/ask_test.py" "$out" "${2:-1}" || wrong=1
python3 "$top/capi/test/bind_test.py" "$out" "${2:-1}" || wrong=1
python3 "$top/capi/test/bind_words.py" "$out/words" 50 "${2:-1}" || wrong=1
exit $wrong
