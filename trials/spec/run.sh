#!/usr/bin/env bash
# The official test suite of WebAssembly, by the program: trials/spec/run.sh PROGRAM [OUT]
#
# The suite's files come from Debian's source package binaryen (test/spec, states of 1.0 to 2.0), which is fetched into OUT
# where it isn't there yet (by default a folder that goes away again). wast2json (Debian's wabt) turns them into modules and commands; a file that
# it can't read, for it is of a later version, is left out, and counted. The modules of what differs are kept in OUT/differences.
# Status 1: something differs. Status 0 too where there is no suite to be had: the last line says so.
set -euo pipefail
if [ $# -lt 1 ] || [ $# -gt 2 ]; then
    echo "usage: trials/spec/run.sh PROGRAM [OUT]" >&2
    exit 2
fi
here=$(cd "$(dirname "$0")" && pwd)
program=$(realpath "$1")
if [ ! -x "$program" ]; then
    echo "$1 is no program" >&2
    exit 2
fi
if [ $# -eq 2 ]; then
    mkdir -p "$2"
    out=$(realpath "$2")
else
    out=$(mktemp -d)
    trap 'rm -rf "$out"' EXIT
fi

left_out() {
    echo "left out: the official suite: $1"
    exit 0
}

fetch() {
    local config
    config=$("$here/../../tools/apt_config.sh" "$out/apt") || return 1
    (cd "$out" && APT_CONFIG=$config timeout 300 apt-get -q source --download-only binaryen) > "$out/fetch.log" 2>&1
}

command -v wast2json >/dev/null || left_out "no wast2json (Debian's package wabt)"
if [ -z "$(find "$out" -maxdepth 1 -name 'binaryen_*.orig.tar.*')" ]; then
    command -v apt-get >/dev/null || left_out "no apt-get"
    fetch || left_out "the source package binaryen can't be fetched"
fi
rm -rf "$out/spec" "$out/modules" "$out/differences"
mkdir "$out/spec" "$out/modules"
tar -xf "$(find "$out" -maxdepth 1 -name 'binaryen_*.orig.tar.*')" -C "$out/spec" --strip-components=3 --wildcards '*/test/spec/*.wast'
later=0
for file in "$out"/spec/*.wast; do
    wast2json "$file" -o "$out/modules/$(basename "$file" .wast).json" >/dev/null 2>&1 || later=$((later + 1))
done
echo "left out: $later files of $(find "$out/spec" -name '*.wast' | wc -l) that wast2json can't read"
python3 "$here/spec.py" "$program" "$out/modules" --keep "$out/differences"
