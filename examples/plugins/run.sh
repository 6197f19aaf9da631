#!/bin/sh
# Builds the three plug-ins and the host, and compares what the host prints with plugins.log.
# It needs clang and wasm-ld. LIBRARY is libwasmloop.a, or the folder that has it.
#
# usage: examples/plugins/run.sh LIBRARY [FOLDER]
set -eu
here=$(cd "$(dirname "$0")" && pwd)
for tool in clang wasm-ld "${HOSTCC:-cc}"; do
    command -v "$tool" >/dev/null || { echo "plugins: left out, there is no $tool" && exit; }
done
library=$(readlink -f "$1")
[ ! -d "$library" ] || library=$library/libwasmloop.a
work=${2:-$(mktemp -d)}
[ $# -gt 1 ] || trap 'rm -r "$work"' EXIT
mkdir -p "$work" && cd "$work"
for name in count csv_sum hostile; do cp "$here/$name.c" . && "$here/../build.sh" "$name"; done
"${HOSTCC:-cc}" -std=c99 -Wall -Wextra -O1 -o plugins "$here/plugins.c" -I "$here/../../capi/include" "$library"
printf 'banana' > word.txt
printf 'name,count\npears,3\n"apples, red",-40\nplums,12\n' > fruit.csv
printf '\0asm' > cut.wasm
./plugins count.wasm 97 word.txt csv_sum.wasm 1 fruit.csv hostile.wasm 0 word.txt hostile.wasm 1 word.txt hostile.wasm 2 word.txt \
    hostile.wasm 3 word.txt cut.wasm 0 word.txt count.wasm 98 word.txt > all || true
# (units, instructions and bytes are the compiler's)
sed -E 's/after [0-9]+ units/after N units/; s/instruction [0-9]+ \([^)]*\)/instruction N/g; s/at byte [0-9]+/at byte N/g' all > told
diff "$here/plugins.log" told
echo "plugins: $(grep -c '^[a-z]' told) runs, as in plugins.log"
