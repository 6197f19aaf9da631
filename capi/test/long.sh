#!/bin/sh
# What run.sh does in few turns, in more of them: random calls beside their model, under AddressSanitizer, and loops in slices that threads pass on,
# under ThreadSanitizer.
#
# usage: long.sh OUT SEED [SEQUENCES [LIVES]]       OUT: a folder; 20,000 sequences of calls, and 3,000 loops; ends with 1 if one fails
set -eu
here=$(cd "$(dirname "$0")" && pwd) top=$(cd "$(dirname "$0")/../.." && pwd)
out=$1 seed=$2 sequences=${3:-20000} lives=${4:-3000}
mkdir -p "$out"
PREFIX=$(cd "$out" && pwd) "$top/install.sh" > "$out/said"
c="-std=c11 -D_GNU_SOURCE -Wall -Wextra -Werror -g -O1 -I$out/include"
plugins=
if command -v clang > /dev/null && command -v wasm-ld > /dev/null && command -v wat2wasm > /dev/null; then
    "$here/instance_test.sh" "$out" "$out/plugins" > "$out/said"
    plugins="$out/plugins/kv.wasm $out/plugins/start.wasm $out/plugins/fails.wasm $out/plugins/plain.wasm"
else echo 'left out: plug-ins: there is no clang with wasm-ld, or no wat2wasm'; fi
# shellcheck disable=SC2086
{
    cc $c -fsanitize=address,undefined -fno-sanitize-recover -Wl,--wrap=malloc,--wrap=realloc -o "$out/fuzz" "$here/fuzz.c" "$out/lib/libwasmloop.a"
    cc $c -fsanitize=thread -o "$out/pass_test" "$here/pass_test.c" "$out/lib/libwasmloop.a" -lpthread
    "$out/fuzz" "$seed" "$sequences" "$top"/examples/*.wasm $plugins
}
"$out/pass_test" "$top/examples" "$lives"
