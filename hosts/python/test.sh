#!/bin/bash
# shellcheck disable=SC2034,SC2154
# wasmloop.served, and host.py and host_asyncio.py on an example. capi/test/run.sh compares those, and spread.py, on all of them: test.sh
set -u
cd "$(dirname "$0")" || exit 1
name=python
. ../lib.sh
export WASMLOOP_LIBRARY=$library/libwasmloop.so.0 PYTHONPATH=$top/capi/python PYTHONDONTWRITEBYTECODE=1
timeout 200 python3 -X dev -W error test.py "$top/hosts/guest" "$top/examples" > "$room/said" 2>&1
read -r good bad < <(tail -1 "$room/said")
[ "$bad" = 0 ] || cat "$room/said"
passed=$((passed + ${good:-0})) failed=$((failed + ${bad:-1}))
for host in "host.py $top/examples/ticker.wasm 1" "host_asyncio.py $top/examples/ticker.wasm --virtual"; do
    # shellcheck disable=SC2086
    want "$(python3 "${host%% *}" 2>&1)" "$(sed -n '/^usage: /p' "${host%% *}")" "${host%% *} without words"
    want "$(python3 $host 2>&1 | tail -1)" "$("$top/dist/wasmloop" serve "$top/examples/ticker.wasm" --loops 1 --workers 1 2> /dev/null | tail -1)" "${host%% *}"
done
end
