#!/bin/bash
# shellcheck disable=SC2034,SC2154
# The addon in Node: test.sh [bench]
set -u
cd "$(dirname "$0")" || exit 1
name=node
. ../lib.sh
./build.sh || exit 1
if [ "${1:-}" = bench ]; then node bench.js; exit; fi
timeout 300 node --expose-gc test.js > "$room/said" 2>&1
want $? 0 "test.js ends"
read -r good bad < <(tail -1 "$room/said")
[ "$bad" = 0 ] || cat "$room/said"
passed=$((passed + ${good:-0})) failed=$((failed + ${bad:-1}))
if command -v npm > /dev/null; then
    like "$(npm pack --offline --dry-run 2>&1 | tr '\n' ' ')" "*index.d.ts*out/wasmloop.node*wasmloop-0.2.0.tgz*" "npm pack, without a network"
else echo "left out: npm pack: there is no npm"; fi
if command -v tsc > /dev/null; then
    cat > "$room/use.ts" <<T
import { Instance, Loop, Module, Stopped } from "$PWD/index";
const m = new Module(new Uint8Array(8)), it: Instance = m.instance({ fuel: 10n, depth: 4 }), l: Loop = m.loop({ onEmit: (v) => console.log(v[0] + 1n) });
export const r: Promise<{ value: number; bytes: Uint8Array }> = m.work(0, new Uint8Array(1), { signal: new AbortController().signal });
export const all = [it.call("score", 5n), it.callAsync("score", [5n], { signal: new AbortController().signal }), l.request(0).then((n: number) => n), l.done, Stopped];
T
    echo 'declare class Buffer extends Uint8Array {}' > "$room/buffer.d.ts"         # of @types/node, which Debian does not package
    want "$(cd "$room" && tsc --noEmit --strict --target es2020 --lib es2020,dom use.ts buffer.d.ts 2>&1)" "" "index.d.ts"
    sed 's/"score", 5n/5n/; s/n: number/n: string/; s/fuel: 10n/fuel: "10"/' "$room/use.ts" > "$room/wrong.ts"
    want "$(cd "$room" && tsc --noEmit --strict --target es2020 --lib es2020,dom wrong.ts buffer.d.ts 2>&1 | grep -c 'error TS')" 3 "three uses that index.d.ts refuses"
else echo "left out: index.d.ts: there is no tsc"; fi
end
