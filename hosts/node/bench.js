'use strict';
// What a call costs, beside V8's own, which has no limit, and what work costs through the pool, beside zlib's: bench.js, by test.sh bench.
const { Module } = require('.'), fs = require('node:fs'), path = require('node:path'), { promisify } = require('node:util');
const deflate = promisify(require('node:zlib').deflateRaw), bytes = fs.readFileSync(path.join(__dirname, '../guest/rules.wasm')), rules = new Module(bytes);
const CALLS = 20000, TASKS = 300;

function least(f) {
  let best = Infinity;
  for (let k = 0; k < 15; k++) {
    const at = process.hrtime.bigint();
    for (let i = 0; i < CALLS; i++) f();
    best = Math.min(best, Number(process.hrtime.bigint() - at) / CALLS);
  }
  return best.toFixed(0);
}

async function leastOf(f) {
  let best = Infinity;
  for (let k = 0; k < 7; k++) {
    const at = process.hrtime.bigint();
    for (let i = 0; i < TASKS; i++) await f();
    best = Math.min(best, Number(process.hrtime.bigint() - at) / TASKS / 1000);
  }
  return best.toFixed(1);
}

(async () => {
  const wasm = await WebAssembly.instantiate(bytes, { uv: { in_len: () => -1, in_copy: () => -1, out_set: () => -1 } }), { score, heavy } = wasm.instance.exports;
  const it = rules.instance(), input = Buffer.from('Hello, World 42');
  console.log(`score: call ${least(() => it.call('score', 5n))} ns, V8 without a limit ${least(() => score(5n))}`);
  console.log(`heavy: call ${least(() => it.call('heavy', 5n))} ns, V8 without a limit ${least(() => heavy(5n))}`);
  console.log(`callAsync ${await leastOf(() => it.callAsync('score', [5n]))} us, work ${await leastOf(() => rules.work(0, input))}, zlib.deflateRaw ${await leastOf(() => deflate(input))}`);
})();
