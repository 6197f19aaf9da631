'use strict';
const { Module, Instance, Loop, Stopped } = require('.'), fs = require('node:fs'), assert = require('node:assert'), path = require('node:path');
const { Worker, isMainThread } = require('node:worker_threads'), { spawnSync } = require('node:child_process');
const read = (name) => fs.readFileSync(path.join(__dirname, '../..', name)), bytes = read('hosts/guest/rules.wasm');
const rules = new Module(bytes), text = (s) => Buffer.from(s);
const within = async (ms, f) => { const began = Date.now(); await f(); assert(Date.now() - began < ms, `it took ${Date.now() - began} ms`); };
const tests = {
  'modules that are rejected': () => {
    for (const bad of ['', 'abc', bytes.subarray(0, 200), '\0asm\x01\0\0\0\xff']) assert.throws(() => new Module(typeof bad === 'string' ? Buffer.from(bad, 'latin1') : bad), { code: 'REFUSED' });
    for (const bad of [undefined, 'text', 5, new Uint16Array(4)]) assert.throws(() => new Module(bad), { code: 'TYPE' });
  },
  'calls, state, types': async () => {
    const it = rules.instance();
    assert.deepEqual([it.call('score', 5), it.call('score', 5n), it.call('divide', -7, 2), it.call('running', 3), it.call('running', 4)], [162n, 162n, -3, 3n, 7n]);
    assert.deepEqual(rules.type('divide'), { params: [32, 32], results: [32], at: rules.type('divide').at });
    assert.equal(rules.type('none'), null);
    assert.throws(() => it.call('none'), (e) => e instanceof TypeError && /^no function none: the module exports .*\bscore, /.test(e.message));
    assert.throws(() => it.call('score'), { name: 'TypeError', message: 'score takes 1 argument' });
    await assert.rejects(it.callAsync('divide', [1]), { name: 'TypeError', message: 'divide takes 2 arguments' });
    assert.deepEqual(rules.exports, WebAssembly.Module.exports(new WebAssembly.Module(bytes)).map(({ name, kind }) => ({ name, kind })));
    assert.throws(() => it.call('score', 'x'), SyntaxError);
    assert.throws(() => rules.instance({ depth: 500 }), { code: 'RANGE' });
  },
  'text through memory': () => {
    const it = rules.instance(), at = it.call('room', 100);
    it.write(at, text('Ab Cd'));
    assert.equal(it.read(at + 5, it.call('slug', at, 5, at + 5, 64)).toString(), 'ab-cd');
    assert.throws(() => it.read(4294967295, 2), { code: 'RANGE' });
    assert.throws(() => it.read(0, 4294967295), { code: 'RANGE' });
    assert.throws(() => it.write(4294967295, text('ab')), { code: 'RANGE' });
  },
  'hostile guests': async () => {
    const it = rules.instance();
    for (const [name, ending] of [['spin', 'spent'], ['grow', 'spent'], ['copies', 'spent'], ['deep', 'depth']]) {
      assert.throws(() => it.call(name, 1n), (e) => e instanceof Stopped && e.ending === ending && e.where.includes(`(${name})`) && e.used > 0n);
      await assert.rejects(it.callAsync(name, [1n]), { ending });
    }
    assert.throws(() => it.call('divide', 1, 0), (e) => e.ending === 'trap' && /^division by zero, after 3 units, in function \d+ \(divide\)/.test(e.message));
    assert.throws(() => it.call('spin', 1n), /^Stopped: out of fuel, after 1,000,000 units, in function /);
    await assert.rejects(rules.work(2), /^Stopped: an access outside the memory, after \d+ units?, in function /);
    for (const [op, ending] of [[1, 'spent'], [2, 'trap'], [4, 'spent'], [5, 'spent'], [6, 'depth']]) await assert.rejects(rules.work(op), { ending });
    assert.equal(it.call('score', 5), 162n);
  },
  'work': async () => {
    const all = await Promise.all(Array.from({ length: 100 }, (_, i) => rules.work(0, text(`Hello ${i}`))));
    assert.deepEqual(all.map((r) => r.bytes.toString()), Array.from({ length: 100 }, (_, i) => `hello-${i}`));
    assert.equal((await rules.work(0)).bytes.length, 0);
    await assert.rejects(rules.work(0, new Uint8Array(65537)), (e) => e.code === 'RANGE' && e.message.includes(' '));
  },
  'an AbortSignal': async () => {
    for (const op of [1, 4, 5]) await within(1000, () => assert.rejects(rules.work(op, undefined, { fuel: 1e12, signal: AbortSignal.timeout(50) }), { name: 'TimeoutError' }));
    await assert.rejects(rules.work(0, undefined, { signal: AbortSignal.abort(new Error('before')) }), /before/);
    const it = rules.instance({ fuel: 1e12 });
    await assert.rejects(it.callAsync('score', [1], { signal: AbortSignal.abort(new Error('before')) }), /before/);
    assert.equal(await it.callAsync('heavy', [7]), rules.instance().call('heavy', 7));
    const running = it.callAsync('spin', [1], { signal: AbortSignal.timeout(20) });
    assert.throws(() => it.call('score', 1), { code: 'BUSY' });
    await assert.rejects(running, { name: 'TimeoutError' });
    assert.equal(it.call('score', 5), 162n);
    assert.equal(await it.callAsync('running', [3]), 3n);
    for (const name of ['spin', 'grow', 'copies']) await within(1000, () => assert.rejects(it.callAsync(name, [1], { signal: AbortSignal.timeout(20) }), { name: 'TimeoutError' }));
    assert.equal(it.call('running', 4n), 7n);              // the instance and its state live on
  },
  'timers beside long requests': async () => {
    let ticks = 0;
    const timer = setInterval(() => ticks++, 1);
    await Promise.allSettled([1, 2].map(() => rules.work(3, undefined, { fuel: 1e9 })));
    clearInterval(timer);
    assert(ticks > 0);
  },
  'files beside endless work': async () => {
    const end = new AbortController(), all = Promise.allSettled(Array.from({ length: 8 }, () => rules.work(1, undefined, { fuel: 1e15, signal: end.signal })));
    await new Promise((resolve) => setTimeout(resolve, 50));
    await within(10000, async () => { for (let k = 0; k < 5; k++) await fs.promises.readFile(__filename); });
    end.abort(new Error('enough'));
    assert((await all).every((each) => each.reason?.message === 'enough'));
  },
  'a guest that queues and cancels endless work': async () => {
    const loop = new Loop(new Module(read('hosts/guest/echo.wasm')), { fuel: 1e8, workFuel: 1e15 });
    loop.send(4);
    await new Promise((resolve) => setTimeout(resolve, 400));
    assert.equal(loop.working, 32);
    loop.close();
    await assert.rejects(loop.done, /closed/);
  },
  'loops': async () => {
    for (const name of ['ticker', 'digest', 'chatter']) {
      const got = [];
      await new Loop(new Module(read(`examples/${name}.wasm`)), { fuel: 1e8, workFuel: 1e8, onEmit: (v) => got.push(...v) }).done;
      assert(got.length > 0, name);
    }
    const loop = new Loop(new Module(read('examples/ticker.wasm')), { onEmit: () => { throw new Error('of the host'); } });
    await assert.rejects(loop.done, /of the host/);
    const other = new Loop(new Module(read('examples/digest.wasm')));
    setImmediate(() => other.close());
    await assert.rejects(other.done, /closed/);
    other.send(0);
    await assert.rejects(other.request(0), /ended/);
  },
  'a loop with sends, requests and cancels': async () => {
    const echo = new Module(read('hosts/guest/echo.wasm')), got = [];
    const loop = new Loop(echo, { fuel: 1e12, workFuel: 1e15, onEmit: (v) => got.push(...v) });
    loop.send(0);
    assert(await loop.request(0, text('abc')) > 0);
    assert.equal(await loop.request(0, new Uint8Array(65537)), -22);
    await assert.rejects(loop.request(0, 'text'), { code: 'TYPE' });
    assert.throws(() => loop.send(16), RangeError);
    for (let k = 0; k < 100; k++) {                      // more than the 32 that may be outstanding: endless, but cancelled
      const number = await loop.request(1);
      assert.equal(await loop.cancel(number), 0);
      assert.notEqual(await loop.cancel(number), 0);
    }
    assert(await loop.request(0, text('d')) > 0);
    while (!got.some((v) => v % 2n ** 32n === 1n)) await new Promise(setImmediate);
    assert(got.includes(100n) && got.some((v) => v % 2n ** 32n === 3n), `${got}`);
    const waits = loop.request(1);
    loop.send(2);                                        // a callback that never ends
    await new Promise((resolve) => setTimeout(resolve, 20));
    const late = loop.request(0);
    loop.close();
    await assert.rejects(loop.done, /closed/);
    await assert.rejects(late, /closed/);
    assert(await waits > 0);
    const failing = new Loop(echo);
    failing.send(1);
    await assert.rejects(failing.done, (e) => e instanceof Stopped && e.ending === 'trap' && e.where.includes('in function'));
    await assert.rejects(failing.cancel(1), /ended/);
  },
  'a request behind work that is cancelled, and still waits for the pool': async () => {
    const ends = Array.from({ length: 200 }, () => new AbortController()), others = ends.map(({ signal }) => rules.work(1, undefined, { fuel: 1e15, signal })), got = [];
    const loop = new Loop(new Module(read('hosts/guest/echo.wasm')), { workFuel: 1e15, onEmit: (v) => got.push(...v) });
    const numbers = await Promise.all(Array.from({ length: 32 }, () => loop.request(1)));
    while (loop.working < 32) await new Promise(setImmediate);
    await Promise.all(numbers.map((number) => loop.cancel(number)));
    while (got.length < 32) await new Promise(setImmediate);       // they are answered; their work waits behind the others'
    const number = await loop.request(0, text('abc'));
    for (const end of ends) end.abort(new Error('enough'));
    await Promise.allSettled(others);
    for (const began = Date.now(); got.length < 33 && Date.now() - began < 5000;) await new Promise((resolve) => setTimeout(resolve, 1));
    assert(got.includes((BigInt(number) << 32n) + 3n), `${got.length} answers`);
    loop.close();
    await assert.rejects(loop.done, /closed/);
  },
  'a loop that an AbortSignal ends': async () => {
    const echo = new Module(read('hosts/guest/echo.wasm'));
    await assert.rejects(new Loop(echo, { signal: AbortSignal.abort(new Error('before')) }).done, /before/);
    const loop = new Loop(echo, { fuel: 1e15, signal: AbortSignal.timeout(50) });
    loop.send(2);
    await within(1000, () => assert.rejects(loop.done, { name: 'TimeoutError' }));
  },
  'worker threads': async () => {
    const code = `const { Module } = require(${JSON.stringify(__dirname)}); const m = new Module(new Uint8Array(require('worker_threads').workerData));
      const it = m.instance(); m.work(0, Buffer.from('A B')).then((r) => require('worker_threads').parentPort.postMessage([r.bytes.toString(), it.call('score', 5)]));`;
    const all = await Promise.all(Array.from({ length: 4 }, () => new Promise((resolve, reject) => new Worker(code, { eval: true, workerData: bytes }).on('message', resolve).on('error', reject))));
    assert.deepEqual(all, Array(4).fill(['a-b', 162n]));
    const ended = new Worker(`const { Module } = require(${JSON.stringify(__dirname)}); const m = new Module(new Uint8Array(require('worker_threads').workerData));
      for (let i = 0; i < 4; i++) m.work(1, undefined, { fuel: 1e15 }).catch(() => {}); require('worker_threads').parentPort.postMessage(1);`, { eval: true, workerData: bytes });
    await new Promise((resolve) => ended.on('message', resolve));
    await within(3000, () => ended.terminate());         // what runs there ends
  },
  'an exit beside endless work': async () => {
    const code = `const { Module } = require(${JSON.stringify(__dirname)}); const m = new Module(require('fs').readFileSync(${JSON.stringify(path.join(__dirname, '../guest/rules.wasm'))}));
      for (let i = 0; i < 8; i++) m.work(1, undefined, { fuel: 1e15 }); setTimeout(() => process.exit(7), 200);`;
    await within(5000, () => assert.equal(spawnSync(process.execPath, ['-e', code], { timeout: 20000 }).status, 7));
  },
  'the collector': async () => {
    for (let k = 0; k < 3000; k++) {
      const it = new Module(bytes).instance({ fuel: 100 });
      assert.throws(() => it.call('spin', 1n), Stopped);
      if (k % 500 === 499) { globalThis.gc(); await new Promise(setImmediate); }
    }
    assert(process.memoryUsage().rss < 400e6, `${process.memoryUsage().rss} bytes are resident`);
  },
};
if (isMainThread) (async () => {
  let passed = 0, failed = 0;
  for (const [name, f] of Object.entries(tests)) {
    try { await f(); passed++; } catch (error) { failed++; console.log(`FAILED: ${name}:`, error); }
  }
  assert(Instance && passed + failed === Object.keys(tests).length);
  console.log(`${passed} ${failed}`);
  process.exitCode = failed ? 1 : 0;
})();
