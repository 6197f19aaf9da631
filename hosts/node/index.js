'use strict';
// Classes of the addon's calls. Numbers of guests: i32 as number, i64 as bigint.
const native = require('./out/wasmloop.node');
const { performance } = require('node:perf_hooks');
const { isMainThread } = require('node:worker_threads');
if (isMainThread) process.once('exit', native.quit);     // else the process waits for what runs on the pool
const MOST_WORK = 32;                                       // of a loop at a time: a guest that queues and cancels for ever has no more
const ENDINGS = ['return', 'trap', 'depth', 'spent'], OUTCOMES = ['not run', 'done', 'trap', 'depth', 'spent', 'memory'];

class Stopped extends Error {
  constructor(ending, told) { super(`${told.why ?? ending}${told.where ? ', ' + told.where : ''}`); this.name = 'Stopped'; this.ending = ending; this.where = told.where; this.used = told.used; }
}

const takes = (name, { params: { length } }) => new TypeError(`${name} takes ${length} argument${length === 1 ? '' : 's'}`);

async function pooled(signal, it, ...call) {               // runs on libuv's pool, in slices; an AbortSignal ends it between two
  if (signal?.aborted) throw signal.reason;
  const abort = () => native.stop(it);
  signal?.addEventListener('abort', abort, { once: true });
  try {
    const told = await native.pool(it, ...call);
    if (!told.over) throw signal.reason;
    return told;
  } finally { signal?.removeEventListener('abort', abort); }
}

class Module {
  #handle;
  constructor(bytes) { this.#handle = native.load(bytes); }
  get handle() { return this.#handle; }
  type(name) { return native.type(this.#handle, name); }
  get exports() { return native.exports(this.#handle, 2 ** 32 - 1); }
  functions() {                                            // for a sentence: a module may export very many
    const names = native.exports(this.#handle, 200).filter(({ kind }) => kind === 'function').map(({ name }) => JSON.stringify(name.slice(0, 100)).slice(1, -1));
    return names.length ? `the module exports ${names.slice(0, 20).join(', ')}${names.length > 20 ? ', ..' : ''}` : 'the module exports no function';
  }
  instance(limits) { return new Instance(this, limits); }
  loop(options) { return new Loop(this, options); }
  async work(operation, bytes = new Uint8Array(0), { fuel = 1e6, depth = 64, signal } = {}) {
    const told = await pooled(signal, native.job(this.#handle, operation, bytes, fuel, depth));
    if (told.outcome !== 1) throw new Stopped(OUTCOMES[told.outcome], told);
    return { value: told.value, bytes: told.reply, used: told.used };
  }
}

class Instance {
  #module; #handle; #words; #types = new Map();
  constructor(module, { fuel = 1e6, depth = 64 } = {}) { this.#module = module; this.#handle = native.instance(module.handle, fuel, depth); this.#words = native.words(this.#handle); this.fuel = fuel; this.depth = depth; }
  #of(name, args) {
    const type = this.#type(name);
    if (args.length !== type.params.length) throw takes(name, type);
    return [type, args.map((x, i) => type.params[i] === 32 ? (x >>> 0) : BigInt.asUintN(64, BigInt(x)))];
  }
  #result(type, told) {
    if (told.ending) throw new Stopped(ENDINGS[told.ending], told);
    const all = told.results.map((x, i) => type.results[i] === 32 ? Number(BigInt.asIntN(32, x)) : BigInt.asIntN(64, x));
    return all.length > 1 ? all : all[0];
  }
  #type(name) {
    let type = this.#types.get(name);
    if (type === undefined) { type = this.#module.type(name); this.#types.set(name, type); }
    if (!type) throw new TypeError(`no function ${name}: ${this.#module.functions()}`);
    return type;
  }
  call(name, ...args) {                                    // no object is made on the way
    const type = this.#type(name), n = args.length;
    if (n !== type.params.length) throw takes(name, type);
    for (let i = 0; i < n; i++) this.#words[i] = type.params[i] === 32 ? BigInt(args[i] >>> 0) : BigInt(args[i]);
    if (native.callAt(this.#handle, type.at, n)) return this.#result(type, native.last(this.#handle));
    if (type.results.length === 0) return undefined;
    if (type.results.length > 1) return this.#result(type, native.last(this.#handle));
    return type.results[0] === 32 ? Number(BigInt.asIntN(32, this.#words[256])) : BigInt.asIntN(64, this.#words[256]);
  }
  async callAsync(name, args = [], { signal } = {}) {      // an abort ends the call; the instance keeps its state
    const [type, list] = this.#of(name, args);
    return this.#result(type, await pooled(signal, this.#handle, type.at, list));
  }
  read(at, length) { return native.read(this.#handle, at, length); }
  write(at, bytes) { native.write(this.#handle, at, bytes); }
}

class Loop {                                               // lives on node's own loop until it is over, or closed
  #module; #handle; #timer; #signal; #settle; #ended = false; #running = false; #now = false;
  #start = performance.now(); #jobs = new Map(); #pending = [];
  #abort = () => this.close(this.#signal.reason);
  constructor(module, { fuel = 1e6, workFuel = 1e6, depth = 64, onEmit = () => {}, units = 100000, signal } = {}) {
    this.#module = module; this.#handle = native.loop(module.handle, fuel, workFuel, 0, depth); this.onEmit = onEmit; this.units = units;
    this.done = new Promise((resolve, reject) => { this.#settle = [resolve, reject]; });
    this.#signal = signal;
    if (signal?.aborted) return void this.#abort();
    signal?.addEventListener('abort', this.#abort, { once: true });
    this.#soon();
  }
  #soon() { if (!this.#now) { this.#now = true; clearTimeout(this.#timer); setImmediate(() => this.#turn()); } }
  #later(act, fail) {                                      // waits until no callback is paused
    if (this.#ended) return fail?.(new Error('the loop has ended'));
    this.#pending.push({ act, fail });
    this.#soon();
  }
  #ask(act) {
    return new Promise((resolve, reject) => this.#later(() => { try { resolve(act()); } catch (error) { reject(error); } }, reject));
  }
  get working() { return this.#jobs.size; }
  send(number) {
    if (!(number >= 0 && number < 16)) throw new RangeError(`an async has a number from 0 to 15, not ${number}`);
    this.#later(() => native.send(this.#handle, number));
  }
  request(operation, bytes = new Uint8Array(0)) { return this.#ask(() => native.request(this.#handle, operation, bytes)); }
  cancel(request) {
    return this.#ask(() => {
      const answer = native.cancel(this.#handle, request);
      if (answer === 0 && this.#jobs.has(request)) native.stop(this.#jobs.get(request));
      return answer;
    });
  }
  close(why = new Error('the loop is closed')) { this.#end(why); }
  #end(why) {                                              // the first end settles `done`
    if (this.#ended) return;
    this.#ended = true;
    clearTimeout(this.#timer);
    this.#signal?.removeEventListener('abort', this.#abort);
    for (const job of this.#jobs.values()) native.stop(job);
    for (const { fail } of this.#pending.splice(0)) fail?.(why || new Error('the loop has ended'));
    const [resolve, reject] = this.#settle;
    if (why) reject(why); else resolve();
  }
  async #run({ job, request }) {
    this.#jobs.set(request, job);
    const told = await native.pool(job);
    this.#jobs.delete(request);
    this.#later(() => { if (told.over) native.accept(this.#handle, job); });      // also one that was stopped: others may wait for its place
  }
  #turn() {
    this.#now = false;
    if (!this.#ended) try { this.#step(); } catch (error) { this.#end(error); }
  }
  #step() {
    if (!this.#running) for (const { act } of this.#pending.splice(0)) act();
    const told = native.turnFor(this.#handle, Math.floor(performance.now() - this.#start), this.units);
    this.#running = !told.over;
    if (!told.over) return this.#soon();
    if (told.emits) this.onEmit(told.emits);
    if (this.#ended) return;                               // by onEmit
    if (told.what === 5 || told.ending) return this.#end(new Stopped(ENDINGS[told.ending], told));
    for (let next; this.#jobs.size < MOST_WORK && (next = native.nextJob(this.#handle));) this.#run(next).catch((error) => this.#end(error));
    if (told.what === 4) return this.#end();
    if (told.what !== 1 || told.wait === 0 || this.#pending.length) return this.#soon();
    if (told.wait > 0) this.#timer = setTimeout(() => this.#soon(), told.wait);
  }
}

module.exports = { Module, Instance, Loop, Stopped };
