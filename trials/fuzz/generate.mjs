// Random modules of the profile. Each is valid, ends on every engine, and can be seen through: its export "g" calls a
// random function and gives its results, and then a digest of the memory and of the globals.
//
// So that no run goes on for ever, a global counts down at the head of each function and of each loop, and at 0 the
// run traps.

import { I32, I64, Random, constant, moduleBytes, signed, unsigned } from "./encode.mjs";

const TURNS = 400n; // what the counter begins with
const SEEN = 512; // how many bytes of the memory the digest reads
const UV = {
    now: [[], [I64]], timer_init: [[], [I32]], timer_start: [[I32, I32, I64, I64], [I32]], timer_stop: [[I32], [I32]],
    idle_start: [[I32, I32], [I32]], async_init: [[I32], [I32]], is_active: [[I32], [I32]],
    queue_work: [[I32, I32, I32], [I32]], in_len: [[], [I32]], emit: [[I64], [I32]],
};

/** Opcodes by what they take and give. */
const NUMERIC = [
    ...codes([0x45, 0x45], [I32], I32), ...codes([0x46, 0x4f], [I32, I32], I32),
    ...codes([0x50, 0x50], [I64], I32), ...codes([0x51, 0x5a], [I64, I64], I32),
    ...codes([0x67, 0x69], [I32], I32), ...codes([0x6a, 0x78], [I32, I32], I32),
    ...codes([0x79, 0x7b], [I64], I64), ...codes([0x7c, 0x8a], [I64, I64], I64),
    ...codes([0xa7, 0xa7], [I64], I32), ...codes([0xac, 0xad], [I32], I64),
    ...codes([0xc0, 0xc1], [I32], I32), ...codes([0xc2, 0xc4], [I64], I64),
];
const LOADS = [
    [0x28, I32, 2], [0x29, I64, 3], [0x2c, I32, 0], [0x2d, I32, 0], [0x2e, I32, 1], [0x2f, I32, 1],
    [0x30, I64, 0], [0x31, I64, 0], [0x32, I64, 1], [0x33, I64, 1], [0x34, I64, 2], [0x35, I64, 2],
];
const STORES = [
    [0x36, I32, 2], [0x37, I64, 3], [0x3a, I32, 0], [0x3b, I32, 1], [0x3c, I64, 0], [0x3d, I64, 1], [0x3e, I64, 2],
];

function codes([first, last], params, result) {
    return Array.from({ length: last - first + 1 }, (_, k) => ({ code: first + k, params, result }));
}

const EDGES = [0n, 1n, -1n, 2n, 7n, 31n, 32n, 63n, 64n, 0x7fn, 0x80n, 0xffn, 0x7fffn, 0x8000n, 0x7fffffffn, -0x80000000n,
    0xffffffffn, 0x100000000n, -0x8000000000000000n, 0x7fffffffffffffffn];

function number(random) {
    if (random.chance(60)) return random.pick(EDGES);
    return (BigInt(random.word()) << 32n) | BigInt(random.word());
}

/** The body of one function: its operations one by one, with the types of the operands that stand there. */
class Body {
    constructor(module, random, type, locals) {
        Object.assign(this, { module, random, locals: [...type.params, ...locals] });
        this.instructions = []; // each an array of bytes
        this.frames = [{ label: type.results, results: type.results, operands: [], dead: false }];
        this.room = 4 + random.below(36);
    }

    get frame() {
        return this.frames.at(-1);
    }

    put(...bytes) {
        this.instructions.push(bytes);
    }

    push(...types) {
        this.frame.operands.push(...types);
    }

    pop(count) {
        const own = this.frame.operands;
        own.splice(Math.max(0, own.length - count), count);
    }

    /** Makes the topmost operands those of these types. Dead code may leave some of them unknown. */
    want(types) {
        const own = this.frame.operands;
        const has = types.every((t, k) => {
            const there = own[own.length - types.length + k];
            return there === t || (there === undefined && this.frame.dead);
        });
        if (has && this.random.chance(80)) return;
        for (const type of types) this.value(type);
    }

    value(type) {
        const local = this.locals.map((t, k) => [t, k]).filter(([t]) => t === type);
        if (local.length > 0 && this.random.chance(40)) this.put(0x20, ...unsigned(this.random.pick(local)[1]));
        else this.put(...constant(type, number(this.random)));
        this.push(type);
    }

    take(types) {
        this.want(types);
        this.pop(types.length);
    }

    /** An address that mostly lies within what the digest reads. */
    address() {
        const at = this.random.chance(85) ? this.random.below(SEEN) : 65536 - this.random.below(12);
        if (this.random.chance(70)) {
            this.put(...constant(I32, BigInt(at)));
        } else {
            this.value(I32);
            this.pop(1);
            if (this.random.chance(90)) this.put(...constant(I32, BigInt(SEEN - 1))), this.put(0x71);
        }
        this.push(I32);
    }

    argument(align) {
        const offset = this.random.chance(80) ? this.random.below(64) : this.random.pick([65528, 65535, 65536, 4294967295]);
        return [this.random.below(align + 1), ...unsigned(offset)];
    }

    dead() {
        this.frame.operands = [];
        this.frame.dead = true;
    }

    tick() {
        const counter = unsigned(this.module.counter);
        this.put(0x23, ...counter);
        this.put(0x45);
        this.put(0x04, 0x40);
        this.put(0x00);
        this.put(0x0b);
        this.put(0x23, ...counter);
        this.put(0x41, 1);
        this.put(0x6b);
        this.put(0x24, ...counter);
    }

    blockType(params, results) {
        if (params.length === 0 && results.length === 0 && this.random.chance(90)) return [0x40];
        if (params.length === 0 && results.length === 1 && this.random.chance(90)) return [results[0]];
        return signed(BigInt(this.module.typeOf(params, results)));
    }

    /** A block, a loop or an if, with all that is in it. */
    block(code) {
        const params = this.random.chance(70) ? [] : this.random.types(3);
        const bare = code === 0x04 && this.random.chance(40);
        const results = bare ? params : this.random.types(2);
        this.take(code === 0x04 ? [...params, I32] : params);
        this.put(code, ...this.blockType(params, results));
        const label = code === 0x03 ? params : results;
        const begin = () => this.frames.push({ label, results, operands: [...params], dead: false });
        begin();
        if (code === 0x03) this.tick();
        this.sequence(2 + this.random.below(8));
        if (code === 0x04 && !bare) {
            this.close();
            this.put(0x05);
            begin();
            this.sequence(this.random.below(6));
        }
        this.close();
        this.put(0x0b);
        this.push(...results);
    }

    /** Leaves just the results of the innermost block, and goes out of it. */
    close() {
        const { operands, results, dead } = this.frame;
        let same = 0;
        while (same < operands.length && operands[same] === results[same]) same++;
        if (dead && operands.length === 0 && this.random.chance(60)) same = results.length;
        else for (let k = operands.length; k > same; k--) this.put(0x1a);
        for (const type of results.slice(same)) {
            this.value(type);
        }
        this.frames.pop();
    }

    target() {
        return this.random.below(this.frames.length);
    }

    label(depth) {
        return this.frames[this.frames.length - 1 - depth].label;
    }

    branch(kind) {
        const depth = this.target();
        const types = this.label(depth);
        if (kind === "br_table") {
            const same = this.frames.map((_, k) => k).filter((k) => String(this.label(k)) === String(types));
            const chosen = Array.from({ length: this.random.below(4) }, () => this.random.pick(same));
            this.take([...types, I32]);
            this.put(0x0e, ...unsigned(chosen.length), ...chosen.flatMap(unsigned), ...unsigned(depth));
            this.dead();
        } else if (kind === "br_if") {
            this.take([...types, I32]);
            this.put(0x0d, ...unsigned(depth));
            this.push(...types);
        } else {
            this.take(types);
            this.put(0x0c, ...unsigned(depth));
            this.dead();
        }
    }

    call(indirect) {
        const m = this.module;
        if (indirect && m.tables.length > 0) {
            const type = this.random.below(m.types.length);
            const { params, results } = m.types[type];
            this.take([...params]);
            this.put(...constant(I32, BigInt(this.random.below(m.tables[0].min + 2))));
            this.put(0x11, ...unsigned(type), 0);
            this.push(...results);
            return;
        }
        const index = this.random.below(m.callable);
        const { params, results } = m.types[m.typeIndex(index)];
        this.take(params);
        this.put(0x10, ...unsigned(index));
        this.push(...results);
    }

    variable() {
        const m = this.module;
        const which = this.random.below(5);
        if (which < 3 && this.locals.length > 0) {
            const x = this.random.below(this.locals.length);
            if (which > 0) this.take([this.locals[x]]);
            this.put(0x20 + which, ...unsigned(x));
            if (which !== 1) this.push(this.locals[x]);
            return;
        }
        const x = this.random.below(m.globals.length);
        const { type, mutable } = m.globals[x];
        if (which === 3 && mutable && x !== m.counter) {
            this.take([type]);
            this.put(0x24, ...unsigned(x));
        } else {
            this.put(0x23, ...unsigned(x));
            this.push(type);
        }
    }

    access() {
        if (this.module.memories.length === 0) return;
        const which = this.random.below(10);
        if (which === 0) {
            this.put(0x3f, 0);
            this.push(I32);
        } else if (which === 1) {
            this.put(...constant(I32, this.random.chance(70) ? BigInt(this.random.below(2)) : number(this.random)));
            this.put(0x40, 0);
            this.push(I32);
        } else if (which < 6) {
            const [code, type, align] = this.random.pick(LOADS);
            this.address();
            this.pop(1);
            this.put(code, ...this.argument(align));
            this.push(type);
        } else {
            const [code, type, align] = this.random.pick(STORES);
            this.address();
            this.value(type);
            this.pop(2);
            this.put(code, ...this.argument(align));
        }
    }

    choose() {
        const own = this.frame.operands;
        if (own.length === 0 && !this.frame.dead) return this.value(this.random.type());
        if (this.random.chance(30)) {
            this.put(0x1a);
            return this.pop(1);
        }
        const type = own.at(-1) ?? this.random.type();
        this.take([type, type, I32]);
        this.put(0x1b);
        return this.push(type);
    }

    instruction() {
        const r = this.random.below(100);
        const deep = this.frames.length > 6 || this.frame.operands.length > 40;
        if (r < 30) {
            const { code, params, result } = this.random.pick(NUMERIC);
            this.take(params);
            this.put(code);
            this.push(result);
        } else if (r < 42) this.value(this.random.type());
        else if (r < 58) this.variable();
        else if (r < 70) this.access();
        else if (r < 76) this.choose();
        else if (r < 86) deep ? this.put(0x01) : this.block(this.random.pick([0x02, 0x03, 0x04]));
        else if (r < 93) this.branch(this.random.pick(["br", "br_if", "br_if", "br_if", "br_table"]));
        else if (r < 98) this.call(this.random.chance(40));
        else if (r < 99) this.put(0x01);
        else if (this.random.chance(50)) this.put(0x00), this.dead();
        else this.take(this.frames[0].results), this.put(0x0f), this.dead();
    }

    sequence(count) {
        for (let k = 0; k < count && this.room > 0; k++, this.room--) this.instruction();
    }

    whole() {
        this.tick();
        this.sequence(60);
        this.close();
        return this.instructions;
    }
}

/** What a module consists of, as far as it is made. */
class Module {
    constructor(random) {
        const one = (percent, make) => (random.chance(percent) ? [make()] : []);
        this.random = random;
        this.types = Array.from({ length: 1 + random.below(5) }, () => ({ params: random.types(3), results: random.types(3) }));
        this.imports = random.chance(20) ? Object.entries(UV).filter(() => random.chance(25)) : [];
        this.imports = this.imports.map(([name, [params, results]]) => ({ module: "uv", name, type: this.typeOf(params, results) }));
        // Each memory declares its most, since without it this host's limit of 64 pages would show.
        this.memories = one(75, () => ({ min: random.below(3), max: 2 + random.below(3) }));
        this.tables = one(60, () => ({ min: random.below(6), max: random.chance(30) ? 6 : undefined }));
        this.globals = Array.from({ length: random.below(4) }, () => ({ type: random.type(), mutable: random.chance(60), value: number(random) }));
        this.counter = this.globals.length;
        this.globals.push({ type: I32, mutable: true, value: TURNS });
        this.functions = Array.from({ length: 1 + random.below(3) }, () => ({ type: random.below(this.types.length), locals: random.types(4), code: [] }));
        this.callable = this.imports.length + this.functions.length;
        this.exports = [];
        this.elements = [];
        this.data = [];
    }

    typeIndex(index) {
        return index < this.imports.length ? this.imports[index].type : this.functions[index - this.imports.length].type;
    }

    typeOf(params, results) {
        const found = this.types.findIndex((t) => String(t.params) === String(params) && String(t.results) === String(results));
        if (found >= 0) return found;
        this.types.push({ params, results });
        return this.types.length - 1;
    }

    segments() {
        const { random } = this;
        if (this.tables.length > 0) {
            const room = this.tables[0].min;
            const functions = Array.from({ length: random.below(room + 1) }, () => random.below(this.callable));
            const at = random.chance(95) ? random.below(room - functions.length + 1) : room;
            this.elements.push({ at, functions });
        }
        if (this.memories.length > 0 && this.memories[0].min > 0) {
            const bytes = Array.from({ length: random.below(40) }, () => random.below(256));
            const at = random.chance(97) ? random.below(SEEN - 40) : this.memories[0].min * 65536 - random.below(42);
            this.data.push({ at, bytes });
        }
    }

    /** A function of no parameters that mixes the front of the memory, its end and the globals into one number. */
    digest() {
        const code = [];
        const mix = (value) => code.push([0x20, 1], [0x42, 5], [0x89], value, [0x85], [0x21, 1]);
        if (this.memories.length > 0) {
            mix([0x3f, 0, 0xad]);
            if (this.memories[0].min > 0) {
                code.push([0x03, 0x40]);
                mix([0x20, 0, 0x29, 3, 0]);
                code.push([0x20, 0], [0x41, 8], [0x6a], [0x22, 0], constant(I32, BigInt(SEEN)), [0x49], [0x0d, 0], [0x0b]);
                mix([...constant(I32, BigInt(this.memories[0].min * 65536 - 8)), 0x29, 3, 0]);
            }
        }
        this.globals.forEach((g, k) => mix(g.type === I64 ? [0x23, ...unsigned(k)] : [0x23, ...unsigned(k), 0xad]));
        code.push([0x20, 1]);
        const index = this.imports.length + this.functions.length;
        this.functions.push({ type: this.typeOf([], [I64]), locals: [I32, I64], instructions: code });
        return index;
    }

    /** The export "g": a call of a function with some arguments, and the digest behind it. */
    entry() {
        const called = this.imports.length + this.random.below(this.functions.length);
        const { params, results } = this.types[this.typeIndex(called)];
        const digest = this.digest();
        const instructions = params.map((t) => constant(t, number(this.random)));
        instructions.push([0x10, ...unsigned(called)], [0x10, ...unsigned(digest)]);
        const type = this.typeOf([], [...results, I64]);
        this.exports.push({ name: "g", kind: 0, index: this.imports.length + this.functions.length });
        this.functions.push({ type, locals: [], instructions });
        this.results = [...results, I64];
    }

    /** The export "uv_work": it calls "g", sets its reply from the memory's front, and gives the lower half of the digest. */
    work() {
        const { index } = this.exports[0];
        const room = this.memories.length > 0 && this.memories[0].min > 0 ? 1 + this.random.below(200) : 0;
        const reply = [[0x41, 0], constant(I32, BigInt(room)), [0x10, ...unsigned(this.imports.length - 1)], [0x1a]];
        const instructions = [[0x10, ...unsigned(index)], [0x21, 1], ...this.results.slice(1).map(() => [0x1a]), ...(room > 0 ? reply : []), [0x20, 1, 0xa7]];
        this.exports.push({ name: "uv_work", kind: 0, index: this.imports.length + this.functions.length });
        this.functions.push({ type: this.typeOf([I32], [I32]), locals: [I64], instructions });
    }

    fill() {
        for (const f of this.functions) f.instructions = new Body(this, this.random, this.types[f.type], f.locals).whole();
        this.segments();
        if (this.random.chance(15)) {
            const plain = this.functions.findIndex((f) => String(this.types[f.type].params) === "" && String(this.types[f.type].results) === "");
            if (plain >= 0) this.start = this.imports.length + plain;
        }
        this.entry();
        return this;
    }

    bytes() {
        for (const f of this.functions) f.code = f.instructions.flat();
        return moduleBytes(this);
    }
}

/** A valid module: its bytes, the types of what "g" gives, and how many imports it has. */
export function validModule(random) {
    const m = new Module(random).fill();
    return { bytes: m.bytes(), results: m.results, imports: m.imports.length };
}

/** The bytes of a valid module with a work function. */
export function workModule(random) {
    const m = new Module(random);
    m.imports.push({ module: "uv", name: "out_set", type: m.typeOf([I32, I32], [I32]) });
    m.callable += 1;
    m.fill().work();
    return m.bytes();
}

/** One that is nearly valid: some instruction is left out, doubled, exchanged with another or made anew. */
export function changedModule(random) {
    const m = new Module(random).fill();
    for (let k = 1 + random.below(2); k > 0; k--) {
        const code = random.pick(m.functions).instructions;
        const at = random.below(code.length);
        const other = random.below(code.length);
        const change = random.below(5);
        if (change === 0) code.splice(at, 1);
        else if (change === 1) code.splice(at, 0, code[other]);
        else if (change === 2) [code[at], code[other]] = [code[other], code[at]];
        else if (change === 3) code[at] = [random.pick(NUMERIC).code];
        else code.splice(at, 0, random.pick([[0x00], [0x1a], [0x1b], [0x0f], [0x0b], [0x41, 0], [0x42, 0], [0x0c, random.below(4)], [0x20, random.below(6)]]));
    }
    return { bytes: m.bytes() };
}

/** One with some bytes changed, left out or put in. */
export function changedBytes(random) {
    const bytes = [...validModule(random).bytes];
    for (let k = 1 + random.below(3); k > 0; k--) {
        const at = 8 + random.below(bytes.length - 8);
        const change = random.below(3);
        if (change === 0) bytes[at] = random.below(256);
        else if (change === 1) bytes.splice(at, 1);
        else bytes.splice(at, 0, random.below(256));
    }
    return { bytes: Buffer.from(bytes) };
}
