// Bytes of modules (WebAssembly Core 2.0, chapter 5), and numbers drawn from a seed.

export const I32 = 0x7f;
export const I64 = 0x7e;

/** A generator of numbers: the same seed gives the same numbers (mulberry32). */
export class Random {
    constructor(seed) {
        this.state = seed >>> 0;
    }

    /** A whole number from 0 to 2^32 - 1. */
    word() {
        this.state = (this.state + 0x6d2b79f5) >>> 0;
        let t = this.state;
        t = Math.imul(t ^ (t >>> 15), t | 1);
        t ^= t + Math.imul(t ^ (t >>> 7), t | 61);
        return (t ^ (t >>> 14)) >>> 0;
    }

    /** A whole number from 0 to count - 1. */
    below(count) {
        return this.word() % count;
    }

    chance(percent) {
        return this.below(100) < percent;
    }

    pick(items) {
        return items[this.below(items.length)];
    }

    type() {
        return this.chance(60) ? I32 : I64;
    }

    types(most) {
        return Array.from({ length: this.below(most + 1) }, () => this.type());
    }
}

export function unsigned(n) {
    const bytes = [];
    for (; n > 127; n = Math.floor(n / 128)) bytes.push((n % 128) | 128);
    bytes.push(n);
    return bytes;
}

/** A signed number, from a BigInt. */
export function signed(n) {
    const bytes = [];
    for (;;) {
        const low = Number(n & 127n);
        n >>= 7n;
        if ((n === 0n && low < 64) || (n === -1n && low >= 64)) return [...bytes, low];
        bytes.push(low | 128);
    }
}

export function vec(items) {
    return [...unsigned(items.length), ...items.flat()];
}

export function name(text) {
    return vec([...Buffer.from(text, "utf8")].map((byte) => [byte]));
}

function section(id, contents) {
    return contents.length === 1 && contents[0] === 0 ? [] : [id, ...unsigned(contents.length), ...contents];
}

function limits({ min, max }) {
    return max === undefined ? [0, ...unsigned(min)] : [1, ...unsigned(min), ...unsigned(max)];
}

export function constant(type, value) {
    return type === I32 ? [0x41, ...signed(BigInt.asIntN(32, value))] : [0x42, ...signed(BigInt.asIntN(64, value))];
}

/** The bytes of a module, from its parts. */
export function moduleBytes(m) {
    const types = m.types.map((t) => [0x60, ...vec(t.params.map((p) => [p])), ...vec(t.results.map((r) => [r]))]);
    const imports = m.imports.map((i) => [...name(i.module), ...name(i.name), 0, ...unsigned(i.type)]);
    const functions = m.functions.map((f) => unsigned(f.type));
    const globals = m.globals.map((g) => [g.type, g.mutable ? 1 : 0, ...constant(g.type, g.value), 0x0b]);
    const exports = m.exports.map((e) => [...name(e.name), e.kind, ...unsigned(e.index)]);
    const elements = m.elements.map((e) => [0, ...constant(I32, BigInt(e.at)), 0x0b, ...vec(e.functions.map(unsigned))]);
    const data = m.data.map((d) => [0, ...constant(I32, BigInt(d.at)), 0x0b, ...vec(d.bytes.map((b) => [b]))]);
    const bodies = m.functions.map((f) => {
        const body = [...vec(f.locals.map((t) => [1, t])), ...f.code, 0x0b];
        return [...unsigned(body.length), ...body];
    });
    return Buffer.from([
        0x00, 0x61, 0x73, 0x6d, 1, 0, 0, 0,
        ...section(1, vec(types)),
        ...section(2, vec(imports)),
        ...section(3, vec(functions)),
        ...section(4, vec(m.tables.map((t) => [0x70, ...limits(t)]))),
        ...section(5, vec(m.memories.map(limits))),
        ...section(6, vec(globals)),
        ...section(7, vec(exports)),
        ...(m.start === undefined ? [] : [8, unsigned(m.start).length, ...unsigned(m.start)]),
        ...section(9, vec(elements)),
        ...section(10, vec(bodies)),
        ...section(11, vec(data)),
    ]);
}
