// What V8 says of a module, in the words of `wasmloop check` and `wasmloop invoke`.

import { I64 } from "./encode.mjs";

const TRAPS = [
    [/unreachable/, 1], [/divide by zero|remainder by zero/, 2], [/divide result unrepresentable/, 3],
    [/memory access out of bounds/, 4], [/table index is out of bounds/, 5],
    [/null function or function signature mismatch|indirect call to null/, 67], // an empty element, or another type
];

export function trapOf(error) {
    if (error instanceof RangeError) return "depth";
    const found = TRAPS.find(([words]) => words.test(error.message));
    return found ? `trap ${found[1]}` : `unknown ${error.message}`;
}

/** Each import answers -1. */
function imports(module) {
    const uv = {};
    for (const { name } of WebAssembly.Module.imports(module)) uv[name] = () => (name === "now" ? -1n : -1);
    return { uv };
}

export function isAccepted(bytes) {
    return WebAssembly.validate(bytes);
}

/** Makes an instance and calls "g": `return 1 -2`, `trap 4`, `start trap 1`, `segments`. */
export function run(bytes, results) {
    const module = new WebAssembly.Module(bytes);
    let instance;
    try {
        instance = new WebAssembly.Instance(module, imports(module));
    } catch (error) {
        if (/WebAssembly.Instance\(\)/.test(error.message)) return "segments"; // refused before any function ran
        return `start ${trapOf(error)}`;
    }
    try {
        const given = instance.exports.g();
        const values = results.length === 1 ? [given] : [...given];
        return ["return", ...values.map((v, k) => (results[k] === I64 ? BigInt.asIntN(64, v) : v | 0))].join(" ");
    } catch (error) {
        return trapOf(error);
    }
}
