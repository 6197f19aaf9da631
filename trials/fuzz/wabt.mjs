// What wabt's wasm-validate and wasm-interp say of a module.

import { spawnSync } from "node:child_process";
import { mkdtempSync, writeFileSync } from "node:fs";
import { tmpdir } from "node:os";
import { I64 } from "./encode.mjs";

const folder = mkdtempSync(`${tmpdir()}/fuzz-`);
const TRAPS = [
    [/unreachable/, 1], [/divide by zero/, 2], [/integer overflow/, 3], [/out of bounds memory/, 4],
    [/undefined table index/, 5], [/uninitialized table element/, 6], [/signature mismatch/, 7],
];

function said(command, ...words) {
    const { stdout, stderr, signal } = spawnSync(command, words, { encoding: "utf8" });
    return signal ? `killed ${signal}` : stdout + stderr;
}

function returned(line, results) {
    const values = [...line.matchAll(/i(32|64):(\d+)/g)].map((m) => BigInt(m[2]));
    return ["return", ...values.map((v, k) => BigInt.asIntN(results[k] === I64 ? 64 : 32, v))].join(" ");
}

/** `accepted` or `refused`; of a module that is run how "g" ended. */
export function answer(module) {
    const file = `${folder}/module.wasm`;
    writeFileSync(file, module.bytes);
    if (!module.results) return said("wasm-validate", file) === "" ? "accepted" : "refused";
    const text = said("wasm-interp", file, "--run-all-exports", "--dummy-import-func");
    const line = text.split("\n").find((l) => l.startsWith("g()"));
    if (line === undefined) return `none ${text.trim()}`;
    const trap = TRAPS.find(([words]) => words.test(line));
    return line.includes("error") ? `trap ${trap ? trap[1] : line}` : returned(line, module.results);
}

/** Whether the program and wabt agree. A start function or a segment that stops a module is told by wabt as no line of "g". */
export function isSame(ours, theirs, own) {
    const [line] = ours.split(" used ");
    if (theirs.startsWith("none") || /^(start|spent|depth|link)/.test(line)) return true;
    if (theirs === "accepted") return line === "accepted" || own.some(([words]) => words.test(line));
    if (theirs === "refused") return line !== "accepted";
    return line === theirs;
}
