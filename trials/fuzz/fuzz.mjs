#!/usr/bin/env node
// Random modules through the program and through two other engines, side by side.
//
//     trials/fuzz/fuzz.mjs ROWS [--count N] [--seed S] [--wabt EVERY] [--keep FOLDER]
//
// Of each four modules one is valid and is run too, two are valid ones with some instructions changed, and one has
// some bytes changed. What the program says of each is compared with V8 (node); of one in EVERY also with wabt's
// wasm-validate and wasm-interp (0: none), where it has no imports, which wasm-interp answers by 0. ROWS is the built program
// crates/test_program/out/test_program, which answers a whole list of modules in one process. Each difference is kept as a file in FOLDER, with both answers. What the program refuses by a rule of its own, a limit or its profile, is
// counted by that rule, and so is, where wabt is asked, what V8 alone accepts: it gives no type to what a `br_if` leaves
// in dead code (WebAssembly Core 2.0, 3.3.8). The status is 1 if anything else differs.

import { mkdirSync, writeFileSync } from "node:fs";
import { parseArgs } from "node:util";
import { Random } from "./encode.mjs";
import { changedBytes, changedModule, validModule } from "./generate.mjs";
import * as v8 from "./judge.mjs";
import { answers } from "./program.mjs";
import * as wabt from "./wabt.mjs";

const BATCH = 1000;
const { values: options, positionals } = parseArgs({
    allowPositionals: true,
    options: {
        count: { type: "string", default: "10000" },
        seed: { type: "string", default: "1" },
        wabt: { type: "string", default: "0" },
        keep: { type: "string", default: "fuzz-differences" },
    },
});
if (positionals.length !== 1) {
    console.error("usage: trials/fuzz/fuzz.mjs ROWS [--count N] [--seed S] [--wabt EVERY] [--keep FOLDER]");
    process.exit(2);
}
const [rows] = positionals;

// Refusals that are this project's own: limits, the profile, and rules on imports and segments.
const OWN = [
    [/^decode 1[12] /, "the profile or a limit of the format"],
    [/^decode [78] /, "an instruction or a form of a later version of the standard"],
    [/^validate (6|10|11) /, "a limit on results, operands or nesting"],
    [/^link [1-4] /, "what a guest may import and export"],
];

// Of how many modules wabt is asked about one; 0: about none.
const every = Number(options.wabt);

const counts = {};
let differences = 0;

function count(what) {
    counts[what] = (counts[what] ?? 0) + 1;
}

function made(number) {
    const random = new Random(Number(options.seed) * 1_000_003 + number);
    const kind = number % 4;
    if (kind === 0) return { number, ...validModule(random) };
    return { number, ...(kind === 3 ? changedBytes(random) : changedModule(random)) };
}

function differ(module, ours, theirs) {
    differences++;
    mkdirSync(options.keep, { recursive: true });
    writeFileSync(`${options.keep}/${module.number}.wasm`, module.bytes);
    writeFileSync(`${options.keep}/${module.number}.txt`, `ours:   ${ours}\ntheirs: ${theirs}\n`);
    console.log(`${module.number}: ours ${ours}, theirs ${theirs}`);
}

/** Two endings of one run. V8 has one word for two traps of an indirect call, and no limits of fuel and depth. */
function isSame(ours, theirs) {
    const [line] = ours.split(" used ");
    return line === theirs || (theirs.endsWith("trap 67") && /trap [67]$/.test(line));
}

function compareRun(module, ours) {
    if (/^link 5 /.test(ours)) {
        count("refused: a segment doesn't fit");
        return v8.run(module.bytes, module.results) === "segments" || differ(module, ours, "an instance");
    }
    if (/^(start )?(spent|depth)/.test(ours)) return count("run: fuel or depth exhausted, which V8 doesn't bound");
    const theirs = v8.run(module.bytes, module.results);
    if (!isSame(ours, theirs)) return differ(module, ours, theirs);
    count(`run: ${theirs.replace(/^return.*/, "return").replace(/ 67$/, " 6 or 7")}`);
}

function compareCheck(module, ours) {
    const theirs = v8.isAccepted(module.bytes);
    if (theirs === (ours === "accepted")) return count(theirs ? "accepted" : `refused: ${ours}`);
    const own = OWN.find(([words]) => words.test(ours));
    if (theirs && own) return count(`refused by a rule of this project: ${own[1]}`);
    if (theirs && /^link 5 /.test(ours)) return count("refused: a segment doesn't fit");
    if (theirs && every > 0 && wabt.answer(module) === "refused") return count("accepted by V8 alone");
    differ(module, ours, theirs ? "accepted" : "refused");
}

function main() {
    const total = Number(options.count);
    for (let first = 0; first < total; first += BATCH) {
        const batch = Array.from({ length: Math.min(BATCH, total - first) }, (_, k) => made(first + k));
        const lines = answers(rows, batch.map((m) => ({ run: m.results !== undefined, bytes: m.bytes })));
        batch.forEach((module, k) => {
            if (module.results) compareRun(module, lines[k]);
            else compareCheck(module, lines[k]);
            if (every > 0 && module.number % every === 0 && !module.imports) {
                const theirs = wabt.answer(module);
                count(`wabt: ${theirs.split(" ")[0]}`);
                if (!wabt.isSame(lines[k], theirs, OWN)) differ(module, lines[k], `wabt ${theirs}`);
            }
        });
        if ((first / BATCH) % 20 === 19) console.error(`${first + BATCH} modules, ${differences} differences`);
    }
    console.log(`seed ${options.seed}: ${total} modules, ${differences} differences`);
    for (const what of Object.keys(counts).sort()) console.log(`${String(counts[what]).padStart(9)}  ${what}`);
    process.exit(differences > 0 ? 1 : 0);
}

main();
