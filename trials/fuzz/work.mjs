#!/usr/bin/env node
// Random modules with a work function, one a line in hexadecimal, for trials/slices/run.py.
//
//     trials/fuzz/work.mjs COUNT SEED

import { Random } from "./encode.mjs";
import { workModule } from "./generate.mjs";

const [count, seed] = process.argv.slice(2).map(Number);
for (let number = 0; number < count; number++) {
    console.log(workModule(new Random(seed * 1_000_003 + number)).toString("hex"));
}
