// Calls a kernel in one instance, COUNT times: node v8.mjs MODULE COUNT prints what it gives and the nanoseconds of the shortest call.
import fs from "node:fs";

const [, , file, count] = process.argv;
const { run } = new WebAssembly.Instance(new WebAssembly.Module(fs.readFileSync(file))).exports;
let least = Infinity, result = 0;
for (let k = 0; k < Number(count); k++) {
    const start = process.hrtime.bigint();
    result = run();
    least = Math.min(least, Number(process.hrtime.bigint() - start));
}
console.log(result >>> 0, least);
