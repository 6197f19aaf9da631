// How calls of exports end in V8, each in a new instance: node v8.mjs MODULE CALL.. prints a line for each, `return 1 2`, `trap 4` or
// `depth`. A CALL is an export's name with its values after commas, an n after each i64.
import fs from "node:fs";
import { trapOf } from "../fuzz/judge.mjs";

const [, , file, ...calls] = process.argv;

function ended(module, call) {
    const [name, ...values] = call.split(",");
    const numbers = values.map((word) => (word.endsWith("n") ? BigInt(word.slice(0, -1)) : Number(word)));
    try {
        const given = new WebAssembly.Instance(module, {}).exports[name](...numbers);
        return ["return", ...(given === undefined ? [] : [given].flat())].join(" ");
    } catch (error) {
        return trapOf(error).replace("67", "6 or 7");
    }
}

const bytes = fs.readFileSync(file);
if (!WebAssembly.validate(bytes)) console.log("refused");
else for (const call of calls) console.log(ended(new WebAssembly.Module(bytes), call));
