// What V8 says of fuzz.py's modules: node fuzz.mjs FOLDER
import { createHash } from 'node:crypto';
import { readFileSync } from 'node:fs';
const folder = process.argv[2], told = {};
const make = file => new WebAssembly.Instance(new WebAssembly.Module(readFileSync(`${folder}/${file}`)));
const call = (instance, i, given) => {
  try { return String(instance.exports[`f${i}`](...given)); } catch (e) { return e instanceof WebAssembly.RuntimeError ? e.message : String(e); }
};
const row = (file, calls) => {
  const instance = make(file);
  return calls.map((given, i) => [call(instance, i, given),
    createHash('sha1').update(new Uint8Array(instance.exports.m.buffer)).digest('hex')]);
};
for (const [number, calls] of Object.entries(JSON.parse(readFileSync(`${folder}/calls.json`)))) {
  try {
    told[number] = { row: row(`${number}.wasm`, calls), low: row(`${number}.low.wasm`, calls),
      fresh: calls.map((given, i) => call(make(`${number}.wasm`), i, given)) };
  } catch (e) { told[number] = { error: String(e), fresh: [] }; }
}
console.log(JSON.stringify(told));
