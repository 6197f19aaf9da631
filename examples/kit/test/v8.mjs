// Runs files of the official suite by V8, as they are: node v8.mjs FILE.json.., what wast2json made, modules beside it.
import { readFileSync } from 'node:fs';
import { dirname, join } from 'node:path';
const bits = new DataView(new ArrayBuffer(8));
const given = ({ type, value }) => {
  const n = BigInt(value);
  if (type === 'i32') return Number(BigInt.asIntN(32, n));
  if (type === 'i64') return BigInt.asIntN(64, n);
  bits.setBigUint64(0, n);
  return type === 'f32' ? bits.getFloat32(4) : bits.getFloat64(0);
};
const same = (got, { type, value }) => (value.startsWith('nan') ? Number.isNaN(got) : Object.is(got, given({ type, value })));
let agreed = 0, different = 0;
for (const file of process.argv.slice(2)) {
  const named = {};
  let last, name;
  for (const command of JSON.parse(readFileSync(file)).commands) {
    if (command.type === 'module') {
      try {
        last = new WebAssembly.Instance(new WebAssembly.Module(readFileSync(join(dirname(file), command.filename))), {});
      } catch (e) { last = undefined; }
      name = command.name;
    }
    if (!['assert_return', 'assert_trap', 'action'].includes(command.type) || !last || command.action.type !== 'invoke' ||
        (command.action.module ?? name) !== name) continue;
    let results, trapped = false;
    try {
      const told = last.exports[command.action.field](...command.action.args.map(given));
      results = told === undefined ? [] : [told].flat();
    } catch (e) { trapped = e instanceof WebAssembly.RuntimeError; }
    const right = command.type === 'assert_trap' ? trapped : command.type === 'action' ? !!results
      : results && results.length === command.expected.length && results.every((r, i) => same(r, command.expected[i]));
    if (right) agreed++;
    else { different++; console.log(`${file}:${command.line}`); }
  }
}
console.log(`V8: ${agreed} agree, ${different} differ`);
