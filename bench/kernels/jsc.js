// Calls a kernel in one instance of JavaScriptCore, COUNT times: jsc jsc.js -- MODULE COUNT prints what it gives and the nanoseconds of the
// shortest call.
const [file, count] = arguments;
const { run } = new WebAssembly.Instance(new WebAssembly.Module(readFile(file, "binary"))).exports;
let least = Infinity, result = 0;
for (let k = 0; k < Number(count); k++) {
    const start = preciseTime();
    result = run();
    least = Math.min(least, preciseTime() - start);
}
print(result >>> 0, Math.round(least * 1e9));
