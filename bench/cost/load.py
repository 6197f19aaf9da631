#!/usr/bin/env python3
"""load.py PROGRAM [FOLDER]: check of modules of 1 KB, 100 KB and 1 MB beside wasm-validate and node, start of the program
beside others', and the memory that each takes. One processor, in turns, the minimum of 8 to 15."""

from __future__ import annotations

import os
import pathlib
import subprocess
import common

FUNCTION = """
static __attribute__((noinline)) u32 f%(k)d(u32 n, u32 *p) {
    u32 c = %(k)du, s = 0;
    for (u32 i = 0; i < n; i++) {
        c = (c & 1) ? 0xedb88320u ^ (c >> 1) : (c >> 1) + i * %(m)du;
        if (c %% 7u == %(r)du) { s += p[i & 63]; p[(i * 3) & 63] = s ^ c; }
        else switch (c & 7) {
        case 0: s += n; break;
        case 1: s ^= c * 3; break;
        case 2: s = (s << 5) | (s >> 27); break;
        case 3: s -= p[c & 63]; break;
        default: s += %(k)du;
        }
    }
    return s + (%(k)d ? f%(b)d(c ^ n, p) : 0);
}
"""
# A module of one function, which does nothing.
TINY = bytes.fromhex("0061736d01000000" "010401600000" "03020100" "070701" "0372756e" "0000" "0a040102000b")
VALIDATE = """
const bytes = require("fs").readFileSync(process.argv[1]);
let least = 1e9;
for (let k = 0; k < 20; k++) {
    const start = process.hrtime.bigint();
    if (!WebAssembly.validate(bytes)) throw 1;
    least = Math.min(least, Number(process.hrtime.bigint() - start));
}
console.log(least / 1e9);
"""
HELLO = '#include <stdio.h>\nint main(void){puts("hello");return 0;}\n'


def module(folder: pathlib.Path, name: str, count: int) -> pathlib.Path:
    """A module of so many functions as clang makes them, each called by the next."""
    functions = [FUNCTION % {"k": k, "b": max(k - 1, 0), "m": k * 7 + 3, "r": k % 7} for k in range(count)]
    text = "typedef unsigned u32; static u32 f0(u32,u32*);static u32 data[64];\n" + "".join(functions)
    text += f'__attribute__((export_name("run"))) u32 run(void){{return f{count - 1}(64,data);}}\n'
    source = folder / f"{name}.c"
    source.write_text(text)
    return common.linked(folder / f"{name}.wasm", [source], "-O1", link=["--strip-all"])


def modules(folder: pathlib.Path) -> list[pathlib.Path]:
    """One of 1 KB, one of 100 KB and one of 1 MB."""
    small = module(folder, "small", 3)
    each = (os.path.getsize(module(folder, "probe", 43)) - os.path.getsize(small)) / 40
    return [small, module(folder, "middle", int(100_000 / each)), module(folder, "large", int(1_000_000 / each))]


class Bench:
    def __init__(self, program: str, folder: pathlib.Path) -> None:
        self.program, self.folder, self.spawn = program, folder, common.spawner(folder)
        self.tiny = folder / "tiny.wasm"
        self.tiny.write_bytes(TINY)

    def spawned(self, command: common.Command, times: int = 3) -> tuple[float, int]:
        """The least seconds of a process, started from a small one, and its most resident memory in KiB."""
        told = subprocess.run([self.spawn, str(times), *command], stdout=subprocess.PIPE, check=True).stdout.split()
        return float(told[0]), int(told[1])

    def times(self, count: int, *commands: common.Command) -> list[float]:
        """The least seconds of each command."""
        return common.least(count, *(lambda it=it: self.spawned(it)[0] for it in commands))

    def reading(self) -> None:
        check, validate = [self.program, "check"], ["wasm-validate"]
        bases = self.times(15, [*check, self.tiny], [*validate, self.tiny])
        print(f"{'bytes':>8} {'ours ms':>8} {'wabt ms':>8} {'ratio':>6} {'V8 ms':>8} {'ratio':>6} {'ours KiB':>9} {'wabt KiB':>9}"
              f"   (less a check of {len(TINY)} bytes)")
        for file in modules(self.folder):
            common.wall([*check, file], "accepted")
            ours, wabt, v8 = common.least(8, lambda: self.spawned([*check, file])[0], lambda: self.spawned([*validate, file])[0],
                                          lambda: common.told(["node", "-e", VALIDATE, file]))
            ours, wabt = ours - bases[0], wabt - bases[1]
            resident = [self.spawned([*command, file])[1] for command in (check, validate)]
            print(f"{os.path.getsize(file):8} {ours * 1e3:8.3f} {wabt * 1e3:8.3f} {ours / wabt:6.2f} "
                  f"{v8 * 1e3:8.3f} {ours / v8:6.2f} {resident[0]:9} {resident[1]:9}")

    def starting(self) -> None:
        (self.folder / "hello.c").write_text(HELLO)
        hello = common.compiled(self.folder / "hello", self.folder / "hello.c")
        work = common.guest("work.c", f"{self.folder}/tinywork.wasm", N=1, SIZE=0, TURNS=0, TOUCH=0)
        program, tiny = self.program, self.tiny
        starts: dict[str, common.Command] = {
            "hello in C": [hello], "ours --help": [program, "--help"], "ours check tiny": [program, "check", tiny],
            "ours invoke tiny": [program, "invoke", tiny, "run"], "ours work tiny": [program, "work", work, "1"],
            "ours serve, nothing": [program, "serve", tiny, "--loops", "1", "--workers", "1"],
            "wasm-validate tiny": ["wasm-validate", tiny], "wasm-interp tiny": ["wasm-interp", tiny, "--run-all-exports"],
            "node -e 0": ["node", "-e", "0"],
        }
        print("start of a process, ms, and its most resident memory, KiB")
        for (name, command), took in zip(starts.items(), self.times(12, *starts.values())):
            print(f"  {name:20} {took * 1e3:8.3f} {self.spawned(command)[1]:8}")


def main(program: str, folder: str, _: list[str]) -> None:
    common.alone()
    bench = Bench(program, pathlib.Path(folder))
    bench.reading()
    bench.starting()


if __name__ == "__main__":
    common.start(__doc__, main)
