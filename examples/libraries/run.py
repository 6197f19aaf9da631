#!/usr/bin/env python3
"""Compiles libraries of C as they are for work functions, and runs each beside its native build.

    run.py [NAME..]

Takes the sources from Debian's packages (`apt-get source`), compiles each library of libraries.py with its file of glue/, once
for the host and once as a native program, compares the answers, and prints a table: the fuel and the depth of calls that
suffice, and the processor time of `work` over that of the native program and of V8. It wants clang, lld, wasi-libc,
libclang-rt-14-dev-wasm32, zstd and node.
WASMLOOP names the program; compiling.py says what else the environment may name. All is written to out/ beside this file.
"""

from __future__ import annotations

import os
import pathlib
import resource
import shutil
import subprocess
import sys
from typing import Sequence

import libraries
from compiling import OUT, SOURCES, call, compilable, fetch, module, program, write_made

HERE = pathlib.Path(__file__).resolve().parent
HOST = os.environ.get("WASMLOOP", "wasmloop")
TIMES, PEERS_TIMES = 3, 15          # the minimum of so many runs counts
AMPLE = 1 << 40
DEPTHS = (16, 32, 64, 128)


def loop_is_right() -> bool:
    """zlib in a loop under `serve`: each of eight texts has to come back from its two requests as it was."""
    wasm = module("zloop", libraries.LOOP)
    told = call(HOST, "serve", wasm, "--loops", 1, "--workers", 3, "--fuel", 1 << 32, "--work-fuel", 1 << 32)
    numbers = told.decode().split()
    print("serve:", told.decode().strip())
    return numbers[:4] == ["loop", "0", "over", "emits"] and numbers.count("1") == 8


def timed(words: Sequence[object], request: bytes | None = None) -> tuple[str, str, float]:
    """What a command prints, what it says, and its processor time: others use the machine too."""
    before = resource.getrusage(resource.RUSAGE_CHILDREN)
    done = subprocess.run([str(w) for w in words], input=request, stdout=subprocess.PIPE, stderr=subprocess.PIPE)
    after = resource.getrusage(resource.RUSAGE_CHILDREN)
    spent = after.ru_utime + after.ru_stime - before.ru_utime - before.ru_stime
    return done.stdout.decode().split("\n")[0], done.stderr.decode().strip(), spent


class Work:
    """`wasmloop work` on one request."""

    def __init__(self, wasm: pathlib.Path, operation: int, request: bytes) -> None:
        self.words = [HOST, "work", wasm, operation] + ([request.hex()] if request else [])

    def run(self, fuel: int, depth: int) -> tuple[str, str, float]:
        return timed(self.words + ["--fuel", fuel, "--depth", depth])

    def depth(self) -> int:
        for depth in DEPTHS:
            if self.run(AMPLE, depth)[0] != "depth":
                return depth
        return DEPTHS[-1]

    def fuel(self, depth: int) -> int:
        """The least fuel that suffices, found by halving to the hundredth part."""
        low, high = 0, 1 << 14
        while self.run(high, depth)[0].startswith("spent"):
            low, high = high, high * 4
        while high - low > high // 100 + 1:
            middle = (low + high) // 2
            if self.run(middle, depth)[0].startswith("spent"):
                low = middle
            else:
                high = middle
        return high

    def seconds(self, depth: int) -> float:
        """The least time of a run, without what a run takes that has no fuel."""
        full = min(self.run(AMPLE, depth)[2] for _ in range(TIMES))
        return full - min(self.run(1, depth)[2] for _ in range(TIMES))


def row(name: str, wasm: pathlib.Path, native: pathlib.Path, operation: int, request: bytes, what: str) -> tuple[str, bool]:
    """A line of the table, and whether the answer is the native one."""
    work = Work(wasm, operation, request)
    depth = work.depth()
    answer = work.run(AMPLE, depth)[0]
    expected, nanoseconds, _ = timed([native, operation, PEERS_TIMES], request)
    by_v8, v8_nanoseconds, _ = timed(["node", HERE / "v8.mjs", wasm, operation, PEERS_TIMES], request)
    same = answer == expected and answer.startswith("done")
    fuel, seconds = work.fuel(depth), work.seconds(depth)
    cells = [name, f"{wasm.stat().st_size:,}", what, "yes" if same else "no", f"{fuel:,}",
             f"{fuel // len(request):,}" if request else "-", str(depth), f"{seconds * 1e3:.1f}"]
    for ns in (nanoseconds, v8_nanoseconds if by_v8 == expected else ""):
        fit = ns.isdigit() and int(ns) > 0 and seconds > 0.002
        cells.append(f"{seconds * 1e9 / int(ns):.0f}" if fit else "-")
    if not same:
        print(f"{name}: {answer[:80]} where native says {expected[:80]}", file=sys.stderr)
    return "| " + " | ".join(cells) + " |", same


HEAD = """| Library | Module | What | As native | Fuel | Units per input byte | Depth | ms | Over native | Over V8 |
|---|---|---|---|---|---|---|---|---|---|"""


def main(names: list[str]) -> bool:
    if not shutil.which(HOST):
        sys.exit(f"no program {HOST}: WASMLOOP names it")
    names = names or list(libraries.PORTS)
    for package in sorted({p.package for p in libraries.PORTS.values()}):
        if not fetch(package):
            names = [n for n in names if libraries.PORTS[n].package != package]
            print(f"left out: the sources of {package} can't be fetched")
    names = compilable(names)
    for name in names:
        write_made(name, libraries.PORTS[name])
    built = {n: (module(n, libraries.PORTS[n]), program(n, libraries.PORTS[n])) for n in names}
    lines, wrong = [HEAD], 0
    for name, operation, request, what in libraries.rows(SOURCES):
        if name in built:
            line, same = row(name, *built[name], operation, request, what)
            print(line, flush=True)
            lines.append(line)
            wrong += not same
    (OUT / "table.md").write_text("\n".join(lines) + "\n")
    wrong += "zlib" in names and not loop_is_right()
    print(f"{len(lines) - 1} rows, {wrong} not as native")
    return wrong != 0


if __name__ == "__main__":
    sys.exit(main(sys.argv[1:]))
