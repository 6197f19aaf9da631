#!/usr/bin/env python3
"""csmith's random programs in C by the program, beside the same compiled natively.

    trials/programs/csmith.py PROGRAM [--first SEED] [--count N] [--keep FOLDER]

Each program is compiled by clang to a module, at -O1, -O2 and -Os in turn, and by gcc for the host; its checksums have to be the same.
Natively a program may take a second: one that takes longer is left out. Sources that differ are kept in FOLDER. Debian's packages are
csmith, libcsmith-dev, wasi-libc, clang, lld and gcc. The last line has the counts; status 1: something differs.
"""

from __future__ import annotations

import argparse
import collections
import pathlib
import re
import shutil
import sys
import tempfile

from outcome import LINK, WASM, Late, Word, by_program, need, said
from typing import Counter, Sequence

NATIVE = pathlib.Path(__file__).resolve().parents[2] / "bench" / "kernels" / "native.c"
INCLUDE = "-I/usr/include/csmith"
# The checksum is what `run` returns, and nothing is printed.
BEGIN = """#include <stdio.h>
static int quiet(const char *format, ...) { return 0; }
#define printf quiet
#define main csmith_main
"""
END = """
#undef main
#ifdef __wasm__
__attribute__((export_name("run")))
#endif
uint32_t run(void) { csmith_main(1, 0); return crc32_context; }
"""


def source(seed: int) -> str:
    """The text of a program, whose constants have no L: a long has 32 bits in a module and 64 on the host."""
    text, _ = said(["csmith", "--seed", str(seed), "--max-funcs", "8"], 60)
    return BEGIN + re.sub(r"\b(0x[0-9A-Fa-f]+|\d+)(U?)L\b", r"\1\2", text) + END


def natively(file: pathlib.Path, folder: pathlib.Path) -> str:
    """The checksum by gcc and the host."""
    made = folder / "native"
    ran(["gcc", "-O1", "-w", INCLUDE, "-o", made, file, NATIVE])
    told, status = said([made], 1)
    return f"return {signed(int(told.split()[0]))}" if status == 0 else f"status {status}"


def ran(command: Sequence[Word]) -> None:
    """Runs a compiler, which has to take the file."""
    told, status = said(command, 60)
    if status != 0:
        sys.exit(f"{command[0]}: {told}")


def signed(number: int) -> int:
    return number - (1 << 32) if number >> 31 else number


def compared(program: str, seed: int, folder: pathlib.Path) -> str:
    """How a program of csmith ends: the same, or how it differs, or why it is left out."""
    file, made, module = folder / f"{seed}.c", folder / "program.o", folder / "program.wasm"
    try:
        file.write_text(source(seed))
        wanted = natively(file, folder)
        ran([*WASM, ["-O1", "-O2", "-Os"][seed % 3], INCLUDE, "-c", "-o", made, file])
        ran([*LINK, "-L/usr/lib/wasm32-wasi", "-o", module, made, "-lc"])
    except Late as late:
        return f"left out: {pathlib.Path(str(late)).name} takes too long"
    given = by_program(program, module, "run")
    if given.startswith(("decode 12", "validate 10", "validate 11", "depth")):
        return f"left out: a named limit: {given}"
    return "the same" if given == wanted else f"DIFFERS: {given}, natively {wanted}"


def main() -> int:
    parser = argparse.ArgumentParser(description=(__doc__ or "").split("\n")[0])
    parser.add_argument("program")
    parser.add_argument("--first", type=int, default=1)
    parser.add_argument("--count", type=int, default=100)
    parser.add_argument("--keep", type=pathlib.Path, default=pathlib.Path("csmith-differences"))
    options = parser.parse_args()
    need("csmith", "clang", "wasm-ld", "gcc")
    counts: Counter[str] = collections.Counter()
    with tempfile.TemporaryDirectory() as name:
        for seed in range(options.first, options.first + options.count):
            end = compared(options.program, seed, pathlib.Path(name))
            counts[end.split(":")[0]] += 1
            if end != "the same":
                print(f"seed {seed}: {end}", flush=True)
            if end.startswith("DIFFERS"):
                options.keep.mkdir(parents=True, exist_ok=True)
                shutil.copy(f"{name}/{seed}.c", options.keep)
    print(f"{options.count} programs: {counts['the same']} the same, {counts['DIFFERS']} differed, {counts['left out']} left out")
    return 1 if counts["DIFFERS"] else 0


if __name__ == "__main__":
    sys.exit(main())
