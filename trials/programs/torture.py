#!/usr/bin/env python3
"""gcc's c-torture/execute by the program: tests in C that check themselves.

    trials/programs/torture.py PROGRAM [OUT] [--level -O2] [--jobs N]

The tests come from Debian's package gcc-12-source, which is fetched into OUT (80 MB) where it isn't there yet. Each file that clang
compiles to a module without floats and imports is run. It has to pass, that is to return 0 or to exit by 0; where it doesn't (clang
isn't gcc), V8 has to end it in the same way. Debian's packages are wasi-libc, clang, lld and node. The last line has the counts;
status 1: something differs.
"""

from __future__ import annotations

import argparse
import collections
import concurrent.futures
import os
import pathlib
import subprocess
import sys
import tempfile

from outcome import HERE, LINK, WASM, Late, Word, by_program, by_v8, need, said
from typing import Counter, List, Optional, Tuple

PACKAGE = "gcc-12-source"
# The program has 120 seconds, and takes up to some 40 times as long as V8 at its best.
V8_SECONDS = 3
MAINS = ["__main_void", "__original_main", "__main_argc_argv"]
# What `check` says of modules that the program doesn't take, and why.
LEFT_OUT = {"decode 11": "floats", "link": "imports", "decode 12": "a named limit", "validate 10": "a named limit", "validate 11": "a named limit"}


def fetch(out: pathlib.Path) -> pathlib.Path:
    """The folder of the tests."""
    tests = out / "gcc" / "testsuite" / "gcc.c-torture" / "execute"
    if not tests.is_dir():
        # (by the machine's own lists: those of .ci/nightly are of sources alone)
        env = {name: value for name, value in os.environ.items() if name != "APT_CONFIG"}
        subprocess.run(["apt-get", "-q", "download", PACKAGE], cwd=out, check=True, env=env)
        package, = out.glob(f"{PACKAGE}_*.deb")
        command = (f"dpkg-deb --fsys-tarfile {package.name} | tar -xO --wildcards './usr/src/gcc-12/gcc-12*.tar.xz'"
                   " | tar -xJ --strip-components=1 --wildcards '*/gcc/testsuite/gcc.c-torture/execute/*'")
        subprocess.run(["bash", "-o", "pipefail", "-c", command], cwd=out, check=True)
    return tests


def built(file: pathlib.Path, level: str, folder: pathlib.Path) -> Optional[Tuple[pathlib.Path, str]]:
    """The module and the name of its main function; None where clang or the linker doesn't take it."""
    made, module = folder / f"{file.stem}.o", folder / f"{file.stem}.wasm"
    status = said([*WASM, level, "-std=gnu89", "-c", "-o", made, file], 120)[1]
    if status != 0:
        return None
    exports = [f"--export-if-defined={main}" for main in MAINS]
    libraries: List[Word] = ["-L/usr/lib/wasm32-wasi", folder / "torture.o", "-lc", builtins()]
    if said([*LINK, *exports, "-o", module, made, *libraries], 60)[1] != 0:
        return None
    bytes_ = module.read_bytes()
    return module, next(main for main in MAINS if main.encode() in bytes_)


def builtins() -> str:
    return said(["clang", "--target=wasm32-wasi", "-print-libgcc-file-name"], 60)[0]


def outcome(program: str, file: pathlib.Path, level: str, folder: pathlib.Path) -> str:
    """`passes`, or that V8 ends it in the same way, or how it differs, or why it is left out."""
    made = built(file, level, folder)
    if made is None:
        return "left out: not compiled or linked"
    module, main = made
    told = said([program, "check", module], 60)[0]
    why = next((why for begin, why in LEFT_OUT.items() if told.startswith(begin)), None)
    if why:
        return f"left out: {why}"
    values = ["0", "0"] if main == "__main_argc_argv" else []
    given = by_program(program, module, main, *values)
    if given in ("return 0", "trap 2"):
        return "passes"
    if given.startswith("depth"):
        return "left out: a named limit"
    theirs, = by_v8(module, ",".join([main, *values]), seconds=V8_SECONDS)
    return "fails in V8 too" if given == theirs else f"DIFFERS: {given}, in V8 {theirs}"


def tried(program: str, file: pathlib.Path, level: str, folder: pathlib.Path) -> Tuple[pathlib.Path, str]:
    try:
        return file, outcome(program, file, level, folder)
    except Late as late:
        return file, f"left out: {pathlib.Path(str(late)).name} takes too long"


def main() -> int:
    parser = argparse.ArgumentParser(description=(__doc__ or "").split("\n")[0])
    parser.add_argument("program")
    parser.add_argument("out", nargs="?", type=pathlib.Path)
    parser.add_argument("--level", default="-O2")
    parser.add_argument("--jobs", type=int, default=os.cpu_count())
    options = parser.parse_args()
    need("clang", "wasm-ld", "node", "apt-get")
    counts: Counter[str] = collections.Counter()
    with tempfile.TemporaryDirectory() as name, concurrent.futures.ThreadPoolExecutor(options.jobs) as pool:
        folder = pathlib.Path(name)
        out = options.out or folder
        out.mkdir(parents=True, exist_ok=True)
        subprocess.run([*WASM, "-O1", "-fno-builtin", "-c", "-o", folder / "torture.o", HERE / "torture.c"], check=True)
        files = sorted(fetch(out).glob("*.c"))
        for file, end in pool.map(lambda file: tried(options.program, file, options.level, folder), files):
            counts[end if not end.startswith("DIFFERS") else "DIFFERS"] += 1
            if end.startswith("DIFFERS"):
                print(f"{file.name}: {end}", flush=True)
    for end, count in sorted(counts.items()):
        print(f"{count:6} {end}")
    left_out = sum(count for end, count in counts.items() if end.startswith("left out"))
    print(f"{len(files)} files: {counts['passes']} pass, {counts['fails in V8 too']} fail in V8 too, {counts['DIFFERS']} differed, {left_out} left out")
    return 1 if counts["DIFFERS"] or not counts["passes"] else 0


if __name__ == "__main__":
    sys.exit(main())
