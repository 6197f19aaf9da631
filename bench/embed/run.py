#!/usr/bin/env python3
"""The library beside the program.

    bench/embed/run.py PROGRAM FOLDER        FOLDER: the prefix of install.sh

Two guests run under `serve`, with one loop and one worker, and by bench/embed/host.c over the library, in one thread: one asks for work
again and again, the other restarts a timer. Each is run with few and with many rounds, and the difference is the time of a round: the
program's start is no part of it. User time, processor time and wall time are printed, since `serve` has two threads. The last line is the
processor time of a Python process that loads the library, beside one that does not.
"""

from __future__ import annotations

import os
import resource
import subprocess
import sys
import time
from pathlib import Path
from typing import Callable, Mapping, Sequence, Union

HERE = Path(__file__).resolve().parent
TIMES = 7
FEW, MANY = 1_000, 20_000
Command = Sequence[Union[str, Path]]


def spent() -> tuple[float, float, float]:
    """User time and processor time of all commands so far, and wall time, in seconds."""
    use = resource.getrusage(resource.RUSAGE_CHILDREN)
    return use.ru_utime, use.ru_utime + use.ru_stime, time.monotonic()


def least(words: Command, env: Mapping[str, str] | None = None) -> tuple[list[float], bytes]:
    """The least times of a command, and what it prints."""
    took: list[list[float]] = []
    for _ in range(TIMES):
        before = spent()
        ran = subprocess.run(words, capture_output=True, env=env, check=False)
        took.append([now - then for now, then in zip(spent(), before)])
        if ran.returncode:
            sys.exit(f"{words}: status {ran.returncode}: {ran.stderr.decode()}")
    return [min(it) for it in zip(*took)], ran.stdout


def guest(folder: Path, name: str, rounds: int) -> Path:
    """A guest of bench/embed, built with so many rounds."""
    made = folder / f"{name}_{rounds}.wasm"
    words = ["--target=wasm32", "-mcpu=mvp", "-O2", "-nostdlib", f"-DROUNDS={rounds}", f"-I{HERE.parents[1]}/examples"]
    links = [f"-Wl,{it}" for it in ("--no-entry", "--export-table", "-z,stack-size=16384", "--strip-all")]
    subprocess.run(["clang", *words, *links, "-o", made, HERE / f"{name}.c"], check=True)
    return made


def round_of(make: Callable[[int], Command]) -> tuple[list[float], bytes]:
    """The times of a round in seconds, and what is printed of the many rounds."""
    few, _ = least(make(FEW))
    many, out = least(make(MANY))
    return [(it - of_few) / (MANY - FEW) for it, of_few in zip(many, few)], out


def main(program: str, prefix: str) -> None:
    folder = Path(prefix).resolve()
    host = folder / "bench_host"
    subprocess.run(["cc", "-O2", f"-I{folder}/include", "-o", host, HERE / "host.c", folder / "lib" / "libwasmloop.a"], check=True)
    for name, what in (("works", "a work request"), ("ticks", "a callback")):
        guests = {it: guest(folder, name, it) for it in (FEW, MANY)}
        served, wanted = round_of(lambda it: [program, "serve", guests[it], "--loops", "1", "--workers", "1"])
        here, got = round_of(lambda it: [host, guests[it]])
        if got != wanted:
            sys.exit(f"{name}: {got!r} is not {wanted!r}")
        for kind, ours, theirs in zip(("user", "processor", "wall"), here, served):
            print(f"{what}, {kind} time: the library {ours * 1e6:.2f} us, serve {theirs * 1e6:.2f} us, ratio {ours / theirs:.2f}")
    env = dict(os.environ, PYTHONPATH=str(HERE.parents[1] / "capi" / "python"), WASMLOOP_LIBRARY=str(folder / "lib" / "libwasmloop.so.0"))
    (_, loads, _), _ = least([sys.executable, "-c", "import wasmloop"], env)
    (_, bare, _), _ = least([sys.executable, "-c", "import ctypes, functools, threading, typing"], env)
    print(f"a Python process that loads the library: {loads * 1e3:.1f} ms, one that does not: {bare * 1e3:.1f} ms, ratio {loads / bare:.2f}")


if __name__ == "__main__":
    if len(sys.argv) != 3:
        sys.exit(__doc__)
    main(*sys.argv[1:])
