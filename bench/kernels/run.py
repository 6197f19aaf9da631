#!/usr/bin/env python3
"""Runs the kernels by the program, by wabt's wasm-interp, by JavaScriptCore's interpreters, by V8 and natively, side by side.

    bench/kernels/run.py PROGRAM [--peers FOLDER] [KERNEL..]

Each KERNEL.c of this folder is compiled by clang, to WebAssembly and natively. A line a kernel: the milliseconds of each. Then the table of
docs/PERFORMANCE.md: how many times as long wasm-interp and JavaScriptCore's interpreters take as the program, and the program as V8 and as
native code. JavaScriptCore (`jsc`, Debian's libjavascriptcoregtk-4.0-bin) has two: IPInt interprets a module's bytes in place, LLInt first
translates them to its own register bytecode; its compilers are off, and where there is no `jsc` both are left out. FOLDER is what
../peers/fetch.sh makes: with it, wasmi without and with fuel and WasmEdge's interpreter run too. Times of the program and
of wasm-interp are user time of whole processes; the others call the kernel in a loop in one process, so that a compiler is warm, and the
least call counts. All take turns on one processor under a real-time class, and the least of five turns counts; node runs beside, on all
processors, for it compiles in threads of its own. What the program gives is compared with the others.
"""

from __future__ import annotations

import functools
import math
import os
import re
import shutil
import subprocess
import sys
import tempfile
from pathlib import Path
from statistics import geometric_mean
from typing import Callable, Mapping, Tuple, Union

sys.path.append(str(Path(__file__).resolve().parent.parent / "peers"))
import peers  # noqa: E402
from peers import PROCESSORS, Command  # noqa: E402

FOLDER = Path(__file__).resolve().parent
COMPILE = ["clang", "-std=gnu11", "-O2", "-fno-vectorize", "-fno-slp-vectorize"]
WASM = ["--target=wasm32", "-mno-bulk-memory", "-ffreestanding", "-fno-builtin"]
# The linker is called by itself: clang would run wasm-opt behind it where there is one.
LINK = ["wasm-ld", "--no-entry", "--export=run", "--strip-all", "-z", "stack-size=16384"]
Answer = Tuple[float, Union[int, None]]
Engine = Callable[[], Answer]
ALL_FUEL = str(2**64 - 1)
TURNS, CALLS, INTERPRETED_CALLS = 5, "20", "3"
INTERPRETED = {"JSC_useBBQJIT": "0", "JSC_useOMGJIT": "0"}
HEADS = {
    "wabt": "times as fast as wasm-interp",
    "ipint": "times as fast as IPInt",
    "llint": "times as fast as LLInt",
    "wasmi": "times as fast as wasmi",
    "wasmi, fuel": "times as fast as wasmi with fuel",
    "WasmEdge": "times as fast as WasmEdge",
    "v8": "V8, times as fast",
    "native": "native code, times as fast",
}
LABELS = {"fib": "fib (calls)", "queens": "queens (calls, loops)", "switch": "switch (`br_table`)"}


def as_others() -> None:
    """In a new process: no real-time class, all processors."""
    os.sched_setscheduler(0, os.SCHED_OTHER, os.sched_param(0))
    os.sched_setaffinity(0, PROCESSORS)


def compiled(kernel: str, folder: Path) -> tuple[Path, Path]:
    """The kernel's module and its native program."""
    source, module, native, made = FOLDER / f"{kernel}.c", folder / f"{kernel}.wasm", folder / kernel, folder / "kernel.o"
    subprocess.run([*COMPILE, *WASM, "-c", "-o", made, source], check=True)
    subprocess.run([*LINK, "-o", module, made], check=True)
    subprocess.run([*COMPILE, "-o", native, source, FOLDER / "native.c"], check=True)
    return module, native


def user_time(command: Command, pattern: str) -> Answer:
    """The user time of a process in milliseconds, and the number in what it prints."""
    with tempfile.TemporaryFile() as out:
        child = subprocess.Popen(command, stdout=out, stderr=subprocess.STDOUT)
        _, _, used = os.wait4(child.pid, 0)
        out.seek(0)
        found = re.search(pattern, out.read().decode())
        return used.ru_utime * 1e3, int(found[1]) % 2**32 if found else None


def told(command: Command, options: Mapping[str, str] = {}, free: bool = False) -> Answer:
    """The milliseconds that a process prints, and the number before them."""
    others = as_others if free else None
    environment = {**os.environ, **options}
    shown = subprocess.run(command, stdout=subprocess.PIPE, text=True, check=True, preexec_fn=others, env=environment).stdout.split()
    return int(shown[1]) / 1e6, int(shown[0])


def interpreters(module: Path) -> dict[str, Engine]:
    """JavaScriptCore's two, where it is there."""
    if not shutil.which("jsc"):
        return {}
    command: Command = ["jsc", FOLDER / "jsc.js", "--", module, INTERPRETED_CALLS]
    return {
        "ipint": lambda: told(command, INTERPRETED),
        "llint": lambda: told(command, {**INTERPRETED, "JSC_useWasmIPInt": "0"}),
    }


def measure(program: str, kernel: str, folder: Path, others: Mapping[str, Command]) -> tuple[dict[str, float], bool]:
    """The least milliseconds of each engine, and whether all gave one number."""
    module, native = compiled(kernel, folder)
    engines: dict[str, Engine] = {
        "ours": lambda: user_time([program, "invoke", module, "run", "--fuel", ALL_FUEL, "--depth", "128"], r"^return (-?\d+) "),
        "wabt": lambda: user_time(["wasm-interp", module, "--run-all-exports"], r"run\(\) => i32:(\d+)"),
        **interpreters(module),
        **{name: functools.partial(told, [*command, "call", module, INTERPRETED_CALLS]) for name, command in others.items()},
        "v8": lambda: told(["node", FOLDER / "v8.mjs", module, CALLS], free=True),
        "native": lambda: told([native, CALLS]),
    }
    least, given = dict.fromkeys(engines, math.inf), set()
    for turn in range(TURNS):
        os.sched_setaffinity(0, {turn % len(PROCESSORS)})
        for engine, call in engines.items():
            took, number = call()
            least[engine] = min(least[engine], took)
            given.add(number)
    return least, len(given) == 1


def ratios_of(ms: Mapping[str, float]) -> dict[str, float]:
    """How many times as fast the program is as the interpreters, and as the program V8 and native code are."""
    slower = ms.keys() - {"ours", "v8", "native"}
    return {engine: ms[engine] / ms["ours"] if engine in slower else ms["ours"] / ms[engine] for engine in ms if engine != "ours"}


def show(ratios: dict[str, dict[str, float]]) -> None:
    """The table of docs/PERFORMANCE.md."""
    engines = [engine for engine in HEADS if engine in next(iter(ratios.values()))]
    means = {engine: geometric_mean(row[engine] for row in ratios.values()) for engine in engines}
    print("\n| kernel | " + " | ".join(HEADS[engine] for engine in engines) + " |")
    print("|---" * (len(engines) + 1) + "|")
    for kernel, row in {**ratios, "geometric mean": means}.items():
        cells = (("%.1f" if engine in ("wabt", "v8", "native") else "%.2f") % row[engine] for engine in engines)
        print(f"| {LABELS.get(kernel, kernel)} | " + " | ".join(cells) + " |")


def main() -> int:
    if len(sys.argv) < 2:
        sys.exit(__doc__)
    program, words, others = sys.argv[1], sys.argv[2:], {}
    if words[:1] == ["--peers"]:
        others, words = peers.others(Path(words[1])), words[2:]
    kernels = words or sorted(path.stem for path in FOLDER.glob("*.c") if path.stem != "native")
    peers.before_all_others()
    ratios, is_right = {}, True
    with tempfile.TemporaryDirectory() as folder:
        for kernel in kernels:
            ms, is_one = measure(program, kernel, Path(folder), others)
            ratios[kernel] = ratios_of(ms)
            times = "  ".join(f"{engine} {took:.3f}" for engine, took in ms.items())
            print("%-8s ms: %s%s" % (kernel, times, "" if is_one else "  ANSWERS DIFFER"), flush=True)
            is_right &= is_one
    show(ratios)
    return 0 if is_right else 1


if __name__ == "__main__":
    sys.exit(main())
