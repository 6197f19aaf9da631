#!/usr/bin/env python3
"""Stops guests by each engine: what that costs, and how exact it is.

    bench/peers/stops.py LIBRARY PEERS

LIBRARY is libwasmloop.a or a folder with it, PEERS the folder that fetch.sh makes. Its columns:

    fuel costs    the times of ../kernels with fuel over those without, the geometric mean
    stores        how many of 100 stores in a row are done with one unit of fuel less than all of them take
    late          by how much a guest that never ends outlasts a deadline of 5 ms, in slices of 10,000 units (WasmEdge: canceled), 200 times
    instance      a fresh instance with so much memory, a call and its end
    host call     of a function without parameters, less a load of the guest

The engines take turns on one processor under a real-time class, and the fastest of all calls counts. Deadlines have all processors.
"""

from __future__ import annotations

import functools
import math
import os
import subprocess
import sys
import tempfile
from pathlib import Path
from statistics import geometric_mean
from typing import Mapping

import peers
from peers import PROCESSORS, Engine, StrPath

HERE = Path(__file__).resolve().parent
sys.path.append(str(HERE.parent / "kernels"))
import run as kernels  # noqa: E402

TURNS, CALLS, STOPPED, SLICE, HOST_CALLS = 3, 200, "200", "10000", 500_000
PAGES = 1, 64
HEADS = ["fuel costs", "stores of 100", "late: mean; worst, us", *(f"instance, {pages * 64} KiB, ns" for pages in PAGES), "host call, ns"]


def guest(folder: Path, pages: int) -> Path:
    """The module of guest.c with so many pages of memory."""
    made, module = folder / "guest.o", folder / f"{pages}.wasm"
    subprocess.run([*kernels.COMPILE, *kernels.WASM, f"-I{HERE.parents[1]}/examples", "-c", "-o", made, HERE / "guest.c"], check=True)
    link = ["wasm-ld", "--no-entry", "--stack-first", "-z", "stack-size=16384", f"--initial-memory={pages << 16}"]
    subprocess.run([*link, "-o", module, made], check=True)
    return module


def fastest(engines: Mapping[str, Engine], *words: StrPath) -> dict[str, float]:
    """The nanoseconds of each engine's fastest call."""
    least = dict.fromkeys(engines, math.inf)
    for turn in range(TURNS):
        os.sched_setaffinity(0, {turn % len(PROCESSORS)})
        for name, engine in engines.items():
            least[name] = min(least[name], int(engine(*words)[-1]))
    return least


def costs_of_fuel(engines: Mapping[str, Engine], folder: Path) -> dict[str, float]:
    """By how much fuel makes each engine slower, of those that can do without."""
    both = {name: it for name, it in engines.items() if f"{name}, fuel" in engines or name.endswith(", fuel")}
    ratios: dict[str, list[float]] = {name: [] for name in both if name.endswith(", fuel")}
    for kernel in sorted(path.stem for path in kernels.FOLDER.glob("*.c") if path.stem != "native"):
        least = fastest(both, "call", kernels.compiled(kernel, folder)[0], "1")
        for name, of in ratios.items():
            of.append(least[name] / least[name.removesuffix(", fuel")])
    return {name: geometric_mean(of) for name, of in ratios.items()}


def stores(engine: Engine, module: Path) -> str:
    """How many stores are done with one unit of fuel too few."""
    total = int(engine("fuel", module, "1000000")[1])
    return engine("fuel", module, str(total - 1))[0]


def late(engine: Engine, module: Path) -> str:
    os.sched_setaffinity(0, PROCESSORS)
    mean, worst = (int(it) / 1000 for it in engine("late", module, STOPPED, SLICE))
    return f"{mean:.0f}; {worst:.0f}"


def host_calls(engines: Mapping[str, Engine], module: Path) -> dict[str, float]:
    """The nanoseconds of a call of the host: guest.c's work with it, less that without."""
    with_calls, without = (fastest(engines, "work", module, str(2 * HOST_CALLS + odd), os.devnull, "3") for odd in (1, 0))
    return {name: (with_calls[name] - without[name]) / HOST_CALLS for name in engines}


def main(library: str, folder: str) -> None:
    peers.before_all_others()
    engines = peers.engines(library, Path(folder))
    if "WasmEdge" in engines:
        engines["WasmEdge, fuel"] = functools.partial(peers.said, peers.of_root(Path(folder), "peer-wasmedge", "fuel"))
    with tempfile.TemporaryDirectory() as room:
        small, large = (guest(Path(room), pages) for pages in PAGES)
        costs = costs_of_fuel(engines, Path(room))
        instances = [fastest(engines, "work", module, "0", os.devnull, str(CALLS)) for module in (small, large)]
        calls = host_calls(engines, small)
        print("| | " + " | ".join(HEADS) + " |\n" + "|---" * (len(HEADS) + 1) + "|")
        for name, engine in engines.items():
            counts = name == "ours" or name in costs
            cells = [f"{costs[name]:.2f}" if name in costs else "", stores(engine, small) if counts else ""]
            cells.append(late(engine, small) if name != "wasmi" else "never stops")
            cells += [f"{least[name]:,}" for least in instances] + [f"{calls[name]:.0f}"]
            print(f"| {name} | " + " | ".join(cells) + " |", flush=True)


if __name__ == "__main__":
    if len(sys.argv) != 3:
        sys.exit(__doc__)
    main(*sys.argv[1:])
