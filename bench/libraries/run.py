#!/usr/bin/env python3
"""Runs requests of real libraries by this library and by other engines, side by side.

    bench/libraries/run.py LIBRARY PEERS [NAME..]
    bench/libraries/run.py LIBRARY PEERS --load [NAME..]

LIBRARY is libwasmloop.a or a folder with it. PEERS is the folder that ../peers/fetch.sh makes. The guests and the requests are those of
examples/libraries, NAMEs of its libraries or all. A line a request: the milliseconds of this library, and by how much each other engine is
slower: below 1 it is faster. A request is a fresh instance, `uv_work`, and the instance dropped; the module is loaded (and by wasmi translated)
before. The engines take turns on one processor under a real-time class, and the fastest of all calls counts. Results and replies are compared.

With --load, a line a module: its bytes, the milliseconds in which this library reads and checks it, by how much each other engine is slower
to load it (and translate it), and how many bytes each keeps resident for a byte of the module.
"""

from __future__ import annotations

import contextlib
import math
import os
import sys
import tempfile
from pathlib import Path
from statistics import geometric_mean
from typing import Iterator, Mapping, Sequence

HERE = Path(__file__).resolve().parent
TOP = HERE.parent.parent
sys.path[:0] = [str(TOP / "examples" / "libraries"), str(HERE.parent / "peers")]
import compiling  # noqa: E402
import libraries  # noqa: E402
import peers  # noqa: E402
from peers import PROCESSORS, Engine, StrPath  # noqa: E402

TURNS, CALLS = 5, "3"
LOADS = "10"
# A shorter request measures the making of an instance, and is left out of the table.
LEAST_MS = 0.2


def requests(names: Sequence[str]) -> Iterator[tuple[str, Path, int, bytes]]:
    """(label, module, operation, request) of each request to run. The texts of the requests are in the packages of several libraries."""
    for package in sorted({port.package for port in libraries.PORTS.values()}):
        if not compiling.fetch(package):
            sys.exit(f"the source of {package} can't be fetched")
    of_name: dict[str, list[tuple[str, int, bytes]]] = {}
    for name, operation, request, what in libraries.rows(compiling.SOURCES):
        of_name.setdefault(name, []).append((f"{name}: {what}", operation, request))
    for name in names:
        compiling.write_made(name, libraries.PORTS[name])
        with contextlib.redirect_stdout(sys.stderr):
            module = compiling.module(name, libraries.PORTS[name])
        yield from ((label, module, operation, request) for label, operation, request in of_name[name])


def measure(engines: Mapping[str, Engine], *words: StrPath) -> tuple[dict[str, float], dict[str, list[tuple[str, ...]]]]:
    """The fastest call of each engine in milliseconds, and what each printed before its time, turn by turn."""
    least = dict.fromkeys(engines, math.inf)
    told: dict[str, list[tuple[str, ...]]] = {name: [] for name in engines}
    for turn in range(TURNS):
        os.sched_setaffinity(0, {turn % len(PROCESSORS)})
        for name, engine in engines.items():
            *answer, took = engine(*words)
            told[name].append(tuple(answer))
            least[name] = min(least[name], int(took) / 1e6)
    return least, told


def load_modules(engines: Mapping[str, Engine], names: Sequence[str]) -> int:
    """The table of loads, a row for each library."""
    others = [name for name in engines if name != "ours"]
    print("| module | bytes | ms | " + " | ".join(others) + " | " + " | ".join(f"resident, {name}" for name in engines) + " |")
    print("|---" * (3 + len(others) + len(engines)) + "|")
    modules, ratios = {label.partition(":")[0]: module for label, module, _, _ in requests(names)}, []
    for name, module in modules.items():
        size = module.stat().st_size
        ms, told = measure(engines, "load", module, LOADS)
        row = [ms[it] / ms["ours"] for it in others] + [min(int(resident) for resident, in told[it]) / size for it in engines]
        ratios.append(row)
        print(f"| {name} | {size:,} | {ms['ours']:.2f} | " + " | ".join(f"{it:.2f}" for it in row) + " |", flush=True)
    print("| geometric mean | | | " + " | ".join(f"{geometric_mean(column):.2f}" for column in zip(*ratios)) + " |")
    return 0


def run_requests(engines: Mapping[str, Engine], names: Sequence[str]) -> int:
    """The table of requests. The status is 1 where results or replies differ."""
    others = [name for name in engines if name != "ours"]
    print("| request | ms | " + " | ".join(others) + " |")
    print("|---" * (len(engines) + 1) + "|")
    ratios, is_right = [], True
    with tempfile.NamedTemporaryFile() as file:
        for label, module, operation, request in requests(names):
            Path(file.name).write_bytes(request)
            ms, told = measure(engines, "work", module, str(operation), file.name, CALLS)
            is_one = len(set().union(*told.values())) == 1
            is_right &= is_one
            if ms["ours"] < LEAST_MS and is_one:
                continue
            row = [ms[name] / ms["ours"] for name in others]
            ratios.append(row)
            print(f"| {label} | {ms['ours']:.2f} | " + " | ".join(f"{it:.2f}" for it in row) + " |" + ("" if is_one else " RESULTS DIFFER"), flush=True)
    print("| geometric mean | | " + " | ".join(f"{geometric_mean(column):.2f}" for column in zip(*ratios)) + " |")
    return 0 if is_right else 1


def main(library: str, folder: str, words: Sequence[str]) -> int:
    peers.before_all_others()
    engines = peers.engines(library, Path(folder))
    names = [word for word in words if word != "--load"] or list(libraries.PORTS)
    return load_modules(engines, names) if "--load" in words else run_requests(engines, names)


if __name__ == "__main__":
    if len(sys.argv) < 3:
        sys.exit(__doc__)
    sys.exit(main(sys.argv[1], sys.argv[2], sys.argv[3:]))
