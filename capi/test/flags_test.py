#!/usr/bin/env python3
"""Profiles of guests that are compiled by seven kinds of flags: the units of all functions, lines, call paths, cells and nodes of the call tree are
those that the host charges, each time, also of requests that stop.

usage: PYTHONPATH=capi/python WASMLOOP_LIBRARY=LIBRARY flags_test.py OUT [REQUESTS [SEED]]     ends with 1 if a sum is another

REQUESTS: how many random ones of each guest (3). Without llvm-symbolizer there are no lines, and it says so.
"""

from __future__ import annotations

import collections
import pathlib
import random
import subprocess
import sys
import warnings
from typing import Counter, Dict, Tuple

from wasmloop import InertImports, Module, lines, lower, profile, runs, wasm

TOP = pathlib.Path(__file__).resolve().parent.parent.parent
OUT, REQUESTS, SEED = pathlib.Path(sys.argv[1]), int((*sys.argv[2:3], "3")[0]), int((*sys.argv[3:4], "1")[0])
GUESTS = ("examples/crc32.c", "examples/shop.c", *(f"capi/test/desk/{it}.c" for it in ("covered", "parse", "planted", "quota")),
          *(f"examples/edge/guests/{it}.c" for it in ("deep", "hello", "trap")))
MVP = ("-mcpu=mvp",)
KINDS = {"O1": (*MVP, "-O1", "-g"), "O2": (*MVP, "-O2", "-g"), "O3, unrolled": (*MVP, "-O3", "-funroll-loops", "-g"),
         "Os, lines alone": (*MVP, "-Os", "-gline-tables-only"), "Oz": (*MVP, "-Oz", "-g"), "LTO, DWARF 4": (*MVP, "-O2", "-flto", "-gdwarf-4"),
         "newer instructions, lowered": ("-mbulk-memory", "-mnontrapping-fptoint", "-msign-ext", "-mmutable-globals", "-O2", "-g")}


def built(source: str, kind: str) -> Tuple[bytes, bytes]:
    """The module that runs and the one with DWARF."""
    objects, made = [], OUT / "guest.wasm"
    for file in (TOP / source, TOP / "examples/mem.c"):
        objects.append(OUT / f"{file.stem}.o")
        flags = ["-std=c99", "-ffreestanding", *KINDS[kind]]
        subprocess.run(["clang", "--target=wasm32", *flags, "-I", TOP / "examples", "-c", "-o", objects[-1], file], check=True)
    flags = ["--no-entry", "--export-table", "--stack-first", "-z", "stack-size=16384", *(["--lto-O2"] if "-flto" in KINDS[kind] else [])]
    subprocess.run(["wasm-ld", *flags, "-o", made, *objects], check=True)
    data = made.read_bytes()
    return (lower.lower(data, pathlib.Path(lower.SOFT).read_bytes())[0] if "lowered" in kind else data), data


def sums(told: profile.Profile) -> Dict[str, int]:
    """What must be the units that the host charged."""
    found = {"functions": told.functions.values(), "call paths": told.paths.values(), "cells": [it.units for it in told.cells],
             "nodes": [it.units for it in told.nodes]}
    if told.source:
        found["lines"] = told.lines.values()
    return {name: sum(units) for name, units in found.items()}


def look(source: str, kind: str, chance: random.Random, counts: Counter[str]) -> None:
    """Profiles random requests of a guest, with much fuel and with too little."""
    ran, debug = built(source, kind)
    host, places = Module(ran), lines.Lines(ran, debug) if lines.is_possible() else None
    for _ in range(REQUESTS):
        data = bytes(chance.choice(b"0123456789 +-*/()[]{},:abc\"\n\0\xff") for _ in range(chance.randrange(200)))
        for fuel in (10_000_000, chance.randrange(1, 3000)):
            run = runs.Request(ran, host, chance.randrange(4), data, fuel=fuel)
            told = profile.Profile(wasm.Module(ran), run, places)
            counts[str(told.ran.ending)] += 1
            wrong = {name: units for name, units in sums(told).items() if units != told.ran.used}
            if wrong or told.why:
                counts["wrong"] += 1
                print(f"{source}, {kind}: {run}, {told.ran.used} units: {wrong or told.why}")


def main() -> int:
    warnings.simplefilter("ignore", InertImports)
    OUT.mkdir(parents=True, exist_ok=True)
    chance = random.Random(SEED)
    counts: Counter[str] = collections.Counter()
    for kind in KINDS:
        for source in GUESTS:
            look(source, kind, chance, counts)
    wrong = counts.pop("wrong", 0)
    print(f"{sum(counts.values())} profiles of {len(GUESTS)} guests by {len(KINDS)} kinds of flags, {wrong} not exact"
          f"{'' if lines.is_possible() else '; left out: lines, there is no llvm-symbolizer'}; {dict(counts)}")
    return 1 if wrong or min(counts[it] for it in ("done", "trap", "depth", "spent")) < len(KINDS) else 0


if __name__ == "__main__":
    sys.exit(main())
