#!/usr/bin/env python3
"""Random modules of binaryen's `wasm-opt -ttf` by the program, beside V8.

    trials/programs/ttf.py PROGRAM [--first SEED] [--count N] [--keep FOLDER]

Each module is made of random bytes, every second one with several results, and is optimized or not; its imports are built in, and
integers take the place of its floats (../spec/wasm.py). Each export is called three times, with random values, each time in a new
instance. Modules that differ are kept in FOLDER. Debian's packages are binaryen and node. The last lines have the counts; status 1:
something differs.
"""

from __future__ import annotations

import argparse
import collections
import pathlib
import random
import shutil
import sys
import tempfile

from outcome import HERE, Late, Word, by_program, by_v8, need, said
from typing import Counter, Iterator, List, Optional, Sequence, Tuple

sys.path.insert(0, str(HERE.parent / "spec"))
from wasm import FUNCTION, I32, I64, Module, Outside, without_floats  # noqa: E402

LEVELS: List[List[str]] = [[], ["-O1"], ["-O3"], ["-Os"], ["--flatten"]]
LIMITS = ("decode 12", "validate 6", "validate 10", "validate 11", "link 5")
TIMES = 3


def made(rng: random.Random, seed: int, folder: pathlib.Path) -> Optional[pathlib.Path]:
    """A random module; None where wasm-opt makes none, or one that can't be changed."""
    bytes_, module = folder / "bytes", folder / f"{seed}.wasm"
    bytes_.write_bytes(rng.randbytes(rng.randrange(200, 6000)))
    features = ["--mvp-features", "--enable-sign-ext", *["--enable-multivalue"] * (seed % 2)]
    command: List[Word] = ["wasm-opt", "-ttf", bytes_, "-o", module, *features, *rng.choice(LEVELS)]
    if said(command, 60)[1] != 0:
        return None
    try:
        module.write_bytes(without_floats(module.read_bytes(), rng.choice([I32, I64])))
    except (Outside, ValueError):
        return None
    return module


def calls(rng: random.Random, module: pathlib.Path) -> Iterator[Tuple[List[str], str]]:
    """The name and the values of each call, as words for the program and as one for V8."""
    parts = Module(module.read_bytes())
    for export, kind, place in parts.exports * TIMES:
        if kind != FUNCTION:
            continue
        types = parts.type_of(place)[0]
        values = [str(number(rng, 32 if one == I32 else 64)) for one in types]
        word = ",".join([export.decode(), *(value + "n" * (one == I64) for value, one in zip(values, types))])
        yield [export.decode(), *values], word


def number(rng: random.Random, bits: int) -> int:
    """A random number without a sign, near 0 or a signed end as often as not."""
    return (rng.choice([0, 1 << (bits - 1), rng.getrandbits(bits)]) + rng.randrange(-2, 3)) % (1 << bits)


def compared(program: str, rng: random.Random, seed: int, folder: pathlib.Path) -> List[str]:
    """How each call ended, or why the module is left out."""
    module = made(rng, seed, folder)
    if module is None:
        return ["left out: not made"]
    told = said([program, "check", module], 60)[0]
    if told.startswith(LIMITS):
        return ["left out: a named limit"]
    tried = list(calls(rng, module))
    theirs = by_v8(module, *(word for _, word in tried))
    if told != "accepted":
        return ["refused by both" if theirs == ["refused"] else f"DIFFERS: {told}, V8 accepts"]
    if len(theirs) != len(tried):
        return [f"DIFFERS: accepted, V8 {theirs[0]}"]
    return [same(by_program(program, module, *words), end, words) for (words, _), end in zip(tried, theirs)]


def same(ours: str, theirs: str, words: Sequence[str]) -> str:
    if "depth" in (ours.split(" ")[0], theirs):
        return "left out: a call too deep"
    return "the same" if ours == theirs else f"DIFFERS: {' '.join(words)}: {ours}, in V8 {theirs}"


def main() -> int:
    parser = argparse.ArgumentParser(description=(__doc__ or "").split("\n")[0])
    parser.add_argument("program")
    parser.add_argument("--first", type=int, default=0)
    parser.add_argument("--count", type=int, default=100)
    parser.add_argument("--keep", type=pathlib.Path, default=pathlib.Path("ttf-differences"))
    options = parser.parse_args()
    need("wasm-opt", "node")
    counts: Counter[str] = collections.Counter()
    with tempfile.TemporaryDirectory() as name:
        for seed in range(options.first, options.first + options.count):
            try:
                ends = compared(options.program, random.Random(seed), seed, pathlib.Path(name))
            except Late as late:
                ends = [f"left out: {pathlib.Path(str(late)).name} takes too long"]
            differing = [end for end in ends if end.startswith("DIFFERS")]
            counts.update("DIFFERS" if end in differing else end for end in ends)
            for end in differing:
                print(f"seed {seed}: {end}", flush=True)
            if differing:
                options.keep.mkdir(parents=True, exist_ok=True)
                shutil.copy(f"{name}/{seed}.wasm", options.keep)
    for end, count in sorted(counts.items()):
        print(f"{count:6} {end}")
    print(f"{options.count} modules: {counts['the same']} calls the same, {counts['DIFFERS']} differed")
    return 1 if counts["DIFFERS"] or not counts["the same"] else 0


if __name__ == "__main__":
    sys.exit(main())
