#!/usr/bin/env python3
"""Jobs in slices, beside the same jobs in one run.

    trials/slices/run.py FOLDER [--modules N] [--seed S]        FOLDER: the prefix of install.sh

Random modules (trials/fuzz/work.mjs) and the examples that have a work function, each with random operations, bytes, fuel and depth: a
job is run at once, and the same job again in slices of random lengths. Outcome, value, bytes, fuel and the place where it stopped are
the same, a slice uses some of its units and no more, and a job that copies no bytes uses them all. Then a job of 10^9 units, at once
and in 10,000 slices, with the time of both. The status is 1 where anything differs.
"""

from __future__ import annotations

import argparse
import functools
import os
import random
import subprocess
import sys
import time
from pathlib import Path
from types import ModuleType
from typing import TYPE_CHECKING, Callable, Dict, Iterator, List, Tuple, TypeVar

if TYPE_CHECKING:
    from wasmloop import Job, Module, Reply, Site

    Make = Callable[[], Job]
    Told = Tuple[Reply, List[Site]]
Done = TypeVar("Done")
HERE = Path(__file__).resolve().parent
LONG, SLICES = 10**9, 10_000

# uv_work counts its operand down to 0, so many units of fuel a turn
COUNTS = bytes.fromhex(
    "0061736d01000000" "01060160017f017f" "03020100" "070b010775765f776f726b0000"
    "0a1a01180002400340" "2000450d01" "200041016b2100" "0c000b0b" "41000b"
)
TURN = 9


def told(job: Job) -> Told:
    """What is told of a job that is over."""
    return job.reply(), job.stop()


def at_once(make: Make) -> Told:
    with make() as job:
        return told(job.run())


def in_slices(make: Make, next_units: Callable[[], int], fuel: int) -> Tuple[Told, int, int, int]:
    """What is told of a job that runs in slices, the units of its last slice, and how many it paused before."""
    used, pauses = 0, 0
    with make() as job:
        while True:
            units = next_units()
            if job.run_for(units):
                return told(job), used, units, pauses
            before, used, pauses = used, job.about().used, pauses + 1
            if not before < used <= before + units or used >= fuel:
                sys.exit(f"a job of {fuel} units is paused after {used}, by a slice of {units} after {before}")


def lengths(chance: random.Random, used: int) -> Callable[[], int]:
    """Lengths of slices, from single units to more than all."""
    most = chance.choice([1, 2, 3, 17, 100, max(1, used // 3), used + 1])
    return lambda: chance.randint(1, most)


def compare(name: str, make: Make, chance: random.Random, fuel: int) -> Tuple[bool, str, int]:
    """Whether a job in slices is told of as it is when run at once; the outcome, and how many pauses it made."""
    wanted = at_once(make)
    got, used, last, pauses = in_slices(make, lengths(chance, wanted[0].used), fuel)
    if got == wanted and used <= got[0].used <= used + last:
        return True, wanted[0].outcome, pauses
    print(f"{name}: {wanted} at once, {got} after {used} units and a slice of {last}")
    return False, wanted[0].outcome, pauses


def jobs(module: Module, name: str, chance: random.Random, tries: int) -> Iterator[Tuple[str, Make, int]]:
    """Jobs of a module, each as its name, a function that makes it, and its fuel."""
    words = chance.randrange(2**32), chance.randbytes(chance.choice([0, 3, 64, 1000]))
    whole = module.work(*words, fuel=2_000_000, depth=64).used
    for number in range(tries):
        fuel = 2_000_000 if number == 0 else chance.randint(0, whole + 2)
        depth = 64 if number < 2 else chance.randint(1, 8)
        yield f"{name}, try {number}", functools.partial(module.job, *words, fuel=fuel, depth=depth), fuel


def guests(count: int, seed: int) -> Iterator[Tuple[str, bytes]]:
    """The modules: their names and bytes."""
    for path in sorted((HERE.parents[1] / "examples").glob("*.wasm")):
        if b"uv_work" in path.read_bytes():
            yield path.name, path.read_bytes()
    made = subprocess.run(["node", HERE.parent / "fuzz" / "work.mjs", str(count), str(seed)], capture_output=True, check=True, text=True)
    for number, line in enumerate(made.stdout.split()):
        yield f"module {number} of seed {seed}", bytes.fromhex(line)


def compare_all(wasmloop: ModuleType, count: int, seed: int) -> int:
    """Compares each job of each module; how many differ."""
    chance, modules, pauses, differ = random.Random(seed), 0, 0, 0
    outcomes: Dict[str, int] = {}
    for name, data in guests(count, seed):
        try:
            module = wasmloop.Module(data)
        except wasmloop.Refused:  # a segment that doesn't fit
            continue
        modules += 1
        for what, make, fuel in jobs(module, name, chance, 4):
            same, outcome, paused = compare(what, make, chance, fuel)
            outcomes[outcome] = outcomes.get(outcome, 0) + 1
            differ, pauses = differ + (not same), pauses + paused
    print(f"{modules} modules, {sum(outcomes.values())} jobs, {pauses} pauses, {differ} differ:", *(f"{outcomes[it]} {it}" for it in sorted(outcomes)))
    return differ


def timed(work: Callable[[], Done]) -> Tuple[Done, float]:
    began = time.monotonic()
    return work(), time.monotonic() - began


def compare_long(wasmloop: ModuleType) -> int:
    """A job of 10^9 units, at once and in slices; 1 where they differ."""
    module = wasmloop.Module(COUNTS)

    def make() -> Job:
        made: Job = module.job(LONG // TURN - 1, fuel=LONG, depth=1)
        return made

    wanted, once = timed(lambda: at_once(make))
    (got, _, _, pauses), sliced = timed(lambda: in_slices(make, lambda: LONG // SLICES, LONG))
    print(f"{wanted[0].used} units: {once:.2f} s at once, {sliced:.2f} s in {pauses + 1} slices")
    return int(got != wanted or wanted[0].outcome != "done" or pauses + 1 != SLICES)


def main() -> None:
    words = argparse.ArgumentParser()
    words.add_argument("folder")
    words.add_argument("--modules", type=int, default=1000)
    words.add_argument("--seed", type=int, default=1)
    given = words.parse_args()
    os.environ["WASMLOOP_LIBRARY"] = str(Path(given.folder).resolve() / "lib" / "libwasmloop.so.0")
    sys.path.insert(0, str(HERE.parents[1] / "capi" / "python"))
    import wasmloop

    differ = compare_all(wasmloop, given.modules, given.seed) + compare_long(wasmloop)
    sys.exit(1 if differ else 0)


main()
