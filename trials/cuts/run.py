#!/usr/bin/env python3
"""Whether two libraries run random modules alike at every unit of fuel: a change of the engine must not be seen.

    trials/cuts/run.py OLD NEW [--modules N] [--seed S]     OLD and NEW: files libwasmloop.so.0, as `git show COMMIT:dist/libwasmloop.so.0`

Each module (guests.py) is run with each fuel up to what it uses, at most 500 units, on a fresh instance, and in slices of random lengths. Compared
are how a run ends, its result, the fuel used, the place of each open call and the memory; of slices also where each of them stops. The
status is 1 where anything differs.
"""

from __future__ import annotations

import argparse
import hashlib
import os
import random
import subprocess
import sys
from pathlib import Path
from typing import TYPE_CHECKING, Callable, Iterator

import guests

if TYPE_CHECKING:
    from wasmloop import Instance, Module

HERE = Path(__file__).resolve().parent
PACKAGE = HERE.parents[1] / "capi" / "python"
MOST, SLICES, DEPTHS = 500, [1, 1, 2, 3, 5, 9, 40], [1, 3, 60]


def told(instance: Instance) -> str:
    """Where the last call stopped, the fuel that it used, and the memory."""
    memory = instance.memory
    return f"{instance.used} {instance.stop()} {hashlib.sha256(memory[0:len(memory)]).hexdigest()[:16]}"


def ended(call: Callable[[], object]) -> str:
    """How a call ends."""
    from wasmloop import Stopped
    try:
        return str(call())
    except Stopped as stopped:
        return f"{stopped.ending} {stopped.trap}"


def cut(module: Module, args: list[int], fuel: int, depth: int) -> str:
    """How a call with this fuel ends."""
    with module.instance() as instance:
        return f"{ended(lambda: instance.call('f', *args, fuel=fuel, depth=depth))} {told(instance)}"


def sliced(module: Module, args: list[int], depth: int, lengths: random.Random) -> Iterator[str]:
    """How a call in slices stands after each of them, and how it ends."""
    with module.instance() as instance:
        call = instance.begin("f", *args, fuel=MOST, depth=depth)
        while not call.run_for(lengths.choice(SLICES)):
            yield str(instance.stop())
        yield f"{ended(call.result)} {told(instance)}"


def answers(seed: int) -> Iterator[str]:
    """What the library says of the module with this number, run by run."""
    from wasmloop import Module
    it = random.Random(seed)
    args, depth = [it.randrange(2**32), it.choice([0, 1, 5, 65_530, it.randrange(2**32)])], it.choice(DEPTHS)
    with Module(guests.module(seed)) as module:
        last = cut(module, args, MOST, depth)
        for fuel in range(MOST):
            found = cut(module, args, fuel, depth)
            yield f"fuel {fuel}: {found}"
            if found == last:
                break
        yield f"fuel {MOST}: {last}"
        for number, found in enumerate(sliced(module, args, depth, it)):
            yield f"slice {number}: {found}"


def tell(seeds: range, is_whole: bool) -> None:
    """What the library says of these modules: of each a line with a sum, or all."""
    sys.path.insert(0, str(PACKAGE))
    for seed in seeds:
        lines = [*answers(seed)]
        whole = "\n".join(lines)
        print(whole if is_whole else f"{seed} {len(lines)} {hashlib.sha256(whole.encode()).hexdigest()}", flush=True)


def child(library: str, seed: int, count: int, how: str) -> subprocess.Popen[str]:
    words = [sys.executable, __file__, how, str(seed), str(count)]
    return subprocess.Popen(words, env={**os.environ, "WASMLOOP_LIBRARY": os.path.abspath(library)}, stdout=subprocess.PIPE, text=True)


def first_difference(old: str, new: str, seed: int) -> str:
    one, other = [child(it, seed, 1, "--tell-all").communicate()[0].splitlines() for it in (old, new)]
    pairs = [*zip(one, other)]
    at = next((it for it, (was, now) in enumerate(pairs) if was != now), len(pairs))
    return f"module {seed}: {(one + ['nothing'])[at]}; now {(other + ['nothing'])[at]}"


def main() -> int:
    if sys.argv[1:2] in (["--tell"], ["--tell-all"]):
        tell(range(int(sys.argv[2]), int(sys.argv[2]) + int(sys.argv[3])), sys.argv[1] == "--tell-all")
        return 0
    parser = argparse.ArgumentParser(description=__doc__.partition("\n")[0])
    parser.add_argument("old", metavar="OLD")
    parser.add_argument("new", metavar="NEW")
    parser.add_argument("--modules", type=int, default=1_000)
    parser.add_argument("--seed", type=int, default=1)
    given = parser.parse_args()
    one, other = [child(it, given.seed, given.modules, "--tell") for it in (given.old, given.new)]
    assert one.stdout and other.stdout
    compared = runs = wrong = 0
    for was, now in zip(one.stdout, other.stdout):
        compared, runs = compared + 1, runs + int(was.split()[1])
        if was != now:
            wrong += 1
            print(first_difference(given.old, given.new, int(was.split()[0])))
    is_short = one.wait() or other.wait() or compared < given.modules
    print(f"{compared} modules, {runs} cuts and slices, {wrong} modules differ" + ("; a library ended early" if is_short else ""))
    return int(bool(wrong or is_short))


if __name__ == "__main__":
    sys.exit(main())
