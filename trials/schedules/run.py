#!/usr/bin/env python3
"""Runs `serve` with a guest whose callback cancels two requests apart, and looks at what was answered and reported.

    trials/schedules/run.py PROGRAM [--runs 2000]

`uv_main` asks for work three times and starts a timer, whose callback emits what a cancel of request 2 is answered, takes
its time, and emits what a cancel of request 3 is answered. Each after-work callback emits a hundred times its request and
its kind. How long callback and work take, the fuel of work, loops and workers change from run to run. What a loop may do:
a cancel is answered 0 or -16, and each request is reported once, of a cancellation exactly if its cancel was answered 0,
and else of the end that its work has with this fuel. What came is counted; the status is 1 if a loop did something
else. With one worker, 0 and then -16 is what threads show and no script: the worker drops request 2 and starts request 3
within one callback.
"""

from __future__ import annotations

import argparse
import collections
import itertools
import pathlib
import re
import subprocess
import sys
import tempfile
from typing import Counter, List, Optional, Sequence, Tuple

HERE = pathlib.Path(__file__).resolve().parent

GUEST = """
#include "uv.h"
static volatile int32_t turns;
static void take_time(int32_t n) { for (turns = 0; turns < n; turns++) {} }
static void cancel_apart(int32_t timer) {
    (void)timer;
    uv_emit(uv_cancel(2));
    take_time(CALLBACK);
    uv_emit(uv_cancel(3));
}
UV_MAIN() {
    for (int32_t operation = 0; operation < 3; operation++) uv_queue_work(operation, 0, 0);
    uv_timer_start(uv_timer_init(), cancel_apart, 0, 0);
}
UV_WORK(operation) { take_time(WORK); return operation; }
UV_AFTER_WORK(request, kind, code) { (void)code; uv_emit(100 * request + kind); }
"""

# Turns of the callback and of the work.
TIMES = [(6000, 1000), (6000, 10000), (300, 1000), (30000, 3000), (30000, 10)]

# The fuel of work, and the kind that tells how work ends with it.
FUELS = [(10_000_000, 0), (10, 3)]

SHAPES = [(1, 1), (1, 2), (1, 16), (3, 1), (8, 1), (8, 16)]

BUSY = -16


def compiled(folder: pathlib.Path, number: int, callback: int, work: int) -> pathlib.Path:
    """A guest that takes so long."""
    (folder / f"{number}.c").write_text(f"#define CALLBACK {callback}\n#define WORK {work}\n" + GUEST)
    subprocess.run(["sh", HERE.parents[1] / "examples" / "build.sh", folder / str(number)], check=True)
    return folder / f"{number}.wasm"


def may_be(emits: Sequence[int], kind: int) -> bool:
    """Whether a loop may emit this, where work ends so."""
    if len(emits) != 5 or not {*emits[:2]} <= {0, BUSY}:
        return False
    second, third = (5 if answer == 0 else kind for answer in emits[:2])
    return sorted(emits[2:]) == [100 + kind, 200 + second, 300 + third]


def signed(word: str) -> int:
    """A value as a signed number, however it is printed."""
    return (int(word) + 2**63) % 2**64 - 2**63


def outcomes(printed: str, loops: int) -> Optional[List[Tuple[int, ...]]]:
    """What each loop emitted; None where a line is another."""
    lines = [re.fullmatch(r"loop (\d+) over emits((?: -?\d+)*)", line) for line in printed.splitlines()]
    told = [line for line in lines if line]
    if None in lines or [int(line[1]) for line in told] != [*range(loops)]:
        return None
    return [tuple(map(signed, line[2].split())) for line in told]


def main() -> None:
    parser = argparse.ArgumentParser()
    parser.add_argument("program")
    parser.add_argument("--runs", type=int, default=2000)
    options = parser.parse_args()
    seen: Counter[Tuple[int, ...]] = collections.Counter()
    only_threads = 0
    with tempfile.TemporaryDirectory() as name:
        guests = [compiled(pathlib.Path(name), number, *times) for number, times in enumerate(TIMES)]
        cases = itertools.cycle(itertools.product(SHAPES, FUELS, guests))
        for (loops, workers), (fuel, kind), guest in itertools.islice(cases, options.runs):
            words = [str(guest), "--loops", str(loops), "--workers", str(workers), "--work-fuel", str(fuel)]
            ran = subprocess.run([options.program, "serve", *words], capture_output=True, text=True)
            emitted = outcomes(ran.stdout, loops)
            if ran.returncode != 0 or emitted is None or not all(may_be(one, kind) for one in emitted):
                print(f"status {ran.returncode} of {words[1:]}: {ran.stdout}{ran.stderr}")
                sys.exit(1)
            seen.update((kind, *one) for one in emitted)
            only_threads += (loops, workers) == (1, 1) and emitted[0][:2] == (0, BUSY)
    for (kind, *emits), count in sorted(seen.items()):
        print(f"{count:7} times {' '.join(map(str, emits))}, where work ends as kind {kind}")
    print(f"{options.runs} runs: {len(seen)} outcomes, all lawful; {only_threads} that no script of one loop and one worker has")


if __name__ == "__main__":
    main()
