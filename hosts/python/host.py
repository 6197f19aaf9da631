"""A host of wasmloop guests: some loops of one module take turns in this thread, and jobs run in a pool of threads.

usage: host.py FILE LOOPS [WORKERS]

The clock jumps to the next timer, and the lines are those of `wasmloop serve`.
"""

from __future__ import annotations

import sys
from concurrent.futures import Future, ThreadPoolExecutor
from typing import List, Optional, Tuple

from wasmloop import ENTERED, FAILED, FOREVER, OVER, RAN, Job, Loop, Module, Refused

MOST = 100_000


class Guest:
    """A loop, with what it has put out and the jobs that are under way."""

    def __init__(self, module: Module, number: int) -> None:
        self.loop, self.number = Loop(module, number), number
        self.emits: List[int] = []
        self.ran = 0
        self.jobs: List[Tuple[Job, Future[Job]]] = []
        self.ending: Optional[str] = None

    def hand_out(self, pool: ThreadPoolExecutor) -> None:
        while job := self.loop.next_job():
            if self.loop.start(job):
                self.jobs.append((job, pool.submit(job.run)))

    def accept(self) -> None:
        """Waits for the reply of the oldest job, and brings it back."""
        job, running = self.jobs.pop(0)
        running.result()
        self.loop.accept(job)

    def steps(self) -> Optional[int]:
        """Goes up to the next timers phase, and says for how long there is nothing to do, or None where the loop has ended."""
        while True:
            turned = self.loop.turn(MOST - self.ran)
            what = turned.did.what
            if what == ENTERED:
                self.ran += turned.callbacks
                return turned.wait
            if what == RAN:
                self.emits += self.loop.emits()
            if what == FAILED or what == RAN and turned.did.ending:
                self.ending = "failed"
            elif what == OVER:
                self.ending = "over"
            elif self.ran + turned.callbacks == MOST:
                self.ending = "limit"
            if self.ending:
                return None

    def turn(self, pool: ThreadPoolExecutor) -> None:
        """One turn, up to the next timers phase or the loop's end."""
        self.hand_out(pool)
        wait = self.steps()
        if wait is None:
            return
        self.hand_out(pool)
        if wait == 0:
            return
        if self.jobs:
            self.accept()
        elif wait != FOREVER:
            self.loop.clock(self.loop.clock(0) + wait)
        else:
            self.ending = "waiting"


def main(file: str, loops: int, workers: int = 3) -> int:
    with open(file, "rb") as opened:
        data = opened.read()
    try:
        module = Module(data)
    except Refused as refused:
        print(f"host.py: {refused}", file=sys.stderr)
        return 3
    guests = [Guest(module, it) for it in range(loops)]
    with ThreadPoolExecutor(workers) as pool:
        while any(it.ending is None for it in guests):
            for it in guests:
                if it.ending is None:
                    it.turn(pool)
    for it in guests:
        print(f"loop {it.number} {it.ending} emits" + "".join(f" {v}" for v in it.emits))
    return 4 if any(it.ending == "failed" for it in guests) else 0


if __name__ == "__main__":
    if len(sys.argv) < 3:
        print((__doc__ or "").split("\n\n")[1], file=sys.stderr)
        sys.exit(2)
    sys.exit(main(sys.argv[1], *map(int, sys.argv[2:])))
