"""A loop of a module on asyncio.

usage: host_asyncio.py FILE [--virtual]

Its clock is the time that has passed; with --virtual it jumps to the next timer, as that of `wasmloop serve` does.
"""

from __future__ import annotations

import asyncio
import sys
import time
from typing import List, Optional, Set, Tuple

from wasmloop import ENTERED, FOREVER, OVER, RAN, Job, Loop, Module

MOST = 100_000
UNITS = 3_000                                           # of a slice: other tasks run between two of them


async def turn(loop: Loop, emits: List[int], most: int) -> Tuple[int, Optional[str]]:
    """Steps up to the next timers phase: how many callbacks ran, at most `most`, and how the loop ended, if it did."""
    ran = 0
    while ran < most:
        turned = loop.turn_for(UNITS, most - ran)
        ran = loop.turned.callbacks
        await asyncio.sleep(0)
        if not turned:
            continue
        did = turned.did
        if did.what == RAN:
            emits.extend(loop.emits())
        if did.what == ENTERED:
            return ran, None
        if did.what != RAN or did.ending:
            return ran, "over" if did.what == OVER else "failed"
    return ran, "limit"


async def serve(loop: Loop, emits: List[int], jumps: bool) -> str:
    began, seen = time.monotonic(), 0
    jobs: Set[asyncio.Task[Job]] = set()
    while True:
        now = loop.clock(0 if jumps else int((time.monotonic() - began) * 1000))
        ran, ending = await turn(loop, emits, MOST - seen)
        seen += ran
        if ending:
            return ending
        while job := loop.next_job():
            if loop.start(job):
                jobs.add(asyncio.create_task(asyncio.to_thread(job.run)))
        wait = loop.turned.wait
        if wait == FOREVER and not jobs:
            return "waiting"
        if jumps and not jobs:
            loop.clock(now + wait)
            wait = 0
        rest = asyncio.create_task(asyncio.sleep(min(wait, 2**30) / 1000))
        await asyncio.wait({rest, *jobs}, return_when=asyncio.FIRST_COMPLETED)
        rest.cancel()
        for task in [it for it in jobs if it.done()]:
            jobs.remove(task)
            loop.accept(task.result())


def main(file: str, *flags: str) -> int:
    emits: List[int] = []
    with open(file, "rb") as it:
        module = Module(it.read())
    ending = asyncio.run(serve(Loop(module), emits, "--virtual" in flags))
    print(f"loop 0 {ending} emits" + "".join(f" {it}" for it in emits))
    return 4 if ending == "failed" else 0


if __name__ == "__main__":
    if len(sys.argv) < 2:
        print((__doc__ or "").split("\n\n")[1], file=sys.stderr)
        sys.exit(2)
    sys.exit(main(*sys.argv[1:]))
