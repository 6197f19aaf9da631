"""A guest's loop as a long-lived task of asyncio: other tasks send to it and request of it, also while it sleeps.

    async with Served(module, fuel=1_000_000) as served:
        served.send(0)                                  # to the guest's async 0
        number = await served.request(7, b"bytes")      # uv_work, then uv_after_work
        async for value in served.emits():              # until the loop is over
            ..

The loop runs in slices between other tasks, its work requests on threads. `emits` raises Failed if a callback has failed, with where. A loop whose
guest has emitted 1,024 values that nobody took waits until they are taken. Leaving the block ends all: requests that wait get Closed.
"""

from __future__ import annotations

import asyncio
import collections
import concurrent.futures
import ctypes as c
import threading
import time
from typing import AsyncIterator, Callable, Deque, Iterable, List, Optional, Set, Tuple

from . import ENTERED, FOREVER, KIND, OK, OVER, RAN, Error, Job, Loop, Module
from ._calls import _text

UNITS, WORK_UNITS = 3_000, 100_000                      # of a slice of a callback, and of a work request
MOST_EMITTED = 1024                                     # so many values wait to be taken; then the loop waits
# So much work of a loop is on its way at a time, on so many threads of its own. A guest that queues and cancels endlessly has no more: what it has
# cancelled runs on.
MOST_WORK, THREADS = 32, 4


class Failed(Error):
    """A callback of the guest did not return."""


class Closed(Error):
    """The loop is over, has failed, or its block was left."""


class Served:
    """A loop of a module. The words are Loop's."""

    def __init__(self, module: Module, **limits: int) -> None:
        self._module, self._limits, self._closed = module, limits, False

    async def __aenter__(self) -> Served:
        self._loop, self._wake, self._some, self._taken = Loop(self._module, **self._limits), asyncio.Event(), asyncio.Event(), asyncio.Event()
        self._later: List[Tuple[Callable[[], object], Optional[asyncio.Future[int]]]] = []
        self._out: Deque[int] = collections.deque()
        self._jobs: Set[Optional[asyncio.Task[None]]] = set()
        self._began, self._stop = time.monotonic(), threading.Event()
        self._pool = concurrent.futures.ThreadPoolExecutor(THREADS)
        self._task = asyncio.create_task(self._serve())
        return self

    async def __aexit__(self, *_: object) -> None:
        self._task.cancel()
        await asyncio.gather(self._task, return_exceptions=True)
        self._pool.shutdown(wait=False)                 # nothing runs there any more
        self._loop.close()

    def send(self, number: int) -> None:
        """Sends to the guest's async of this number, counted from 0."""
        if not 0 <= number < 16:
            raise ValueError(f"the number is {number}; an async's is 0 to 15")
        self._soon(lambda: self._loop.send(number))

    async def request(self, op: int, data: bytes = b"") -> int:
        """Submits a work request. Returns its number, above 0, or an error of queue_work."""
        answer: asyncio.Future[int] = asyncio.get_running_loop().create_future()

        def act() -> None:
            if answer.done():
                return
            try:
                answer.set_result(self._loop.request(op, data))
            except Exception as error:                  # a word that the loop does not take is the caller's error
                answer.set_exception(error)

        self._soon(act, answer)
        return await answer

    async def emits(self) -> AsyncIterator[int]:
        """The values that the guest emits, for one task."""
        while self._out or not self._closed:
            if self._out:
                self._taken.set()
                yield self._out.popleft()
            else:
                self._some.clear()
                await self._some.wait()
        await asyncio.wait([self._task])
        if not self._task.cancelled():
            self._task.result()

    def _soon(self, act: Callable[[], object], answer: Optional[asyncio.Future[int]] = None) -> None:                  # kept until no callback is paused
        if self._closed:
            raise Closed(KIND, "the loop is over")
        self._later.append((act, answer))
        self._wake.set()

    def _compute(self, job: Job) -> None:                            # on a thread
        while not self._stop.is_set() and not job.run_for(WORK_UNITS):
            pass

    async def _run(self, job: Job) -> None:
        await asyncio.get_running_loop().run_in_executor(self._pool, self._compute, job)
        self._jobs.discard(asyncio.current_task())
        if not self._stop.is_set():
            self._later.append((lambda: self._loop.accept(job), None))
            self._wake.set()

    async def _emit(self, values: Iterable[int]) -> None:
        self._out.extend(values)
        self._some.set()
        while len(self._out) > MOST_EMITTED:
            self._taken.clear()
            await self._taken.wait()

    async def _turn(self) -> int:
        """Takes turns until the loop enters its timers phase, is over or has failed."""
        while True:
            turned = self._loop.turn_for(UNITS)
            await asyncio.sleep(0)
            if turned is None:
                continue
            did = turned.did
            if did.what == RAN:
                await self._emit(self._loop.emits())
            if did.what != RAN or did.ending:
                return did.what

    async def _sleep(self, wait: int) -> None:
        try:
            await asyncio.wait_for(self._wake.wait(), None if wait == FOREVER else min(wait, 2**30) / 1000)
        except asyncio.TimeoutError:
            pass

    def _failure(self) -> Failed:
        did = self._loop.turned.did
        how = _text("ended_text", c.c_uint32(did.ending), c.c_uint32(did.trap), c.c_uint64(did.used))
        return Failed(OK, f"a callback did not return: {how}, {self._loop.stop_told()}")

    async def _serve(self) -> None:
        try:
            while True:
                self._wake.clear()
                acts, self._later = self._later, []
                for act, _ in acts:
                    act()
                self._loop.clock(int((time.monotonic() - self._began) * 1000))
                what = await self._turn()
                while len(self._jobs) < MOST_WORK and (job := self._loop.next_job()):
                    self._jobs.add(asyncio.create_task(self._run(job)))
                if what == OVER:
                    return
                if what != ENTERED:
                    raise self._failure()
                if self._loop.turned.wait and not self._later:
                    await self._sleep(self._loop.turned.wait)
        finally:
            self._closed = True
            self._stop.set()
            for _, answer in self._later:
                if answer and not answer.done():
                    answer.set_exception(Closed(KIND, "the loop is over"))
            self._some.set()
            await asyncio.gather(*[it for it in self._jobs if it], return_exceptions=True)
