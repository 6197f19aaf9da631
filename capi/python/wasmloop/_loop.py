"""Event loops."""

from __future__ import annotations

import ctypes as c
import itertools
import warnings
from typing import List, Optional

from ._calls import _NO_FUNCTION, _call, _data, _depth, _fuel, _held, _whole
from ._errors import _failed
from ._abi import NONE, OK, STRANGER, Buffer, Did, Standing, Turned, _lib, _Limits
from ._module import Module, _level_outside
from ._objects import Job, _Inspected

_numbers = itertools.count(2**31)                      # apart from those that a host gives


class Loop(_Inspected):
    """An event loop of a module. One thread at a time. `number` is copied into its jobs, by which `start` and `accept` know them: by default each loop
    of the process has another one."""

    _kind = "loop"

    def __init__(self, module: Module, number: Optional[int] = None, fuel: int = 1_000_000, work_fuel: int = 1_000_000, depth: int = 64) -> None:
        super().__init__()
        self.number = next(_numbers) % 2**32 if number is None else number
        bounds = _fuel("fuel", fuel), _fuel("work_fuel", work_fuel), _whole("number", self.number, 0, 2**32 - 1), _depth(depth)
        _call("loop", _held(Module, module), _Limits(*bounds), self.handle)
        self.turned, self._source = Turned(), module._source

    def _about(self) -> str:
        standing = self.standing()
        ended = "failed" if standing.failed else "alive" if standing.alive else "nothing to do"
        return f"{ended}, {standing.outstanding} requests outstanding"

    def step(self) -> Did:
        """Takes one step: runs or skips a callback, enters a phase, or finds that the loop is over or has failed."""
        did = Did()
        _call("step", self.handle, did)
        return did

    def step_for(self, units: int) -> Optional[Did]:
        """Takes a slice of a step, whose callback uses at most `units` units of fuel. What `step` returns if the step is over; None if its callback
        is paused: until it is over, the loop can only be continued and closed."""
        over, did = c.c_uint32(), Did()
        _call("step_for", self.handle, c.c_uint64(_whole("units", units, 1, 2**64 - 1)), c.byref(over), did)
        return did if over.value else None

    def turn(self, most: int = 2**32 - 1) -> Turned:
        """Takes steps until the loop enters its timers phase, a callback emits values or does not return, `most` callbacks have run, or the loop is
        over. Of the result, `did` is the last step and `wait` the poll timeout in milliseconds."""
        _call("turn", self.handle, c.c_uint32(_whole("most", most, 1, 2**32 - 1)), self.turned)
        return self.turned

    def turn_for(self, units: int, most: int = 2**32 - 1) -> Optional[Turned]:
        """Takes steps as `turn` does, until their callbacks have used `units` units of fuel in this call. What `turn` returns if the turn is over;
        else None: call it again, without sleeping. Meanwhile, `turned` has the last step that is over."""
        over, words = c.c_uint32(), (c.c_uint32(_whole("most", most, 1, 2**32 - 1)), c.c_uint64(_whole("units", units, 1, 2**64 - 1)))
        _call("turn_for", self.handle, *words, c.byref(over), self.turned)
        return self.turned if over.value else None

    def emits(self) -> List[int]:
        """The values that the last callback emitted."""
        room, count = (c.c_int64 * 64)(), c.c_uint32()
        _call("emits", self.handle, room, c.c_size_t(64), c.byref(count))
        return room[: count.value]

    def clock(self, ms: int) -> int:
        """Advances the clock to `ms` milliseconds, and returns the new time. A smaller `ms` has no effect."""
        now = c.c_uint64()
        _call("clock", self.handle, c.c_uint64(_whole("ms", ms, 0, 2**64 - 1)), c.byref(now))
        return now.value

    def hint(self) -> int:
        """The poll timeout in milliseconds, or FOREVER. Call it only after a step that entered the timers phase."""
        ms = c.c_uint64()
        _call("hint", self.handle, c.byref(ms))
        return ms.value

    def standing(self) -> Standing:
        """The status of the loop."""
        standing = Standing()
        _call("standing_of", self.handle, standing)
        return standing

    def send(self, number: int) -> None:
        """Sends to the guest's async `number`, counted from 0 in the order of creation."""
        _call("async_send", self.handle, c.c_uint32(_whole("number", number, 0, 15)))

    def cancel(self, request: int) -> int:
        """Cancels a request. Returns what the guest's own cancel returns: 0, -22 or -16; -1 if the loop has failed."""
        answer = c.c_int32()
        _call("cancel", self.handle, c.c_uint32(_whole("request", request, 0, 2**32 - 1)), c.byref(answer))
        return answer.value

    def request(self, op: int, data: Buffer = b"") -> int:
        """Submits a work request from the host, processed like the guest's own. Returns its number, above 0, or an error of queue_work, such as -11
        if 32 are outstanding; -1 if the loop is over or has failed."""
        answer, data = c.c_int32(), _data(data)
        op = _whole("op", op, -(2**31), 2**32 - 1) % 2**32
        _call("request", self.handle, c.c_uint32(op), data, c.c_size_t(len(data)), c.byref(answer))
        if answer.value == _NO_FUNCTION:
            warnings.warn("a request returned -38: the module lacks uv_work or uv_after_work", RuntimeWarning, _level_outside())
        return answer.value

    def next_job(self) -> Optional[Job]:
        """A job for the lowest request not returned yet, or None."""
        job = Job()
        status = _lib.wasmloop_next_job(c.byref(self.handle), c.byref(job.handle))
        if status == NONE:
            return None
        if status != OK:
            raise _failed(status, "next_job", self.handle)
        job._source = self._source
        return job

    def _known(self, status: int, job: Job) -> bool:
        if status not in (OK, STRANGER):
            raise _failed(status, "accept", self.handle, job.handle)
        return status == OK

    def start(self, job: Job) -> bool:
        """Reports that a job is about to run. False if its request was cancelled or started before, or is another loop's."""
        return self._known(_lib.wasmloop_job_start(c.byref(self.handle), c.byref(_held(Job, job))), job)

    def accept(self, job: Job) -> bool:
        """Completes the request of a job that has run. False if the reply is stale: the request was cancelled, or is another loop's."""
        known = self._known(_lib.wasmloop_accept(c.byref(self.handle), c.byref(_held(Job, job))), job)
        if known:
            job.handle.gone = "the job was accepted"
        return known
