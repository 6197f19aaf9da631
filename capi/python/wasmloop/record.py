"""Records the calls on a loop, for `python3 -m wasmloop.replay`.

In your own host, use its Loop:

    from wasmloop import record
    loop = record.Loop(module, data, "guest.record", fuel=.., work_fuel=.., depth=..)

As a program, it runs a guest as `wasmloop serve --loops 1` does, in real time and with threads, and records it:

    python3 -m wasmloop.record guest.wasm -o guest.record --seconds 10

Module, limits and calls determine everything else a loop does: callbacks, replies, fuel and failures are not written. capi/record_wrap.c
records the loops of an unmodified host in C.
"""

from __future__ import annotations

import hashlib
import os
import queue
import sys
import threading
import time
from typing import Iterator, List, Optional, TextIO, Tuple, Union

from . import ENTERED, FAILED, FOREVER, OVER, RAN, TIMERS, WORK_MEMORY, Buffer, Did, Job, Loop as Plain, Module, Turned, _tool, lines, replay, wasm
from ._errors import _is_paused


MOST_VALUES = 1_000_000                                 # that a program emits


# Where a record goes: a path, or a file that is open.
Note = Union[str, bytes, "os.PathLike[str]", TextIO]


class Loop(Plain):
    """A Loop that writes its calls to `note`, a path or a text file, up to `most` characters: then the last line is ["full"], and the loop runs
    on unrecorded. A call that raises has no effect, and is not written."""

    def __init__(self, module: Module, data: bytes, note: Note, number: Optional[int] = None, fuel: int = 1_000_000, work_fuel: int = 1_000_000,
                 depth: int = 64, most: int = 256 << 20) -> None:
        super().__init__(module, number, fuel, work_fuel, depth)
        self._number, self._steps, self._left = self.number, 0, most
        self._ran, self._paused = 0, False              # of a turn that is to be written: its callbacks, and whether it has begun the one that is paused
        self._mine = isinstance(note, (str, bytes, os.PathLike))
        self._file = open(note, "w", encoding="ascii") if isinstance(note, (str, bytes, os.PathLike)) else note
        self.note("loop", hashlib.sha256(data).hexdigest(), bytes(data).hex(), fuel, work_fuel, depth)

    def note(self, word: str, *more: Union[int, str]) -> None:
        """Writes a line: a word, and numbers or texts without quotes."""
        self._note_steps()
        rest = "".join([f",{it}" if type(it) is int else f',"{it}"' for it in more])
        self._write(f'["{word}"{rest}]\n')

    def _note_steps(self) -> None:
        if self._steps:
            self._write(f'["step",{self._steps}]\n')
            self._steps = 0

    def _write(self, line: str) -> None:
        if self._left >= 0:
            self._left -= len(line)
            self._file.write(line if self._left >= 0 else '["full"]\n')

    def close(self) -> None:
        super().close()
        if hasattr(self, "_file"):
            self._note_steps()
        if getattr(self, "_mine", False):
            self._file.close()

    def _flushed(self, did: Did) -> None:
        """After a failure, nothing stays in a buffer."""
        if did.what == FAILED or did.what == RAN and did.ending:
            self._note_steps()
            self._file.flush()

    def step(self) -> Did:
        did = super().step()
        self._steps += 1
        self._flushed(did)
        return did

    def step_for(self, units: int) -> Optional[Did]:
        did = super().step_for(units)
        if did and self._paused:
            self._note_turn(self._ran + 1, did)
        elif did:
            self._steps += 1
            self._flushed(did)
        return did

    def turn(self, most: int = 2**32 - 1) -> Turned:
        turned = super().turn(most)
        self._note_turn(most, turned.did)
        return turned

    def turn_for(self, units: int, most: int = 2**32 - 1) -> Optional[Turned]:
        last = self.turned.did
        before = 0 if (last.what, last.phase) == (ENTERED, TIMERS) else self.turned.callbacks
        turned = super().turn_for(units, most)
        if turned:
            self._note_turn(self._ran + most, turned.did)
        else:
            self._ran += self.turned.callbacks - before
            self._note_pause(self.turned.did)
        return turned

    def _note_turn(self, most: int, did: Did) -> None:
        """Writes a line of a turn, which ends at the latest with this callback, counted from the first since the last line."""
        self.note("turn", most)
        self._ran, self._paused = 0, False
        self._flushed(did)

    def _note_pause(self, did: Did) -> None:
        """A turn that is paused in a callback is written when it is over. One that is paused between two steps ends with a callback, or else because
        an allocation failed, which no replay repeats."""
        self._paused = _is_paused(self.handle)
        if not self._paused and did.what == RAN:
            self._note_turn(self._ran, did)
        elif not self._paused:
            self.note("memory")
            self._ran = 0

    def clock(self, ms: int) -> int:
        now = super().clock(ms)
        self.note("clock", ms)
        return now

    def send(self, number: int) -> None:
        super().send(number)
        self.note("send", number)

    def cancel(self, request: int) -> int:
        answer = super().cancel(request)
        self.note("cancel", request, answer)
        return answer

    def request(self, op: int, data: Buffer = b"") -> int:
        answer = super().request(op, data)
        self.note("request", op % 2**32, bytes(data).hex(), answer)
        return answer

    def next_job(self) -> Optional[Job]:
        job = super().next_job()
        if job:
            self.note("next", job.about().request)
        return job

    def start(self, job: Job) -> bool:
        known, about = super().start(job), job.about()
        if about.loop == self._number:                  # (a job of another loop has no effect)
            self.note("start", about.request, int(known))
        return known

    def accept(self, job: Job) -> bool:
        about = job.about()
        known = super().accept(job)
        if about.loop == self._number:
            self.note("accept", about.request, int(known), *(["no memory"] if about.outcome == WORK_MEMORY else []))
        return known


class Workers:
    """Threads that run jobs, and return them by `done`."""

    def __init__(self, count: int) -> None:
        self.todo: queue.Queue[Job] = queue.Queue()
        self.done: queue.Queue[Job] = queue.Queue()
        self.under_way = 0
        for _ in range(count):
            threading.Thread(target=self._work, daemon=True).start()

    def _work(self) -> None:
        while True:
            self.done.put(self.todo.get().run())

    def give(self, job: Job) -> None:
        self.under_way += 1
        self.todo.put(job)

    def back(self, seconds: float) -> Iterator[Job]:
        """The completed jobs. Waits at most so long for the first."""
        try:
            while True:
                yield self.done.get(timeout=seconds) if seconds else self.done.get_nowait()
                self.under_way, seconds = self.under_way - 1, 0
        except queue.Empty:
            return


def serve(loop: Loop, workers: Workers, seconds: float) -> Tuple[str, List[int], Did]:
    """Drives a loop until it is over, fails, waits forever or reaches a limit, of time or of values: "over", "failed", "waiting" or "limit", with
    the values it emitted and its last step."""
    began = time.monotonic()
    emits: List[int] = []
    did = loop.turned.did
    while time.monotonic() - began < seconds:
        loop.clock(int((time.monotonic() - began) * 1000))
        while job := loop.next_job():
            if loop.start(job):
                workers.give(job)
        turned = loop.turn()
        did = turned.did
        if did.what == RAN:
            emits += loop.emits()
            if len(emits) > MOST_VALUES:
                return "limit", emits, did
        if did.what == OVER:
            return "over", emits, did
        if did.what == FAILED or did.what == RAN and did.ending:
            return "failed", emits, did
        if turned.wait == FOREVER and not workers.under_way:
            return "waiting", emits, did
        pause = 0 if did.what != ENTERED or did.phase != TIMERS else min(turned.wait, 1000) / 1000
        for job in workers.back(pause):
            loop.accept(job)
    return "limit", emits, did


def warnings_of(host: Module, module: wasm.Module) -> List[str]:
    """What `wasmloop serve` warns of."""
    nothing = not host.shape().main and wasm.START not in module.places
    return host.warnings + ["the module has no start function and exports no uv_main, so its loops run nothing"] * nothing


def main() -> int:
    parser = _tool.words("record", __doc__)
    parser.add_argument("guest", metavar="GUEST", help="the module")
    parser.add_argument("-o", dest="record", metavar="RECORD", required=True, help="the file to write")
    parser.add_argument("--seconds", metavar="N", type=float, default=10, help="the time limit (10)")
    parser.add_argument("--workers", metavar="N", type=_tool.whole(1), default=2, help="worker threads (2)")
    parser.add_argument("--fuel", metavar="N", type=int, default=1_000_000, help="fuel per callback, in units (1000000)")
    parser.add_argument("--work-fuel", metavar="N", type=int, default=1_000_000, help="fuel per work function, in units (1000000)")
    parser.add_argument("--depth", metavar="N", type=int, default=64, help="the call-depth limit (64)")
    parser.add_argument("--debug", metavar="FILE", help="the module with DWARF, if GUEST was stripped or lowered")
    given = parser.parse_args()
    data = _tool.read(given.guest)
    host, module = _tool.load(data, given.guest)
    for it in warnings_of(host, module):
        print(f"warning: {it}", file=sys.stderr)
    with Loop(host, data, given.record, 0, given.fuel, given.work_fuel, given.depth) as loop:
        ending, emits, did = serve(loop, Workers(given.workers), given.seconds)
        print(" ".join(["loop 0", ending, *(["emits"] if emits else []), *map(str, emits)]))
        if ending != "failed":
            return 0
        source, told = lines.wanted(data, given.debug), replay.failure(did, loop.stop_told(data), given.depth)
        print(source.told(told) if source else told, file=sys.stderr)
        return 4


if __name__ == "__main__":
    _tool.run("record", main)
