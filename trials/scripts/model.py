"""A small model of loops, workers and what passes between them, written from docs/LOOP.md, UV.md and COMMANDS.md alone.

It runs a script whose guests are guest.c with a table of calls, and tells the lines of its log, without the fuel used.
A handle's number is the host's choice: the model asks `chosen` for it and says only that it must be a free one.
"""

from __future__ import annotations

from dataclasses import dataclass, field
from typing import Any, Callable, Dict, List, Mapping, Optional, Sequence, Tuple, TypeVar

Call = Mapping[str, Any]  # of a table: its name, and numbers by theirs
Entry = Tuple[Any, ...]  # of a phase: a kind, a number, and of some the start
Item = TypeVar("Item")
EPERM, EAGAIN, EFAULT, EBUSY, EINVAL, ENOSPC, ECANCELED = -1, -11, -14, -16, -22, -28, -125
TOP = 2**64 - 1
MEMORY = 65536
CALLBACKS, VARIANTS, NUMBERS = 6, 3, 32
PHASES = ["begin", "timers", "idle", "poll", "check", "closing"]


def i32(n: int) -> int:
    return (n + 2**31) % 2**32 - 2**31


class Trap(Exception):
    """How a callback ends that doesn't return: `trap 1`, `depth`, `spent`."""


class Fault(Exception):
    """A step that names what isn't there."""


@dataclass
class Handle:
    kind: str
    number: int  # of an async
    active: bool = False
    closing: bool = False
    callback: int = -1
    due: int = 0
    repeat: int = 0
    start: int = 0


@dataclass
class Request:
    operation: int
    content: bytes
    state: str = "open"  # then out, started, answered; or cancelled
    kind: int = 0
    code: int = 0
    reply: bytes = b""


@dataclass
class Job:
    loop: "Loop"
    request: int
    is_started: bool = False


def computed(operation: int, content: bytes) -> Tuple[int, int, bytes]:
    """Kind, code and reply of a work function of guest.c."""
    which = operation % 8
    if which == 0:
        return 0, i32(len(content) + operation), content
    if which in (1, 2, 3):
        return [(1, 1), (2, 0), (3, 0)][which - 1] + (b"",)
    if which == 4:
        return 0, EPERM, b""
    if which == 5:
        return 0, EINVAL, bytes([9, 8])
    return 0, [EINVAL, EFAULT][which - 6], b""


@dataclass
class Loop:
    number: int
    table: List[List[Call]]  # of each list of calls
    chosen: Callable[[], int]  # gives the next new handle's number
    now: int = 0
    clock: int = 0
    phase: int = 0
    rest: List[Entry] = field(default_factory=lambda: [("main", 0)])
    status: str = "running"
    handles: Dict[int, Handle] = field(default_factory=dict)
    closing: List[int] = field(default_factory=list)
    asyncs: List[int] = field(default_factory=list)  # the handle of each
    waiting: List[int] = field(default_factory=lambda: [0] * 16)
    requests: Dict[int, Request] = field(default_factory=dict)
    replies: List[Tuple[int, int, int, bytes]] = field(default_factory=list)
    last_start: int = 0
    last_request: int = 0
    kept: List[int] = field(default_factory=lambda: [0] * NUMBERS)
    times: List[int] = field(default_factory=lambda: [0] * (CALLBACKS + 1))
    emits: List[int] = field(default_factory=list)
    reading: Optional[bytes] = None

    # what a guest calls

    def next_start(self) -> int:
        self.last_start = min(self.last_start + 1, TOP)
        return self.last_start

    def made(self, kind: str, number: int = 0) -> int:
        if len(self.handles) == 64:
            return EAGAIN
        handle = self.chosen()
        assert 0 <= handle < 2**31 and handle not in self.handles, f"{handle} is no free number"
        self.handles[handle] = Handle(kind, number)
        return handle

    def of(self, handle: int, kind: Optional[str] = None) -> Optional[Handle]:
        h = self.handles.get(handle % 2**32)
        return h if h and not h.closing and kind in (None, h.kind) else None

    def start(self, h: Handle, callback: int, due: int = 0, repeat: int = 0) -> None:
        h.active, h.callback, h.due, h.repeat, h.start = True, callback, due, repeat, self.next_start()

    def timer_start(self, handle: int, callback: int, timeout: int, repeat: int) -> int:
        h = self.of(handle, "timer")
        if not h or callback >= CALLBACKS:
            return EINVAL
        self.start(h, callback, min(self.now + timeout, TOP), repeat)
        return 0

    def timer_again(self, handle: int) -> int:
        h = self.of(handle, "timer")
        if not h or h.start == 0:
            return EINVAL
        h.active = False
        if h.repeat:
            self.start(h, h.callback, min(self.now + h.repeat, TOP), h.repeat)
        return 0

    def stop(self, handle: int, kind: str) -> int:
        h = self.of(handle, kind)
        if not h:
            return EINVAL
        h.active = False
        return 0

    def plain_start(self, handle: int, kind: str, callback: int) -> int:
        h = self.of(handle, kind)
        if not h or callback >= CALLBACKS:
            return EINVAL
        if not h.active:
            self.start(h, callback)
        return 0

    def async_init(self, callback: int) -> int:
        if callback >= CALLBACKS:
            return EINVAL
        if len(self.asyncs) == 16:
            return ENOSPC
        handle = self.made("async", len(self.asyncs))
        if handle >= 0:
            self.asyncs.append(handle)
            self.start(self.handles[handle], callback)
        return handle

    def async_send(self, handle: int) -> int:
        h = self.of(handle, "async")
        if not h:
            return EINVAL
        self.waiting[h.number] += 1
        return 0

    def is_active(self, handle: int) -> int:
        h = self.handles.get(handle % 2**32)
        return EINVAL if not h else int(h.active)

    def close(self, handle: int, callback: int) -> int:
        h = self.of(handle)
        if not h or callback >= CALLBACKS:
            return EINVAL
        h.active, h.closing, h.callback = False, True, callback
        self.closing.append(handle % 2**32)
        return 0

    def queue_work(self, operation: int, place: Optional[int], length: int) -> int:
        if length > 65536:
            return EINVAL
        if place is None or place >= MEMORY or length > 256:
            return EFAULT
        if len(self.requests) == 32:
            return EAGAIN
        self.last_request += 1
        content = bytes((place + k) % 256 for k in range(length))
        self.requests[self.last_request] = Request(operation, content)
        return self.last_request

    def cancel(self, number: int) -> int:
        r = self.requests.get(number)
        if not r or r.state == "cancelled":
            return EINVAL
        if r.state in ("started", "answered"):
            return EBUSY
        r.state, r.kind, r.code = "cancelled", 5, ECANCELED
        return 0

    def in_copy(self, is_outside: bool, start: int, count: int) -> int:
        if self.reading is None:
            return EPERM
        if start + count > len(self.reading):
            return EINVAL
        return EFAULT if is_outside and 0xfffffff0 + count > MEMORY else 0

    # the callbacks of guest.c

    def emit(self, value: int) -> int:
        if len(self.emits) == 64:
            return ENOSPC
        self.emits.append(value)
        return 0

    def answer(self, c: Call) -> int:
        a = self.kept[c["a"] % NUMBERS] if c["is_kept"] else c["a"]
        place = c["b"] if not c["d"] else None
        name = c["call"]
        if name == "now":
            return self.now
        if name in ("timer_init", "idle_init", "check_init"):
            return self.made(name[:-5])
        if name == "timer_start":
            return self.timer_start(a, c["callback"], c["c"], c["d"])
        if name in ("timer_stop", "idle_stop", "check_stop"):
            return self.stop(a, name[:-5])
        if name in ("idle_start", "check_start"):
            return self.plain_start(a, name[:-6], c["callback"])
        if name in ("async_init", "close"):
            return self.async_init(c["callback"]) if name == "async_init" else self.close(a, c["callback"])
        if name == "queue_work":
            return self.queue_work(a, place, c["c"])
        if name == "in_len":
            return EPERM if self.reading is None else len(self.reading)
        if name == "in_copy":
            return self.in_copy(c["d"] != 0, c["b"], c["c"])
        if name == "out_set":
            return EPERM
        answer: int = getattr(self, name)(a)
        return answer

    def run_list(self, which: int) -> None:
        for c in self.table[which]:
            if c["call"] in ("trap", "deep", "spin"):
                raise Trap({"trap": "trap 1", "deep": "depth", "spin": "spent"}[c["call"]])
            if c["call"] == "emit_many":
                for n in range(c["a"]):
                    self.kept[c["to"]] = self.emit(n)
                self.emit(self.kept[c["to"]])
                continue
            given = self.answer(c)
            self.kept[c["to"]] = i32(given)
            self.emit(given if given < 2**63 else given - 2**64)

    def callback(self, k: int, handle: int) -> None:
        self.emit(handle)
        times = self.times[k]
        self.run_varied(k, 1 + VARIANTS * k + times)

    def run_varied(self, k: int, which: int) -> None:
        self.run_list(which)
        self.times[k] = min(self.times[k] + 1, VARIANTS - 1)

    def after_work(self, number: int, r: Request) -> None:
        for value in (number, r.kind, r.code, 0, sum(r.reply)):
            self.emit(value)
        self.run_varied(CALLBACKS, 1 + VARIANTS * CALLBACKS + self.times[CALLBACKS])

    # one step

    def is_alive(self) -> bool:
        return any(h.active or h.closing for h in self.handles.values()) or bool(self.requests)

    def active(self, kind: str) -> List[Tuple[int, int]]:
        return sorted((h.start, n) for n, h in self.handles.items() if h.kind == kind and h.active)

    def listed(self) -> List[Entry]:
        phase = PHASES[self.phase]
        if phase == "timers":
            due = sorted((h.due, h.start, n) for n, h in self.handles.items() if h.kind == "timer" and h.active)
            return [("timer", n, start) for at, start, n in due if at <= self.now]
        if phase in ("idle", "check"):
            return [(phase, n, start) for start, n in self.active(phase)]
        if phase == "poll":
            ready: List[Entry] = [("after", n) for n in sorted(self.requests) if self.requests[n].state in ("answered", "cancelled")]
            return ready + [("async", n) for k, n in enumerate(self.asyncs) if self.is_async(n, k)]
        return [("close", n) for n in self.closing]

    def is_async(self, handle: int, number: int) -> bool:
        h = self.handles.get(handle)
        return h is not None and h.kind == "async" and h.active and h.number == number

    def step(self) -> str:
        if self.status != "running":
            return self.status
        if self.rest:
            return self.entry(self.rest.pop(0))
        if PHASES[self.phase] in ("begin", "closing") and not self.is_alive():
            self.status = "over"
            return "over"
        self.phase = self.phase + 1 if self.phase < 5 else 1
        if PHASES[self.phase] == "timers":
            self.now = self.clock
        self.rest = self.listed()
        return f"enter {PHASES[self.phase]} {self.now}"

    def entry(self, entry: Entry) -> str:
        kind, number = entry[:2]
        self.emits, self.reading = [], None
        if kind == "main":
            return self.told(kind, 0, lambda: self.run_list(0))
        if kind == "after":
            r = self.requests.pop(number)
            self.reading = r.reply
            return self.told(kind, number, lambda: self.after_work(number, r))
        h = self.handles[number]
        if kind == "close":
            del self.handles[number]
            self.closing.remove(number)
        elif kind == "async":
            if not h.active or self.waiting[h.number] == 0:
                return f"skip async {number}"
            self.waiting[h.number] = 0
        elif not h.active or h.start != entry[2]:
            return f"skip {kind} {number}"
        elif kind == "timer":
            h.active = False
            if h.repeat:
                self.start(h, h.callback, min(self.now + h.repeat, TOP), h.repeat)
        return self.told(kind, number, lambda: self.callback(h.callback, number))

    def told(self, kind: str, number: int, run: Callable[[], None]) -> str:
        try:
            run()
            ending = "return"
        except Trap as trap:
            ending = str(trap)
            self.status = "failed"
        values = " emit " + " ".join(map(str, self.emits)) if self.emits else ""
        return f"run {kind} {number} {ending}{values}"


@dataclass
class World:
    loops: List[Loop]
    hands: List[Optional[Job]]
    jobs: List[Job] = field(default_factory=list)

    def at(self, items: Sequence[Item], k: int) -> Item:
        if k >= len(items):
            raise Fault
        return items[k]

    def step(self, name: str, *n: int) -> str:
        """The line of one step."""
        if name in ("take", "start", "finish"):
            self.at(self.hands, n[0])
            return f"{name} {n[0]} {getattr(self, name)(n[0])}"
        loop = self.at(self.loops, n[0])
        if name == "loop":
            return f"loop {n[0]} " + loop.step()
        if name == "send":
            self.at(loop.waiting, n[1])
            loop.waiting[n[1]] += 1
            return f"send {n[0]} {n[1]}"
        if loop.status == "failed":
            return f"loop {n[0]} failed"
        if name == "clock":
            loop.clock = max(loop.clock, n[1])
            return f"clock {n[0]} {loop.clock}"
        if name == "cancel":
            return f"cancel {n[0]} {n[1]} answer {loop.cancel(n[1])}"
        return f"{name} {n[0]} {getattr(self, name)(loop)}"

    def post(self, loop: Loop) -> str:
        if len(self.jobs) == 256:
            return "full"
        ready = [n for n in sorted(loop.requests) if loop.requests[n].state == "open"]
        if not ready:
            return "none"
        loop.requests[ready[0]].state = "out"
        self.jobs.append(Job(loop, ready[0]))
        return f"request {ready[0]}"

    def take(self, w: int) -> str:
        if self.hands[w] or not self.jobs:
            return "none"
        self.hands[w] = job = self.jobs.pop(0)
        return f"loop {job.loop.number} request {job.request}"

    def start(self, w: int) -> str:
        job = self.hands[w]
        if not job or job.is_started:
            return "none"
        r = job.loop.requests.get(job.request)
        line = f"loop {job.loop.number} request {job.request} "
        if not r or r.state != "out":
            self.hands[w] = None
            return line + "dropped"
        r.state, job.is_started = "started", True
        return line + "begun"

    def finish(self, w: int) -> str:
        job = self.hands[w]
        if not job or not job.is_started:
            return "none"
        self.hands[w] = None
        r = job.loop.requests[job.request]
        kind, code, reply = computed(r.operation, r.content)
        job.loop.replies.append((job.request, kind, code, reply))
        how = [f"done {code}", f"trap {code}", "depth", "spent"][kind]
        return f"loop {job.loop.number} request {job.request} {how}"

    def collect(self, loop: Loop) -> str:
        if not loop.replies:
            return "none"
        number, kind, code, reply = loop.replies.pop(0)
        r = loop.requests[number]
        r.state, r.kind, r.code, r.reply = "answered", kind, code, reply
        return f"request {number}"
