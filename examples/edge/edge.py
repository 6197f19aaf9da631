"""An HTTP server that runs a module for each tenant, on asyncio and aiohttp (Debian: python3-aiohttp), as edge.c does, but without loops.

usage: WASMLOOP_LIBRARY=libwasmloop.so PYTHONPATH=capi/python python3 edge.py FOLDER [PORT [WORKERS]]

POST /NAME[/OP] runs uv_work(OP) of FOLDER/NAME.wasm on the body; FOLDER/NAME.conf may have lines such as "fuel 2000000". The request that finds
a file changed reads it again; if a module is rejected, or a file can't be read, the old one stays. README.md has the statuses. A job runs in slices
of SLICE units, and deadlines are checked between them. A running job does not yield to others."""
import asyncio
import bisect
import collections
import contextlib
import pathlib
import re
import signal
import sys
import time
import zlib
from concurrent import futures

import wasmloop
from aiohttp import web

STATUS = {"done": 200, "nowork": 404, "trap": 500, "depth": 500, "nomemory": 503, "ends": 503, "spent": 504, "late": 504}
LIMITS, TYPE = {"fuel": 10_000_000, "depth": 64, "queue": 64, "deadline": 1000}, "application/octet-stream"
TRAPS = ("", "unreachable", "division by zero", "a quotient out of range", "an access outside the memory", "an index past the table", "an empty element",
         "a function of another type")
MOST_WAITING, SLICE = 4096, 20_000  # SLICE: units
Words = tuple[str, wasmloop.Module, bytes, int, bytes, dict[str, int], float]  # what run takes
LOOP: asyncio.AbstractEventLoop
POOL: futures.ThreadPoolExecutor
OVER: asyncio.Event
WAKE: asyncio.Event


class Tenant:
    limits: dict[str, int]
    type: str
    module: wasmloop.Module | None
    stamps: dict[str, tuple[int, int, int] | None]
    waiting: collections.deque[tuple[asyncio.Future[tuple[wasmloop.Reply, str]], Words]]
    counted: collections.Counter[str]

    def __init__(self, name: str) -> None:
        self.name, self.module, self.bytes, self.stamps, self.loading = name, None, b"", {}, asyncio.Lock()
        self.limits, self.type, self.said = {}, TYPE, {".conf": "", ".wasm": ""}  # said: why a file is not taken
        self.waiting, self.running, self.share, self.mean = collections.deque(), 0, 0.0, 0.0
        self.counted, self.used, self.cpu = collections.Counter(), 0, 0.0

    def read(self, suffix: str) -> bytes | None:
        """The bytes of its file with this suffix, none if there is no such file; None if it is the one that was read last. What can't be read is read again
        at the next request. To open a FIFO would wait for its writer."""
        path = FOLDER / (self.name + suffix)
        stat = path.stat() if path.exists() else None
        stamp = (stat.st_mtime_ns, stat.st_size, stat.st_ino) if stat else None
        if stamp == self.stamps.get(suffix, 0):
            return None
        if stat and not path.is_file():
            raise OSError(f"{path.name} is not a regular file")
        data = path.read_bytes() if stat else b""
        self.stamps[suffix] = stamp
        return data

    async def take_limits(self, data: bytes) -> None:
        words = data.decode().split()
        given = list(zip(words[::2], words[1::2]))
        self.limits = LIMITS | {"run": max(1, WORKERS - 1)} | {k: int(v) for k, v in given if k != "type"}
        self.type = dict(given).get("type", TYPE)

    async def take_module(self, data: bytes) -> None:
        self.module, self.bytes = await LOOP.run_in_executor(POOL, wasmloop.Module, data), data

    async def fresh(self) -> wasmloop.Module | None:
        """Takes its files if they have changed, the module in a thread. Returns the module, None without one or without limits."""
        async with self.loading:
            for suffix, take in (".conf", self.take_limits), (".wasm", self.take_module):
                try:
                    if (data := self.read(suffix)) is not None:
                        await take(data)
                        self.said[suffix] = ""
                except (OSError, ValueError, wasmloop.Error) as error:
                    self.said[suffix] = str(error)
        return self.module if self.limits else None


tenants: dict[str, Tenant] = {}
active: set[Tenant] = set()
pace = 0.0


def with_line(name: str, code: bytes, where: str) -> str:
    """A backtrace with " [FILE:LINE]" after its first byte, if FOLDER/NAME.lines describes this module: lines.c has its format."""
    with contextlib.suppress(OSError, ValueError):
        head, *rows = (FOLDER / f"{name}.lines").read_text().splitlines()
        starts, places = zip(*((int(byte), place) for byte, place in (row.split(" ", 1) for row in rows)))
        at = re.search(r"at byte (\d+)", where)
        row = bisect.bisect_right(starts, int(at[1])) if at and head == f"module {len(code)} {zlib.adler32(code)}" else 0
        if at and row and places[row - 1] != "-" and places[row - 1].isprintable():
            return f"{where[:at.end()]} [{places[row - 1]}]{where[at.end():]}"
    return where


def explain(name: str, code: bytes, reply: wasmloop.Reply, job: wasmloop.Job) -> str:
    """How a job failed, and where if the library knows, as edge.c writes it."""
    where = None
    with contextlib.suppress(wasmloop.Error):
        where = job.stop_told(code)
    how = f"trap, {TRAPS[reply.number]}" if reply.outcome == "trap" else {"late": "not done by its deadline"}.get(reply.outcome, reply.outcome)
    return f"{how}, after {reply.used} units" + (f", {with_line(name, code, where)}" if where else "")


def run(name: str, module: wasmloop.Module, code: bytes, op: int, data: bytes, limits: dict[str, int], until: float) -> tuple[wasmloop.Reply, str, float]:
    """In a thread: the reply, the text of a failure, and the processor time."""
    began, over, said = time.thread_time(), False, ""
    try:
        with module.job(op, data, limits["fuel"], limits["depth"]) as job:
            while not over and time.monotonic() < until:
                over = job.run_for(SLICE)
            reply = job.reply() if over else wasmloop.Reply("late", 0, b"", job.about().used)
            if reply.outcome != "done":
                said = explain(name, code, reply, job)
    except wasmloop.Error as error:
        return wasmloop.Reply("nomemory" if error.status == wasmloop.MEMORY else "nowork", 0, b"", 0), str(error), 0
    return reply, said, time.thread_time() - began


async def worker() -> None:
    """Keeps a thread busy: the tenant that has used the least time goes first."""
    global pace
    while True:
        while not (ready := [t for t in active if t.waiting and t.running < t.limits["run"]]):
            WAKE.clear()
            await WAKE.wait()
        best = min(ready, key=lambda t: t.share)
        answer, words = best.waiting.popleft()
        if not best.waiting:
            active.discard(best)
        pace, best.running, best.share = best.share, best.running + 1, best.share + best.mean
        reply, said, cpu = await LOOP.run_in_executor(POOL, run, *words)
        best.share, best.mean = best.share + cpu - best.mean, best.mean + (cpu - best.mean) / 8
        best.cpu, best.used, best.running = best.cpu + cpu, best.used + reply.used, best.running - 1
        if not answer.cancelled():
            answer.set_result((reply, said))
        WAKE.set()


def told(tenant: Tenant, status: int, text: str, outcome: str = "refused", heads: dict[str, str] | None = None) -> web.Response:
    tenant.counted[outcome] += 1
    return web.Response(status=status, text=f"{tenant.name}: {text}\n", headers=(heads or {}) | ({"Retry-After": "1"} if status in (429, 503) else {}))


async def work(request: web.Request) -> web.Response:
    name, op = request.match_info["name"], int(request.match_info.get("op") or 0)
    if not (FOLDER / f"{name}.wasm").exists():
        tenants.pop(name, None)
        return web.Response(status=404, text="no such tenant\n")
    tenant = tenants.get(name) or tenants.setdefault(name, Tenant(name))
    data, until = await request.read(), time.monotonic()
    module, waits = await tenant.fresh(), sum(len(t.waiting) for t in active)
    if not module:
        return told(tenant, 500, "; ".join(filter(None, tenant.said.values())))
    reasons = ((op >= 2**32, 400, "an operation is a number below 2^32"),
               (OVER.is_set(), 503, "the server is shutting down"), (waits >= MOST_WAITING, 503, "the server's queue is full"),
               (len(tenant.waiting) >= tenant.limits["queue"], 429, "its queue is full"))
    for holds, status, text in reasons:
        if holds:
            return told(tenant, status, text)
    if tenant not in active:
        tenant.share = max(tenant.share, pace)
        active.add(tenant)
    answer = LOOP.create_future()
    tenant.waiting.append((answer, (name, module, tenant.bytes, op, data, tenant.limits, until + tenant.limits["deadline"] / 1000)))
    WAKE.set()
    reply, said = await answer
    heads = {"Wasmloop-Outcome": reply.outcome, "Wasmloop-Value": str(reply.number), "Wasmloop-Fuel": str(reply.used)}
    if reply.outcome != "done":
        return told(tenant, STATUS[reply.outcome], said, reply.outcome, heads)
    tenant.counted["done"] += 1
    return web.Response(body=reply.data, headers=heads | {"Content-Type": tenant.type})


async def metrics(_: web.Request) -> web.Response:
    text = "".join(f'edge_requests_total{{tenant="{n}",outcome="{k}"}} {v}\n' for n, t in tenants.items() for k, v in t.counted.items())
    for name, number in ("fuel_units_total", "used"), ("cpu_seconds_total", "cpu"):
        text += "".join(f'edge_{name}{{tenant="{n}"}} {getattr(t, number)}\n' for n, t in tenants.items())
    return web.Response(text=text)


def stop() -> None:
    """Running requests are finished, waiting ones are answered with 503."""
    OVER.set()
    for answer in [tenant.waiting.popleft()[0] for tenant in active for _ in list(tenant.waiting)]:
        if not answer.cancelled():
            answer.set_result((wasmloop.Reply("ends", 0, b"", 0), "the server is shutting down"))


async def serve() -> None:
    global LOOP, POOL, OVER, WAKE
    LOOP, POOL, OVER, WAKE = asyncio.get_running_loop(), futures.ThreadPoolExecutor(WORKERS), asyncio.Event(), asyncio.Event()
    app = web.Application(client_max_size=65537)
    app.add_routes([web.get("/-/metrics", metrics), *(web.post(path, work) for path in ("/{name:[a-z0-9_-]+}", r"/{name:[a-z0-9_-]+}/{op:\d+}"))])
    await (runner := web.AppRunner(app)).setup()
    await web.TCPSite(runner, "127.0.0.1", PORT).start()
    for number in (signal.SIGINT, signal.SIGTERM):
        LOOP.add_signal_handler(number, stop)
    threads = [LOOP.create_task(worker()) for _ in range(WORKERS)]  # a name keeps a task alive
    await OVER.wait()
    await runner.cleanup()
    [it.cancel() for it in threads]


words = [*sys.argv[1:], *("tenants", "8080", "4")[len(sys.argv) - 1:]]
FOLDER, PORT, WORKERS = pathlib.Path(words[0]), int(words[1]), int(words[2])
asyncio.run(serve())
