"""Tests of wasmloop.served: test.py GUESTS EXAMPLES"""

from __future__ import annotations

import asyncio
import pickle
import sys
import time
from typing import Any, List, Set, Tuple

from wasmloop import KIND, OK, Error, Late, Module, Stopped
from wasmloop.served import Closed, Failed, Served

guests, examples = sys.argv[1:]


def read(path: str) -> Module:
    with open(path, "rb") as file:
        return Module(file.read())


echo = read(f"{guests}/echo.wasm")
spin = {"fuel": 10**12, "work_fuel": 10**12}


async def sends_and_requests() -> None:
    async with Served(echo) as served:
        got = served.emits()
        await asyncio.sleep(0.05)                       # it sleeps for ever now
        served.send(0)
        assert await got.__anext__() == 100
        numbers = [await served.request(0, b"x" * k) for k in range(5)]
        assert sorted([await got.__anext__() for _ in numbers]) == [number << 32 | k for k, number in enumerate(numbers)]


async def wrong_words() -> None:
    async with Served(echo) as served:
        for number in (-1, 16):
            try:
                served.send(number)
                raise AssertionError(number)
            except ValueError:
                pass
        assert await served.request(0, b"x" * 65537) == -22
        wrong: List[Tuple[int, Any]] = [(2**40, b""), (0, "text")]
        for op, data in wrong:
            try:
                await served.request(op, data)
                raise AssertionError(op)
            except (TypeError, ValueError, Error):
                pass
        assert await served.request(0, b"") > 0


def is_error(error: Exception, status: int) -> None:
    """That it is an error of the package with this status, also in another process."""
    told = pickle.loads(pickle.dumps(error))
    assert isinstance(told, Error) and (type(told), str(told), told.status) == (type(error), str(error), status), error


async def failing() -> None:
    async with Served(echo) as served:
        served.send(1)
        try:
            async for _ in served.emits():
                raise AssertionError
            raise AssertionError("it did not fail")
        except Failed as error:
            assert "unreachable, after 1 unit, in function 9 (on_fail), " in str(error), error
            is_error(error, OK)
        try:
            await served.request(0)
            raise AssertionError
        except Closed as error:
            is_error(error, KIND)


async def failing_beside_work() -> None:
    async with Served(echo, **spin) as served:
        assert await served.request(1) > 0
        await asyncio.sleep(0.02)                       # it runs on a thread
        served.send(1)
        try:
            async for _ in served.emits():
                raise AssertionError
            raise AssertionError("it did not fail")
        except Failed:
            pass


async def flood() -> None:
    async with Served(echo) as served:
        served.send(3)
        await asyncio.sleep(0.3)
        assert 1024 < len(served._out) <= 1024 + 64, len(served._out)
        got = served.emits()
        for _ in range(5000):
            assert await got.__anext__() == 0


async def waste() -> None:
    async with Served(echo, **spin) as served:
        served.send(4)                                  # it queues endless work, and cancels it, for ever
        await asyncio.sleep(0.3)
        assert len(served._jobs) == 32, len(served._jobs)
        assert await asyncio.get_running_loop().run_in_executor(None, time.monotonic)


async def endless() -> None:
    began, beats = time.monotonic(), 0
    async with Served(echo, **spin) as served:
        assert await served.request(1) > 0
        served.send(2)
        for _ in range(20):
            await asyncio.sleep(0.001)
            beats += 1
        waits = asyncio.create_task(served.request(0, b"late"))
        await asyncio.sleep(0.01)
    assert beats == 20 and time.monotonic() - began < 3
    try:
        await waits
        raise AssertionError
    except Closed:
        pass


async def cancelled() -> None:
    async with Served(echo) as served:
        for _ in range(50):
            task = asyncio.create_task(served.request(0, b"x"))
            await asyncio.sleep(0)
            task.cancel()
        assert await asyncio.wait_for(served.request(0, b"abc"), 5) > 0


async def ended() -> None:
    for name in ("ticker", "digest", "chatter"):
        async with Served(read(f"{examples}/{name}.wasm"), fuel=10**8, work_fuel=10**8) as served:
            assert [value async for value in served.emits()], name


async def hostile() -> None:
    rules = read(f"{guests}/rules.wasm")
    for op, wanted in ((1, "spent"), (2, "trap"), (4, "spent"), (5, "spent"), (6, "depth")):
        assert rules.work(op, b"x").outcome == wanted, op
    for op in (1, 4, 5):
        began = time.monotonic()
        assert rules.work(op, b"x", 10**12, deadline=50).outcome == "late", op
        assert time.monotonic() - began < 1
    with rules.instance() as it:
        assert it.call("running", 3) == 3
        for name in ("spin", "grow", "copies", "deep"):
            try:
                raise AssertionError(it.call(name, 1, fuel=10**12, deadline=50))
            except Stopped as error:
                assert isinstance(error, Late) == (name != "deep"), error
        assert it.call("running", 4) == 7               # the instance and its state live on


async def many() -> None:
    async def one(k: int) -> Set[int]:
        async with Served(echo) as served:
            got = served.emits()
            served.send(0)
            await served.request(0, b"y" * k)
            return {await got.__anext__() % 2**32, await got.__anext__() % 2**32}
    assert await asyncio.gather(*(one(k) for k in range(60))) == [{100, k} for k in range(60)]


passed = failed = 0
for test in (sends_and_requests, wrong_words, failing, failing_beside_work, flood, waste, endless, cancelled, ended, hostile, many):
    try:
        asyncio.run(asyncio.wait_for(test(), 30))
        passed += 1
    except BaseException as error:                      # a failed test is told, and the next is run
        failed += 1
        print(f"FAILED: {test.__name__}: {error!r}")
print(passed, failed)
