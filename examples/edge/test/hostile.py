"""Hostile tenants and clients, for longer."""
import collections
import concurrent.futures
import os
import random
import re
import subprocess
import threading
import time

from clients import noise
from server import ENDLESS, GUESTS, HOG, Server, broken_too, check, put, until


def secrets(s: Server, count: int = 100) -> None:
    """A tenant does not find what another had in memory and replies."""
    with concurrent.futures.ThreadPoolExecutor(4) as pool:
        fills = [pool.submit(s.ask, "/snoop/0", b"SECRET!!") for _ in range(count)]
        looks = [pool.submit(s.ask, "/looks/1", b"") for _ in range(count)]
        got = collections.Counter((it.result()[0], it.result()[2]["Wasmloop-Value"]) for it in looks)
        check(set(got) == {(200, "0")}, "another's bytes", got)
        own = collections.Counter((it.result()[0], it.result()[1] == b"SECRET!!" * 8192 or it.result()[1][:99]) for it in fills)
        check(set(own) == {(200, True)}, "its own bytes", own)


def churn(s: Server, seconds: float = 10) -> None:
    """Under load a module is rewritten in place, replaced, made invalid and removed; so are its limits."""
    one, two = ((GUESTS / f"{name}.wasm").read_bytes() for name in ("hello", "crc32"))
    good, chance, end, got = {(200, b"hello, abc"), (200, b"\x35\x24\x41\xc2")}, random.Random(44), time.monotonic() + seconds, set()

    def load() -> None:
        while time.monotonic() < end:
            got.add(s.ask("/mine", b"abc")[:2])

    threads = [threading.Thread(target=load) for _ in range(4)]
    for it in threads:
        it.start()
    while time.monotonic() < end:
        new = chance.choice((one, two, b"no module", one[:200], b""))
        if new == b"":
            (s.folder / "mine.wasm").unlink(missing_ok=True)
        elif chance.random() < 0.5:
            put(s, "mine.wasm", new)
        else:
            (s.folder / "mine.wasm").write_bytes(new)
        put(s, "mine.conf", chance.choice((b"type text/html\n", b"queue 1\n", b"no limits")))
        time.sleep(0.03)
    for it in threads:
        it.join()
    check(good <= got and {it[0] for it in got - good} <= {404, 429, 500}, "answers of a module that comes and goes", got - good)
    put(s, "mine.wasm", one)
    until("it is back", lambda: s.ask("/mine", b"abc")[:2] == (200, b"hello, abc"))


def killed(s: Server) -> None:
    """Killed while requests run, it starts again on the same folder."""
    links = [s.connect() for _ in range(50)]
    for it in links:
        it.sendall(b"POST /slow HTTP/1.1\r\nHost: x\r\nContent-Length: 0\r\n\r\n")
    until("work that is under way", lambda: s.number("threads_busy") > 0)
    s.process.kill()
    s.process.communicate()
    until("it starts again", s.listens)
    s.wants("after its end", 200, "hello, you", "/hello", b"you")
    for it in links:
        it.close()


def crowd_of_the_worst(s: Server) -> None:
    """Beside 42 hostile clients a good tenant's p99 is at most twice that alone, in at least one try: the machine may be busy."""
    paths = "spin deep huge flood/ask bomb bombs hog trap/0 trap/1 trap/2 snoop/0 crowd/ask crowd/send/0 nobody".split()

    def load(*words: str) -> subprocess.Popen[str]:
        return subprocess.Popen([os.environ["LOAD"], *words], stdout=subprocess.PIPE, stderr=subprocess.DEVNULL, text=True)

    def p99() -> int | None:
        """None if the machine was too busy for all 400 requests to be sent in time."""
        said = load("-r", "100", "-d", "4", str(s.port), "/hello").communicate()[0].strip()
        got = re.search(r"asked (\d+) answered \1 lost 0 strays 0 .* p99 (\d+) .* status 200 \1$", said)
        check(got, "a good tenant's answers", said)
        return int(got[2]) if got and got[1] == "400" else None

    def pair() -> bool:
        alone, worst = p99(), [load("-c", "3", "-r", "0", "-d", "6", str(s.port), f"/{it}") for it in paths]
        time.sleep(1)
        beside = p99()
        for it in worst:
            it.communicate()
        print(f"test: a good tenant's p99: {alone} us alone, {beside} beside 42 hostile clients")
        return alone is not None and beside is not None and beside <= 2 * alone

    until("a good tenant beside the worst", pair, 300)


def hostile() -> None:
    broken_too()
    s = Server("-t", "10", "-x", "127.0.0.1", hello="type text/plain\n", slow=ENDLESS, hog=HOG, crowd="queue 200\n", mine="", looks="")
    put(s, "looks.wasm", (GUESTS / "snoop.wasm").read_bytes())
    noise(s, 3000, time.time())
    secrets(s)
    churn(s)
    killed(s)
    if not s.shadowed() and os.environ.get("LOAD"):
        crowd_of_the_worst(s)
    s.end()
