"""What the server does: statuses, limits, turns, loops, and modules that change."""
import collections
import concurrent.futures
import http.client
import os
import re
import shutil
import subprocess
import sys
import threading
import time
import zlib
from collections.abc import Callable
from functools import partial

from server import DIVISION, ENDLESS, GUESTS, HERE, HOG, MIB, PATIENT, Server, broken_too, check, found, head, put, until

LONG = f"{ENDLESS}deadline 3600000\n"
Part = Callable[[Server], None]


def statuses(s: Server) -> None:
    s.wants("greeting", 200, "^hello, you$", "/hello", b"you")
    s.wants("no bytes", 200, "^hello, $", "/hello", b"")
    got = s.wants("an operation", 200, "^hello, you$", "/hello/7?x=1", b"you")
    check(got[2]["Wasmloop-Outcome"] == "done" and got[2]["Content-Type"] == "text/plain", "heads", got[2])
    s.wants("no tenant", 404, "no such tenant", "/nobody")
    s.wants("a name with dots", 404, "no such tenant", "/../hello")
    s.wants("no name", 404, "no such tenant", "/")
    s.wants("an operation that is none", 400, "an operation", "/hello/x")
    s.wants("an operation too great", 400, "an operation", "/hello/4294967296")
    s.wants("division", 500, DIVISION, "/trap/0")
    s.wants("memory", 500, "an access outside the memory", "/trap/1")
    s.wants("unreachable", 500, "unreachable", "/trap/2")
    s.wants("depth", 500, "deep", "/deep")
    got = s.wants("fuel", 504, "spin: ", "/spin")
    check(got[2]["Wasmloop-Fuel"] == "1000000" and got[2]["Wasmloop-Outcome"] == "spent", "fuel is exact", got[2])
    s.wants("bomb", 504, "bomb: ", "/bomb")
    for path in "/broken", "/broken", "/broken/ask", "/broken/send/1":
        s.wants("no module", 500, "broken: ", path)
    s.wants("no work", 404, "it exports no uv_work", "/ticker")
    s.wants("no loop", 404, "it has no loop", "/hello/ask/1")
    s.wants("no loop to send to", 404, "it has no loop", "/hello/send/1")
    s.wants("no async", 400, "an async", "/limiter/send/16")
    s.wants("a loop that takes no requests", 404, "it takes no requests", "/brief/ask")
    until("a loop that is over", lambda: s.ask("/brief/ask")[:2] == (500, b"brief: its loop is over\n"))
    s.wants("the longest body", 200, "", "/crc32", bytes(65536))
    s.wants("a longer body", 413, "too long", "/crc32", bytes(65537))
    s.wants("a long path", 414, "too long", "/" + "a" * 300)
    check(s.ask("/crc32", b"abc")[1] == zlib.crc32(b"abc").to_bytes(4, "big"), "crc32")
    check(s.ask("/sha256", b"abc")[1].hex() == "ba7816bf8f01cfea414140de5dae2223b00361a396177a9cb410ff61f20015ad", "sha256")


def methods(s: Server) -> None:
    """HEAD has no body, so no tenant's bytes are taken for the next response; a method that a path does not have is rejected."""
    link = http.client.HTTPConnection("127.0.0.1", s.port, timeout=60)
    for method, path, status, allow in (("HEAD", "/-/metrics", 200, None), ("HEAD", "/hello", 405, "POST"), ("GET", "/hello", 405, "POST"),
                                        ("PUT", "/hello", 405, "POST"), ("POST", "/-/metrics", 405, "GET"), ("TRACE", "/-/metrics", 405, "GET")):
        link.request(method, path)
        got = link.getresponse()
        text = got.read()
        check(got.status == status and (allow is None or allow in got.headers["Allow"]), "a method", method, path, got.status, got.headers)
        check(method != "HEAD" or text == b"", "a HEAD with a body", text)
        link.request("POST", "/hello", b"you")
        got = link.getresponse()
        check(got.read() == b"hello, you", "behind it", method, path, got.status)
    link.close()


def lines(s: Server) -> None:
    """A failure names FILE:LINE if NAME.lines beside NAME.wasm describes this module and is well formed."""
    module = (s.folder / "trap.wasm").read_bytes()
    its = f"module {len(module)} {zlib.adler32(module)}\n"
    byte = int(found(r"at byte (\d+)", s.ask("/trap/0")[1].decode()))
    rows = f"{byte - 9} a.c:1\n{byte} b/c.c:23\n{byte + 1} d.c:4\n"
    for text, place in ((its + rows, b"b/c.c:23"), (f"{its}{byte - 9} a.c:1\n", b"a.c:1"), (f"{its}{byte} -\n", None), (f"{its}{byte + 1} d.c:4\n", None),
                        (f"module {len(module)} 1\n{rows}", None), (its + "no row\n" + rows, None), (f"{its}{byte} a\x01b:1\n", None),
                        (rows, None), ("", None)):
        (s.folder / "trap.lines").write_text(text)
        got = s.ask("/trap/0")[1]
        named = re.search(rb" at byte \d+( \[(.*?)\])?\n$", got)
        check(named and named[2] == place, "a line", text, place, got)
    if (GUESTS / "trap.lines").exists():
        shutil.copy(GUESTS / "trap.lines", s.folder)
        s.wants("the line that lines.py has found", 500, r" at byte \d+ \[\S*trap\.c:8\]\n$", "/trap/0")
    (s.folder / "trap.lines").unlink()


def queues(s: Server) -> None:
    """Beyond a tenant's queue: 429, and no other tenant is rejected."""
    with concurrent.futures.ThreadPoolExecutor(12) as pool:
        spins = [pool.submit(s.ask, "/slow") for _ in range(10)]
        until("one that is refused", lambda: s.number("requests_total", "slow", outcome="refused"))
        s.wants("beside one that is refused", 200, "hello, you", "/hello", b"you")
        got = {it.result()[0] for it in spins}
    check(got == {429, 504}, "refusals", got)


def deadlines(s: Server) -> None:
    """A request that waits too long is answered with 504, and so is an ask that the loop doesn't answer."""
    with concurrent.futures.ThreadPoolExecutor(4) as pool:
        late = [pool.submit(s.ask, "/late") for _ in range(3)]
        texts = [it.result() for it in late]
    check(all(it[0] == 504 for it in texts) and any(b"deadline" in it[1] for it in texts), "a deadline", [it[:2] for it in texts])
    s.wants("an ask that nobody answers", 504, "deadline", "/mute/ask/1")


def hogs(s: Server) -> None:
    """A guest whose units take long is ended within 1.5 times its deadline."""
    def took() -> float:
        began = time.monotonic()
        s.wants("a hog", 504, "not done by its deadline", "/hog", bytes(65536))
        return time.monotonic() - began

    until("a hog within 1.5 times its deadline", lambda: took() < 0.3)


def slices(s: Server) -> None:
    """Endless guests have all threads: another tenant is served between two of their slices. Once their clients have disconnected, the threads are free."""
    def neighbour() -> float:
        """The median duration of 40 requests."""
        times = []
        for _ in range(40):
            began = time.perf_counter()
            s.wants("a neighbour", 200, "^hello, you$", "/hello", b"you")
            times.append(time.perf_counter() - began)
        return sorted(times)[20]

    alone = neighbour()
    links = [s.connect() for _ in range(6)]
    for n, it in enumerate(links):
        it.sendall(b"POST /long%d HTTP/1.1\r\nHost: x\r\nContent-Length: 0\r\n\r\n" % (n % 3))
    until("all threads are taken", lambda: s.number("threads_busy") == 3)

    def dead() -> float:
        got = s.ask("/dead")
        if b"not begun" in got[1]:
            return float("inf")
        check(got[0] == 504 and b"not done by its deadline" in got[1], "a deadline that is past while it runs", got)
        check(got[2]["Wasmloop-Outcome"] == "late", "it is late", got[2])
        form = rf"request={got[2]['Wasmloop-Request']} .* us=(\d+)"
        until("its line in the log", lambda: re.search(form, (s.folder / "access").read_text()))
        us = int(found(form, (s.folder / "access").read_text()))
        check(us >= 200000, "what had 200 ms ends before", us)
        return us

    until("a neighbour's turn comes late", lambda: neighbour() < max(0.05, 4 * alone))  # a busy machine is late by itself
    until("what has 200 ms ends late", lambda: dead() < 2000000)
    for it in links:
        it.close()
    until("threads of those who went", lambda: s.number("threads_busy") == 0)


def rests(s: Server) -> None:
    """A tenant is paused for a millisecond after each failure, and for each 65,536 bytes of replies."""
    for path, status in ("/trap/2", 500), ("/huge", 200):
        began = time.perf_counter()
        with concurrent.futures.ThreadPoolExecutor(4) as pool:
            got = {it[0] for it in pool.map(lambda _: s.ask(path), range(60))}
        took = time.perf_counter() - began
        check(got == {status} and took > 0.05, "sixty answers and their rests", path, got, took)


def loops(s: Server) -> None:
    got = [s.ask("/limiter/ask", b"10.0.0.7")[1] for _ in range(10)]
    check(got == [b"1\n"] * 10, "ten tokens", got)
    s.wants("another key", 200, "^1\n$", "/limiter/ask", b"10.0.0.8" * 8000)
    with concurrent.futures.ThreadPoolExecutor(16) as pool:
        statuses = {it[0] for it in pool.map(lambda n: s.ask("/limiter/ask", b"%d" % n), range(64))}
    check(statuses <= {200, 429} and 200 in statuses, "asks at once", statuses)
    with concurrent.futures.ThreadPoolExecutor(64) as pool:
        answers = collections.Counter(pool.map(lambda n: s.ask("/crowd/ask", b"%d" % n)[:2], range(400)))
        check(set(answers) == {(200, b"1\n")}, "four hundred keys at once, more than a loop may have outstanding", answers)
        until("no token", lambda: b"0\n" in {it[1] for it in pool.map(lambda _: s.ask("/crowd/ask", b"10.0.0.9"), range(64))})
    s.wants("a send", 202, "sent", "/crowd/send/0")
    until("the send in its log", lambda: b"run async" in s.ask("/-/log/crowd", None, "GET")[1])
    until("tokens of the send", lambda: all(s.ask("/crowd/ask", b"10.0.0.9")[1] == b"1\n" for _ in range(5)))
    s.ask("/limiter/ask", b"10.0.0.7")
    (s.folder / "log").write_bytes(s.wants("a loop's log", 200, "run after", "/-/log/limiter", None, method="GET")[1])
    picture = HERE.parents[1] / "picture.py"
    check(subprocess.run([sys.executable, picture, s.folder / "log", s.folder / "svg"], check=False).returncode == 0, "picture.py draws the log")
    flood = s.ask("/flood/ask")
    check(flood[0] in (500, 504), "a loop of the worst sort", flood[:2])
    s.wants("beside a flood", 200, "hello, you", "/hello", b"you")
    until("its failure", lambda: re.search(rb"flood\t[a-z]+\t1\t\tspent, after 200000 units, in function", s.ask("/-/tenants", None, "GET")[1]))


def changes(s: Server) -> None:
    """A module that changes under load: no request is lost, the new one serves, and the old one goes on if the new one is rejected."""
    hello, crc = (GUESTS / "hello.wasm").read_bytes(), (GUESTS / "crc32.wasm").read_bytes()
    put(s, "mine.wasm", hello)
    stop, got = threading.Event(), []

    def load() -> None:
        while not stop.is_set():
            got.append(s.ask("/mine", b"abc")[:2])

    threads = [threading.Thread(target=load) for _ in range(3)]
    for it in threads:
        it.start()
    for n in range(10):
        put(s, "mine.wasm", (crc, hello)[n % 2])
        time.sleep(0.1)
    stop.set()
    for it in threads:
        it.join()
    check(got and set(got) <= {(200, b"hello, abc"), (200, b"\x35\x24\x41\xc2")}, "answers under changes", set(got))
    put(s, "mine.wasm", crc)
    until("a new module", lambda: s.ask("/mine", b"abc")[1] == b"\x35\x24\x41\xc2")
    put(s, "mine.wasm", b"no module")
    until("its state", lambda: re.search(rb"mine\told\t0\t[^\t]+\t", s.ask("/-/tenants", None, "GET")[1]))
    s.wants("a bad module", 200, re.escape(b"\x35\x24\x41\xc2"), "/mine", b"abc")
    put(s, "mine.conf", b"type text/html")
    until("a new limit", lambda: s.ask("/mine", b"abc")[2]["Content-Type"] == "text/html")
    before = s.number("tenants")
    (s.folder / "mine.wasm").unlink()
    until("a tenant that is gone", lambda: s.ask("/mine")[0] == 404)
    until("and no more counted", lambda: s.number("tenants") == before - 1)
    put(s, "mine.wasm", hello)
    s.wants("and back", 200, "hello, abc", "/mine", b"abc")
    os.mkfifo(s.folder / "fifo.wasm")
    os.mkfifo(s.folder / "crc32.lines")
    os.mkfifo(s.folder / "unset.conf")
    put(s, "unset.wasm", hello)
    check(s.ask("/fifo")[0] >= 400, "a FIFO as a module")
    s.wants("a FIFO as limits", 200, "hello, abc", "/unset", b"abc")
    s.wants("beside a FIFO", 200, "hello, abc", "/mine", b"abc")


def replaced(s: Server) -> None:
    """A failure has its place also where the module's file is another one by now, which is rejected; the source lines of that one are not its own."""
    put(s, "old.wasm", (GUESTS / "trap.wasm").read_bytes())
    s.wants("a failure", 500, DIVISION, "/old/0")
    other = b"no module"
    (s.folder / "old.lines").write_text(f"module {len(other)} {zlib.adler32(other)}\n0 other.c:1\n")
    put(s, "old.wasm", other)
    until("its file is rejected", lambda: b"old\told\t" in s.ask("/-/tenants", None, "GET")[1])
    s.wants("a failure of a module whose file is another one", 500, rf"{DIVISION} \d+\n$", "/old/0")


def has_asked(s: Server, name: str) -> bool:
    return s.number("received_bytes_total", name) == 8 and s.number("loop_turns_total", name) > 0


def has_left(s: Server, name: str) -> bool:
    return s.number("requests_total", name, outcome="gone") == 8


def loops_change(s: Server) -> None:
    """Asks of a loop whose module changes go to the new one; if its file is removed, they are answered; those of disconnected clients are dropped."""
    for name, text in ("moves", b"it takes no requests"), ("leaves", b"no such tenant"), ("stays", None):
        put(s, f"{name}.wasm", (GUESTS / "limiter.wasm").read_bytes())
        links = [s.connect() for _ in range(8)]
        for it in links:
            it.sendall(b"POST /%s/ask/1 HTTP/1.1\r\nHost: x\r\nContent-Length: 1\r\n\r\nx" % name.encode())
        until("those who ask", partial(has_asked, s, name))
        if name == "moves":
            put(s, f"{name}.wasm", (GUESTS / "ticker.wasm").read_bytes())
        elif name == "leaves":
            (s.folder / f"{name}.wasm").unlink()
        else:
            for it in links:
                it.close()
            until("those who went", partial(has_left, s, name))
            continue
        got = [it.recv(4096) for it in links]
        check(all(head(it) == 404 and text and text in it for it in got), "those who asked a loop that changes", name, got)
        for it in links:
            it.close()


def many(s: Server, count: int = 200) -> None:
    for n in range(count):
        (s.folder / f"t{n}.conf").write_text(PATIENT)
        if os.stat(GUESTS).st_dev == os.stat(s.folder).st_dev:
            os.link(GUESTS / "crc32.wasm", s.folder / f"t{n}.wasm")
        else:
            shutil.copy(GUESTS / "crc32.wasm", s.folder / f"t{n}.wasm")
    got = {s.ask(f"/t{n}", b"abc")[:2] for n in range(count)}
    check(got == {(200, b"\x35\x24\x41\xc2")}, "many tenants", got)


def numbers(s: Server) -> None:
    values = s.metrics()
    check(values.get(("edge_requests_total", 'tenant="spin",outcome="spent"'), 0) >= 1, "outcomes are counted", values)
    check(values["process_resident_memory_bytes", None] > MIB and values["edge_responses_total", 'class="2xx"'] > 0, "the process", values)
    for (name, labels), value in values.items():
        if name == "edge_duration_seconds_count":
            check(value == values["edge_duration_seconds_bucket", f'{labels},le="+Inf"'] >= values["edge_duration_seconds_bucket", f'{labels},le="1.048576"'],
                  "a histogram", labels, value)
        if name == "edge_latency_seconds":
            tenant = found('^(tenant="[^"]*")', labels or "")
            check(value <= values["edge_latency_worst_seconds", tenant] + 1e-6, "a quantile above the worst", labels, value)
    s.wants("the page", 200, "<title>edge", "/-/", None, method="GET")
    s.wants("no page", 404, "no such page", "/-/nothing", None, method="GET")
    (s.folder / "dashboard.html").unlink()
    os.mkfifo(s.folder / "dashboard.html")
    s.wants("a FIFO as the page", 404, "no such page", "/-/", None, method="GET")
    s.wants("its last failure", 200, "trap\tready\t0\t\t.*unreachable", "/-/tenants", None, method="GET")


def functions() -> None:
    broken_too()
    s = Server("-t", "30", hog=HOG, spin="fuel 1000000\n", slow=f"{ENDLESS}queue 2\nrun 1\ndeadline 2000\n", flood="fuel 1000000\ncallback 200000\n",
               late=f"{ENDLESS}run 1\ndeadline 50\n", hello="type text/plain\n", mute="deadline 300\n", limiter="queue 4\n", crowd="queue 200\n",
               deep="depth 32\n", dead=f"{ENDLESS}deadline 200\n", long0=LONG, long1=LONG, long2=LONG, mine="", moves="", leaves="", stays="",
               old="")
    parts: list[Part] = [statuses, methods, lines, queues, deadlines, hogs, slices, rests, loops, changes, replaced, loops_change, many, numbers]
    for part in parts:
        began = time.time()
        part(s)
        if time.time() - began > 10:
            print(f"test: {getattr(part, '__name__', part)} took {time.time() - began:.0f} s")
    s.end()
    told = "edge: unset.conf: Invalid argument: the usual limits until it can be read\n"
    check(s.said.count(told) == 1, "limits that can't be read are told once", s.said)
