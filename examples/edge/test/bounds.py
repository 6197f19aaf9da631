"""What runs out: places to wait, bytes, memory, descriptors, the disk of the log, and what is wanting at the start."""
import collections
import concurrent.futures
import contextlib
import http.client
import os
import pathlib
import re
import resource
import shutil
import signal
import socket
import subprocess
import tempfile
import time
from functools import partial

from server import EDGE, ENDLESS, GUESTS, HERE, MIB, Server, broken_too, check, check_log, head, may_open, put, read_head, readable, until


def crowds(s: Server) -> None:
    """More waiting requests than the limit: 503, and none is lost."""
    if not may_open(4200, "crowds"):
        return
    post = b"POST /%s HTTP/1.1\r\nHost: x\r\nContent-Length: 0\r\n\r\n"
    links = [s.connect() for _ in range(4200)]
    for n, it in enumerate(links):
        it.sendall(post % b"slow")
        if n == 0:
            until("its module", lambda: s.number("loads_total", "slow") == 1)
            until("one that runs", lambda: s.number("tenant_tasks", "slow", are="running") == 1)
    until("4,096 that wait", lambda: s.number("tasks_waiting") >= 4096)
    s.wants("one more", 503, "the server.s queue is full", "/hello")
    heads = [read_head(it) for it in links[4150:]]
    check(set(heads) == {503}, "those who came after", heads)
    for it in links:
        it.close()
    until("nobody waits", lambda: s.number("tasks_waiting") == 0)
    links = [s.connect("127.0.0.2") for _ in range(530)]
    for it in links[:512]:
        it.sendall(post % b"slow")
    until("an eighth of them, of which one runs", lambda: s.number("tasks_waiting") == 511)
    for it in links[512:]:
        it.sendall(post % b"slow")
    got = {read_head(it) for it in links[512:]}
    check(got == {503}, "more requests of an address than an eighth", got)
    s.wants("beside an address whose requests wait", 200, "hello, ", "/hello")
    for it in links:
        it.close()
    until("nobody waits again", lambda: s.number("tasks_waiting") == 0)


def shares(s: Server) -> None:
    """A promised body takes no memory; a tenant may hold an eighth of all bodies, an address a quarter of what is free of that, so that others still can;
    all together hold no more than the limit."""
    post = b"POST /%s HTTP/1.1\r\nHost: x\r\nContent-Length: 65536\r\n\r\n"

    def some(count: int, name: bytes, by: str = "127.0.0.1", sent: int = 65535) -> list[socket.socket]:
        links = [s.connect(by) for _ in range(count)]
        for it in links:
            it.sendall(post % name + bytes(sent))
        return links

    def has(count: int) -> bool:
        """Whether so many bytes are held: a body that comes in pieces may have room for its last byte or not."""
        return count - 2048 < s.number("held_bytes") <= count

    def body(name: bytes, by: str = "127.0.0.1") -> int | bytes:
        return head(s.raw(b"POST /%s HTTP/1.0\r\nContent-Length: 65536\r\n\r\n" % name + bytes(65536), by))

    promises = some(1030, b"nobody", sent=0) + some(200, b"hello", sent=0)
    got = collections.Counter(s.ask("/hello")[0] for _ in range(600))
    check(got == {200: 600} and body(b"hello") == 200 and s.number("held_bytes") == 0, "beside promises", got)
    links, free, n = some(128, b"crc32"), 128, 1
    until("a tenant's eighth", lambda: has(8 * MIB))
    check((body(b"crc32"), body(b"hello")) == (503, 200), "beside a tenant that has its eighth")
    while free >= 10:
        n, share, free = n + 1, free // 5, free - free // 5
        links += some(share, b"hello", f"127.0.0.{n}")
        until(f"the share of address {n}", partial(has, 16 * MIB - free * 65536))
        check(body(b"hello", f"127.0.0.{n}") == 503, f"more of address {n} than it may have")
    check(n > 12 and body(b"hello", "127.0.0.99") == 200, "beside addresses that all have their share", n)
    links += some(free, b"hello")
    for name in b"spin", b"trap", b"deep", b"huge", b"bomb", b"bombs":
        links += some(128, name)
    until("all of it", lambda: has(64 * MIB))
    check(body(b"sha256") == 503, "beside all that may be held")
    s.wants("one without a body", 200, "hello, ", "/hello", b"")
    for it in promises + links:
        it.close()
    until("nothing is held", lambda: s.number("held_bytes") == 0)


def unread() -> None:
    """A log that nobody reads stops nothing: lost lines are counted, and the others are whole."""
    reads, writes = os.pipe()
    s = Server(log=writes)
    os.close(writes)
    get = b"GET /-/nothing HTTP/1.1\r\nHost: x\r\n\r\n"
    got = s.raw(get * 10000 + b"no request\r\n\r\n")
    check(got.count(b"HTTP/1.1 404") == 10000, "answers beside a log that nobody reads", got.count(b"HTTP/1.1 404"))
    check(s.number("log_lines_lost_total") > 1000, "lines that are lost", s.number("log_lines_lost_total"))
    with open(reads) as log, concurrent.futures.ThreadPoolExecutor(1) as pool:
        text = pool.submit(log.read)
        until("lines that are lost no more", lambda: s.number("log_lines_lost_total") == s.number("log_lines_lost_total"))
        # (as it ends, the server writes what the pipe has room for)
        until("a log that is read", lambda: not readable(reads))
        s.end()
        check_log(text.result())


def short(s: Server) -> None:
    """If allocations fail, some requests are answered with 503, none is lost, and the server goes on."""
    s.wants("its threads are there", 200, "hello, you", "/hello", b"you")
    if s.shadowed():
        return
    taken = s.size("VmSize") * 1024
    resource.prlimit(s.process.pid, resource.RLIMIT_AS, (taken + (1 << 20), resource.RLIM_INFINITY))
    with concurrent.futures.ThreadPoolExecutor(12) as pool:
        got = [it[0] for it in pool.map(lambda _: s.ask("/bombs"), range(60))]
    check(503 in got and set(got) <= {200, 503}, "want of memory", got)
    resource.prlimit(s.process.pid, resource.RLIMIT_AS, (resource.RLIM_INFINITY, resource.RLIM_INFINITY))
    s.wants("memory again", 200, "", "/bombs")


def later_loop() -> None:
    """A loop for which there was no memory is made later."""
    with tempfile.TemporaryDirectory() as room:
        refuses = f"{room}/refuse_loop.so"
        subprocess.run(["cc", "-shared", "-fPIC", "-o", refuses, HERE / "refuse_loop.c"], check=True)
        s = Server(within=("env", f"LD_PRELOAD={refuses}"))
        s.wants("before a loop", 200, "hello, you", "/hello", b"you")
        if not s.shadowed():  # (a sanitizer allocates by itself)
            s.wants("no memory for a loop", 503, "no memory", "/limiter/ask", b"10.0.0.7")
            until("a loop that is made later", lambda: s.ask("/limiter/ask", b"10.0.0.7")[:2] == (200, b"1\n"))
        s.end()


def descriptors() -> None:
    """Without a free descriptor, the old module and limits serve; those of changed files are read once there is one."""
    s = Server(hello="fuel 5\n", mine="", sha256="")
    hello, open_files = (GUESTS / "hello.wasm").read_bytes(), f"/proc/{s.process.pid}/fd"
    put(s, "mine.wasm", (GUESTS / "crc32.wasm").read_bytes())
    with contextlib.closing(http.client.HTTPConnection("127.0.0.1", s.port, timeout=120)) as link:

        def ask(name: str) -> tuple[int, bytes]:
            link.request("POST", f"/{name}", b"abc")
            answer = link.getresponse()
            return answer.status, answer.read()

        before = [ask(it) for it in ("hello", "mine")]
        check(before[0][0] == 504 and before[1] == (200, b"\x35\x24\x41\xc2"), "before", before)
        most = len(os.listdir(open_files)) + 8
        resource.prlimit(s.process.pid, resource.RLIMIT_NOFILE, (most, resource.getrlimit(resource.RLIMIT_NOFILE)[1]))
        links = [s.connect() for _ in range(40)]
        until("no descriptor is free", lambda: len(os.listdir(open_files)) >= most)
        put(s, "hello.conf", b"fuel 5\n")
        put(s, "mine.wasm", hello)
        time.sleep(0.5)
        got = [ask(it) for it in ("hello", "mine")]
        check(got[0][0] == 504 and got[1] == before[1], "without descriptors", got)
        check(ask("sha256")[0] == 503, "a module that cannot be opened")
        for it in links:
            it.close()
        until("a module that was not read", lambda: s.ask("/mine", b"abc")[:2] == (200, b"hello, abc"))
        until("a module that was not opened", lambda: s.ask("/sha256", b"abc")[0] == 200)
        s.wants("limits that were not read", 504, "", "/hello")
    s.end()


def few_descriptors() -> None:
    """What is kept for modules no client takes: beside as many clients as may be, a module that was not read before is read."""
    s = Server(within=("prlimit", "--nofile=60"))
    with contextlib.closing(http.client.HTTPConnection("127.0.0.1", s.port, timeout=120)) as link:
        link.request("POST", "/hello", b"you")
        check(link.getresponse().read() == b"hello, you", "one that stands")
        links = [s.connect(f"127.0.0.{n}") for n in range(2, 102)]
        until("clients that are refused", lambda: any(head(it.recv(100, socket.MSG_DONTWAIT)) == 503 for it in links if readable(it)))
        link.request("POST", "/crc32", b"abc")
        got = link.getresponse().read()
        check(got == b"\x35\x24\x41\xc2", "a module beside as many clients as may be", got)
        for it in links:
            it.close()
    s.end()


def full_disk() -> None:
    """A log that may not grow stops nothing: lost lines are counted, and once there is room it goes on."""
    s = Server()
    s.wants("its log", 200, "hello, you", "/hello", b"you")
    resource.prlimit(s.process.pid, resource.RLIMIT_FSIZE, (4096, resource.RLIM_INFINITY))
    get = b"GET /-/nothing HTTP/1.1\r\nHost: x\r\n\r\n"
    got = s.raw(get * 3000 + b"no request\r\n\r\n")
    check(got.count(b"HTTP/1.1 404") == 3000, "answers beside a full disk", got.count(b"HTTP/1.1 404"))
    check(s.number("log_lines_lost_total") > 1000 and (s.folder / "access").stat().st_size <= 4096, "lines that are lost")
    resource.prlimit(s.process.pid, resource.RLIMIT_FSIZE, (resource.RLIM_INFINITY,) * 2)
    until("a log that goes on", lambda: (s.folder / "access").stat().st_size > 40000)
    s.end()


def unseen() -> None:
    """What changes without an event, as on another machine's disk, is read at SIGHUP; what did not change is not loaded again."""
    s = Server(hello="type text/plain\n")
    with tempfile.TemporaryDirectory(dir=s.folder.parent) as other:
        for name in "hello.wasm", "hello.conf":
            os.link(s.folder / name, f"{other}/{name}")
        s.wants("before", 200, "hello, abc", "/hello", b"abc")
        s.wants("a loop", 200, "1", "/limiter/ask", b"10.0.0.7")
        pathlib.Path(other, "hello.wasm").write_bytes((GUESTS / "crc32.wasm").read_bytes())
        pathlib.Path(other, "hello.conf").write_text("type text/html\n")
        time.sleep(0.3)
        got = s.ask("/hello", b"abc")
        check(got[1] == b"hello, abc" and got[2]["Content-Type"] == "text/plain", "a change that nobody tells", got[:2])
        s.process.send_signal(signal.SIGHUP)
        until("a module at SIGHUP", lambda: s.ask("/hello", b"abc")[1] == b"\x35\x24\x41\xc2")
        check(s.ask("/hello", b"abc")[2]["Content-Type"] == "text/html", "a limit at SIGHUP")
        check((s.number("loads_total", "limiter"), s.number("loads_total", "hello")) == (1, 2), "modules that did not change")
    s.end()


def starts() -> None:
    """What is wanting when it starts is said in a sentence, and it ends with a status."""
    with tempfile.TemporaryDirectory() as room, socket.create_server(("127.0.0.1", 0)) as taken:
        os.chmod(room, 0o755)
        program = shutil.copy(EDGE, room)
        other = ("setpriv", "--reuid=65534", "--clear-groups") if os.getuid() == 0 else ()
        port, here = str(taken.getsockname()[1]), (room,)
        for what, words, status, text in (
                ("descriptors", ("prlimit", "--nofile=6", program, *here), 1, r"edge: 6 files may be open: more than \d+ are needed"),
                ("threads", (*other, "prlimit", "--nproc=1", program, *here), 1, r"edge: the threads of its pool \(-w\): "),
                ("memory", ("prlimit", "--as=20000000", program, *here), 1, r"edge: the threads of its pool \(-w\): "),
                ("a port that is taken", (program, "-p", port, *here), 1, f"edge: 127.0.0.1, port {port}: address already in use"),
                ("a folder", (program, f"{room}/none"), 1, "edge: .*/none: no such file or directory"),
                ("a word", (program, "-q", *here), 2, "usage: edge ")):
            done = subprocess.run([str(it) for it in words], capture_output=True, text=True, check=False, timeout=60)
            check(done.returncode == status and re.search(f"^{text}", done.stderr, re.M), f"no {what}", done.returncode, done.stderr)
    few_descriptors()
    full_disk()
    unseen()


def bounds() -> None:
    broken_too()
    s = Server("-t", "300", "-x", "127.0.0.1", slow=f"{ENDLESS}queue 4096\nrun 1\ndeadline 3600000\n", hello="type text/plain\n")
    for part in short, crowds, shares:
        part(s)
    s.wants("after crowds", 200, "hello, you", "/hello", b"you")
    s.end()
    unread()
    later_loop()
    descriptors()
