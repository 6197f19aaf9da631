"""Hostile clients: slow, broken, ahead, idle, many, and those that take no answers."""
import concurrent.futures
import contextlib
import random
import re
import socket
import subprocess
import time
from collections.abc import Callable

from server import Server, check, head, may_open, read_all, read_head, until


def slow(s: Server) -> None:
    """A request must arrive within two seconds; a partial one is answered, and the connection is closed."""
    def drip(data: bytes, every: float) -> bytes:
        with s.connect() as c:
            with contextlib.suppress(OSError):
                for it in data:
                    c.sendall(bytes([it]))
                    time.sleep(every)
            return read_all(c)

    with concurrent.futures.ThreadPoolExecutor(8) as pool:
        tried = {"slow heads": pool.submit(drip, b"POST /hello HTTP/1.1\r\nHost: x\r\n" + b"x: y\r\n" * 4, 0.1),
                 "half a body": pool.submit(s.raw, b"POST /hello HTTP/1.1\r\nHost: x\r\nContent-Length: 100\r\n\r\nhalf"),
                 "half a chunk": pool.submit(s.raw, b"POST /hello HTTP/1.1\r\nHost: x\r\nTransfer-Encoding: chunked\r\n\r\n10\r\nhalf")}
        for what, it in tried.items():
            check(head(it.result()) == 408, what, it.result())
        check(pool.submit(s.raw, b"").result() == b"", "a client that says nothing")


def broken(s: Server) -> None:
    post = b"POST /hello HTTP/1.1\r\nHost: x\r\n"
    many_heads = b"".join(b"h%d: %s\r\n" % (n, b"v" * 20) for n in range(1000))
    tried = [("no method", b"\x16\x03\x01\x02\x00\x01\x00", 400), ("no protocol", b"POST /hello FTP/1.1\r\n\r\n", 400),
             ("a chunk that is none", post + b"Transfer-Encoding: chunked\r\n\r\nzz\r\n", 400),
             ("a chunk too great", post + b"Transfer-Encoding: chunked\r\n\r\nffffffffffffffffff\r\n", 400),
             ("chunks too long", post + b"Transfer-Encoding: chunked\r\n\r\n11000\r\n" + bytes(0x11000), 413),
             ("two lengths", post + b"Content-Length: 1\r\nContent-Length: 2\r\n\r\nx", 400),
             ("length and chunks", post + b"Content-Length: 4\r\nTransfer-Encoding: chunked\r\n\r\n0\r\n\r\n", 400),
             ("chunks that aren't the last coding", post + b"Transfer-Encoding: chunked, identity\r\n\r\n0\r\n\r\n", 400),
             ("extensions too long", post + b"Transfer-Encoding: chunked\r\n\r\n" + b"1;%s\r\na\r\n" % (b"a" * 1000) * 5 + b"0\r\n\r\n", 400),
             ("a page with such", b"GET /-/metrics HTTP/1.1\r\nHost: x\r\nTransfer-Encoding: xchunked\r\n\r\n", 400),
             ("no coding", post + b"Transfer-Encoding:\r\n\r\n", 400), ("another coding", post + b"Transfer-Encoding: gzip\r\n\r\n", 400),
             *((f"chunks of another coding: {it}", post + b"Transfer-Encoding: %s\r\n\r\n0\r\n\r\n" % it.encode(), 501)
               for it in ("identity, chunked", "gzip, chunked", "chunked\r\nTransfer-Encoding: chunked")),
             ("chunks in 1.0", b"POST /hello HTTP/1.0\r\nTransfer-Encoding: chunked\r\n\r\n0\r\n\r\n", 400),
             ("a space before a colon", post + b"Content-Length : 1\r\n\r\nx", 400),
             ("no Host", b"POST /hello HTTP/1.1\r\nHosts: x\r\n\r\n", 400), ("two Hosts", post + b"hOST:\r\n\r\n", 400),
             ("version 0.9", b"POST /hello\r\n\r\n", 400), ("version 2.0", b"POST /hello HTTP/2.0\r\nHost: x\r\n\r\n", 400),
             ("no tenant, no body yet", b"POST /nobody HTTP/1.1\r\nHost: x\r\nContent-Length: 9\r\n\r\n", 404),
             ("a length below 0", post + b"Content-Length: -1\r\n\r\n", 400),
             ("a length beyond all", post + b"Content-Length: " + b"9" * 30 + b"\r\n\r\n", 400),
             ("a length too long, no body yet", post + b"Content-Length: 65537\r\n\r\n", 413),
             ("a head too long", post + b"x: " + b"y" * 20000 + b"\r\n\r\n", 431), ("too many heads", post + many_heads + b"\r\n", 431),
             ("trailers too long", post + b"Transfer-Encoding: chunked\r\n\r\n0\r\n" + many_heads + b"\r\n", 431),
             ("a path too long", b"POST /" + b"a" * 70000 + b" HTTP/1.1\r\nHost: x\r\n\r\n", 414)]
    for what, data, status in tried:
        got = s.raw(data)
        check(head(got) == status and b"Connection: close" in got, what, got)
    for data in b"3\r\nabcXY0\r\n\r\n", b"3\r\nabc\r\r0\r\n\r\n", b"3\r\nabc\n\n0\r\n\r\n", b"1\r\na\r\n1\r\nbX\n0\r\n\r\n":
        for cut in range(len(data) + 1):
            with s.connect() as c, contextlib.suppress(OSError):
                c.sendall(post + b"Transfer-Encoding: chunked\r\n\r\n" + data[:cut])
                time.sleep(0.002)
                c.sendall(data[cut:])
                got = read_all(c)
                check(head(got) == 400, "a chunk without CR LF at its end", data, cut, got)
    got = s.raw(b"POST /hello HTTP/1.0\r\nContent-Length: 2\r\n\r\nme")
    check(got.endswith(b"hello, me") and b"Connection: close" in got, "HTTP/1.0", got)
    with s.connect() as c:
        for it in post + b"tRANSFER-encoding: \t Chunked \r\nConnection: close\r\n\r\n2\r\nme\r\n0\r\n\r\n":
            c.sendall(bytes([it]))
        check(read_all(c).endswith(b"hello, me"), "chunks, byte by byte")
    s.wants("a whole URL", 200, "hello, you", f"http://127.0.0.1:{s.port}/hello", b"you")
    with s.connect() as c:
        for it in b"POST /hello HTTP/1.1\r\nhost:\r\neXPECT: 100-continue\r\nContent-Length: 2\r\n\r\n":
            c.sendall(bytes([it]))
        check(c.recv(4096) == b"HTTP/1.1 100 Continue\r\n\r\n", "one that is to go on")
        c.sendall(b"me")
        check(c.recv(4096).endswith(b"hello, me"), "one that went on")


def pipelines(s: Server) -> None:
    """Pipelined requests are answered in order, however many."""
    data = b"".join(b"POST /hello HTTP/1.1\r\nHost: x\r\nContent-Length: %d\r\n\r\n%d" % (len(str(n)), n) for n in range(300))
    got = s.raw(data + b"no request\r\n\r\n")
    check([int(it) for it in re.findall(rb"hello, (\d+)", got)] == list(range(300)) and got.count(b"HTTP/1.1 400") == 1, "sent ahead", got[-300:])
    got = s.raw(b"GET /-/nothing HTTP/1.1\r\nHost: x\r\n\r\n" * 20000 + b"GET /-/nothing HTTP/1.0\r\n\r\n")
    check(got.count(b"HTTP/1.1 404") == 20001, "20,001 sent ahead", got.count(b"HTTP/1.1 404"))
    got = b""
    with s.connect() as c, contextlib.suppress(OSError):  # reads only when all of 8 MiB is sent
        c.sendall(b"POST /hello HTTP/1.1\r\nHost: x\r\nContent-Length: 2\r\n\r\nme" + b"no request\r\n\r\n" * 600000)
        got = read_all(c)
    check(re.findall(rb"HTTP/1.1 (\d+)", got) == [b"200", b"400"], "an error behind a request", got[:300], len(got))


def idle(s: Server, count: int) -> None:
    """Beside idle connections another is served; they are closed, and their memory is freed."""
    before, links = s.size("VmRSS"), []
    for _ in range(count):
        links.append(s.connect())
        links[-1].sendall(b"POST /hel")
    s.wants("beside those that stand", 200, "hello, you", "/hello", b"you")
    more = s.size("VmRSS") - before
    check(more < (16 * count / 10 + 8192) * (4 if s.shadowed() else 1), f"{count} that stand take {more} KiB more")
    until("they are ended", lambda: s.number("clients") < 10)
    for it in links:
        it.close()


def takers(s: Server) -> None:
    """Clients that don't receive their responses, or disconnect before."""
    before = s.size("VmRSS")
    links = [s.connect() for _ in range(20)]
    for it in links:
        it.setblocking(False)
        with contextlib.suppress(OSError):
            it.send(b"GET /-/ HTTP/1.1\r\nHost: x\r\n\r\n" * 3000)
    sizes = []

    def ended() -> bool:
        sizes.append(s.size("VmRSS") - before)
        return s.number("clients") < 10

    until("they are ended", ended)
    check(max(sizes) < 65536, f"20 that don't take their answers take {max(sizes)} KiB more")
    for it in links:
        it.close()
    for _ in range(50):
        with s.connect() as it:
            it.sendall(b"POST /spin HTTP/1.1\r\nHost: x\r\nContent-Length: 0\r\n\r\n")
    until("those that went are forgotten", lambda: s.number("tasks_waiting") == 0)
    until("bytes are held that nobody waits for", lambda: s.number("held_bytes") == 0)


def noise(s: Server, count: int = 400, seed: float = 43) -> None:
    """Requests with bytes changed, cut and doubled."""
    chance = random.Random(seed)
    seeds = [b"POST /hello/1 HTTP/1.1\r\nHost: a\r\nContent-Length: 5\r\n\r\nworld", b"GET /-/metrics HTTP/1.1\r\nHost: x\r\nConnection: keep-alive\r\n\r\n",
             b"POST /crc32 HTTP/1.1\r\nHost: x\r\nTransfer-Encoding: chunked\r\n\r\n5\r\nhello\r\n3;x=y\r\nabc\r\n0\r\nT: x\r\n\r\n",
             b"POST /limiter/ask HTTP/1.1\r\nHost: x\r\n\r\n"]
    for _ in range(count):
        data = bytearray(chance.choice(seeds) + chance.choice(seeds))
        for _ in range(chance.randrange(6)):
            at = chance.randrange(len(data))
            data[at:at + chance.randrange(3)] = bytes(chance.choice(b"\r\n:0 9aZ\x00\xff") for _ in range(chance.randrange(4)))
        with s.connect() as c, contextlib.suppress(OSError):
            c.sendall(data[:chance.randrange(len(data)) + 1])
            if chance.random() < 0.5:
                c.shutdown(socket.SHUT_WR)
                read_all(c)
    s.wants("after noise", 200, "hello, you", "/hello", b"you")


def most(count: int) -> None:
    s = Server("-c", str(count), "-t", "300", "-x", "127.0.0.1")
    get = b"GET /-/nothing HTTP/1.0\r\n\r\n"

    def has(clients: int) -> bool:
        return b"edge_clients %d\n" % clients in s.ask("/-/metrics", None, "GET")[1]

    def fill(by: str) -> list[socket.socket]:
        """As many connections as an address may have, each idle after a response."""
        its = []
        while True:
            its.append(s.connect(by))
            its[-1].sendall(get.replace(b"1.0", b"1.1\r\nHost: x"))
            if read_head(its[-1]) == 503:
                its.pop().close()
                return its

    until("nobody else", lambda: has(1))
    links = [s.connect() for _ in range(count - 1)]
    until("as many as may be", lambda: has(count))

    def are_too_many() -> bool:
        links.append(s.connect())
        return head(s.raw(get)) == 503

    until("one client too many", are_too_many)
    for it in links:
        it.close()
    until("room again", lambda: head(s.raw(get)) == 404)
    links, n = [], 1
    while len(links) < count - 4:  # each has an eighth, rounded up, of what the others leave
        n += 1
        its = fill(f"127.0.0.{n}")
        check(1 <= len(its) <= 3, f"connections of address {n}", len(its))
        links += its
    check(n > 7 and head(s.raw(get, "127.0.0.99")) == 404, "beside addresses that all have their share", n)
    for it in links:
        it.close()
    s.end()


def attacks() -> None:
    """Slow headers, slow bodies and slow readers, 1,000 at a time, by slowhttptest, which others wrote: its own request is answered."""
    s = Server()
    for mode in "-H -i 5", "-B -i 5 -s 8192", "-X -w 1 -y 2 -n 5 -z 1 -k 3":
        words = ["slowhttptest", *mode.split(), "-c", "1000", "-r", "500", "-l", "20", "-p", "30", "-t", "POST", "-u", f"http://127.0.0.1:{s.port}/hello"]
        said = subprocess.run(words, capture_output=True, text=True, check=False).stdout
        available = re.findall(r"service available:\W*(\w+)", re.sub(r"\x1b\[[0-9;]*m", "", said))
        check(available and set(available) == {"YES"}, "slowhttptest", mode, available)
    s.end()


def clients(count: int = 1000) -> None:
    if not may_open(count, f"{count} connections"):
        return
    s = Server("-t", "2", "-x", "127.0.0.1", spin="fuel 3000000\nrun 1\n")
    s.wants("greeting", 200, "hello, you", "/hello", b"you")
    parts: list[Callable[[Server], None]] = [broken, pipelines, slow, takers, noise]
    for part in parts:
        part(s)
    idle(s, count)
    s.end()
    most(20)
