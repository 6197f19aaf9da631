"""A short request each 6 ms beside two clients of a long one: unlike a closed loop, it meets stalls as often as they are there.

usage: paced.py http HOST:PORT PATH             beside POSTs of PATH, or nothing (-); the short one is GET /static
       paced.py redis SOCKET wl | lua | -       beside WL.CALL rules 3, or the same in Lua; the short one is PING
"""

from __future__ import annotations

import http.client
import socket
import sys
import threading
import time
from typing import Callable, Tuple, Union

kind, where, what = sys.argv[1:]
LUA = b"local n = 0 for i = 0, 1999999 do n = (n * 31 + i) % 4294967296 end return n"
# what a server answers, and the long request and the short one
Answer = Union[int, bytes]
Client = Tuple[Callable[[], Answer], Callable[[], Answer]]
WORDS = {"wl": (b"wl.call", b"rules", b"3", b"x"), "lua": (b"eval", LUA, b"0")}


def http_client() -> Client:
    connection = http.client.HTTPConnection(where)

    def ask(path: str, body: bytes | None = None) -> int:
        connection.request("POST" if body else "GET", path, body)
        answer = connection.getresponse()
        answer.read()
        return answer.status
    return (lambda: ask(what, b"x")), (lambda: ask("/static"))


def redis_client() -> Client:
    server = socket.socket(socket.AF_UNIX)
    server.connect(where)

    def ask(*words: bytes) -> bytes:
        server.sendall(b"*%d\r\n" % len(words) + b"".join(b"$%d\r\n%s\r\n" % (len(w), w) for w in words))
        return server.recv(65536)[:1]
    return (lambda: ask(*WORDS[what])), (lambda: ask(b"ping"))


client = http_client if kind == "http" else redis_client
ended = threading.Event()
done: list[Answer] = []
took: list[float] = []


def run() -> None:
    long, _ = client()
    while not ended.is_set():
        done.append(long())


threads = [threading.Thread(target=run) for _ in range(0 if what == "-" else 2)]
for thread in threads:
    thread.start()
time.sleep(0.1)
_, short = client()
until = time.perf_counter() + 1.2                       # a busy machine: no longer at a time
while time.perf_counter() < until:
    began = time.perf_counter()
    short()
    took.append((time.perf_counter() - began) * 1000)
    time.sleep(max(0, 0.006 - took[-1] / 1000))
ended.set()
for thread in threads:
    thread.join()
took.sort()
print(f"beside {what}: median {took[len(took) // 2]:.2f} ms, 95 % {took[len(took) * 95 // 100]:.2f}, worst {took[-1]:.2f}, of {len(took)};"
      f" {len(done)} long requests, {set(done)}")
