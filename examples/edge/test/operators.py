"""What operators do: they end the server, drain it, and start the next one on its sockets, as systemd does."""
import concurrent.futures
import contextlib
import http.client
import os
import pathlib
import re
import signal
import socket
import subprocess
import sys
import tempfile
import threading
import time
from collections.abc import Iterator
from typing import IO

from ports import UnixConnection, free_port
from server import EDGE, ENDLESS, Server, broken_too, check, read_all, until

# Starts a program as systemd does: argv has the descriptors, -- and the program's words.
AS_SYSTEMD = """import fcntl, os, sys
end = sys.argv.index("--")
passed = [fcntl.fcntl(int(it), fcntl.F_DUPFD, 100) for it in sys.argv[1:end]]
for n, it in enumerate(passed):
    os.dup2(it, 3 + n)
    os.close(it)
os.environ.update(LISTEN_FDS=str(len(passed)), LISTEN_PID=str(os.getpid()), LISTEN_FDNAMES=":".join("edge.socket" for _ in passed))
os.execv(sys.argv[end + 1], sys.argv[end + 1:])"""


def end() -> None:
    """Orderly shutdown by a signal: running requests go on to their end (here the deadline), waiting ones are answered with 503, idle
    connections are closed."""
    broken_too()
    s = Server("-t", "60", spin=f"{ENDLESS}run 1\ndeadline 4000\n")
    with concurrent.futures.ThreadPoolExecutor(8) as pool:
        stands = s.connect()
        first = pool.submit(s.ask, "/spin")
        until("one that runs", lambda: s.number("tenant_tasks", "spin", are="running") == 1)
        rest = [pool.submit(s.ask, path) for path in ("/spin", "/spin", "/mute/ask/1")]
        until("two that wait", lambda: s.number("tenant_tasks", "spin", are="waiting") == 2)
        until("one that a loop was asked", lambda: s.number("received_bytes_total", "mute") == 1)
        s.end()
        got = first.result()[0], [it.result()[0] for it in rest]
        check(got == (504, [503, 503, 503]) and b"not done by its deadline" in first.result()[1], "the end", got, first.result()[1])
        check(read_all(stands) == b"", "a connection that stands")


class Activated(Server):
    """The program as systemd starts it: with sockets that outlive it, and one for its notifications. Clients use the first of them."""

    def __init__(self, listeners: list[socket.socket], told: socket.socket, *options: str) -> None:
        self.listeners, self.told = listeners, told
        super().__init__(*options)

    def listens(self) -> bool:
        if not hasattr(self, "process"):
            self.process = as_systemd(self.listeners, self.told, self.log, *self.options, str(self.folder))
            check(self.told.recv(100) == b"READY=1", "it is ready")
        return self.process.poll() is None

    def link(self) -> http.client.HTTPConnection:
        where = self.listeners[0].getsockname()
        return UnixConnection(where) if isinstance(where, str) else http.client.HTTPConnection("127.0.0.1", where[1], timeout=120)


def as_systemd(listeners: list[socket.socket], told: socket.socket, log: IO[str] | int, *words: str) -> subprocess.Popen[str]:
    numbers = [it.fileno() for it in listeners]
    command = [sys.executable, "-c", AS_SYSTEMD, *map(str, numbers), "--", EDGE, *words]
    env = {**os.environ, "NOTIFY_SOCKET": told.getsockname()}
    return subprocess.Popen(command, env=env, pass_fds=numbers, stdout=log, stderr=subprocess.PIPE, text=True)


def unix_listener(path: str) -> socket.socket:
    listener = socket.socket(socket.AF_UNIX)
    listener.bind(path)
    listener.listen(128)
    return listener


@contextlib.contextmanager
def systemd(kind: str = "tcp") -> Iterator[tuple[list[socket.socket], socket.socket]]:
    """A socket of TCP and a UNIX socket, that of `kind` first, and one for notifications."""
    with (tempfile.TemporaryDirectory() as folder, socket.socket(socket.AF_UNIX, socket.SOCK_DGRAM) as told,
          socket.create_server(("127.0.0.1", 0), backlog=128) as tcp, unix_listener(f"{folder}/edge.sock") as unix):
        told.bind(f"{folder}/told")
        told.settimeout(120)
        yield ([tcp, unix] if kind == "tcp" else [unix, tcp]), told


def operators() -> None:
    """With -g a server is drained: its health is 503, and it serves until a second signal or its time. The next one takes its sockets over."""
    with systemd() as (listeners, told):
        first = Activated(listeners, told, "-g", "3600")
        first.wants("health", 200, "ok", "/-/health", None, method="GET")
        first.process.send_signal(signal.SIGTERM)
        check(told.recv(100) == b"STOPPING=1", "it ends")
        first.wants("health in its last hour", 503, "draining", "/-/health", None, method="GET")
        first.wants("a request in its last hour", 200, "hello, you", "/hello", b"you")
        first.end()
        second = Activated(listeners, told, "-g", "1")
        second.wants("a server that takes the socket over", 200, "hello, you", "/hello", b"you")
        began = time.monotonic()
        second.end()
        check(time.monotonic() - began >= 1, "a second of draining", time.monotonic() - began)
    both()
    reloads()
    passed_wrongly()
    restarts("tcp")
    restarts("unix")


def both() -> None:
    """Both sockets are served; the UNIX socket, which is systemd's, stays at the end. Addresses of -a are not used beside them."""
    with systemd() as (listeners, told):
        s = Activated(listeners, told, "-a", f"127.0.0.1:{free_port()}")
        s.wants("by the first socket", 200, "hello, you", "/hello", b"you")
        s.listeners = listeners[::-1]
        s.wants("by the second socket", 200, "hello, you", "/hello", b"you")
        files = {os.readlink(it) for it in pathlib.Path(f"/proc/{s.process.pid}/fd").iterdir()}
        own = [it for it in map(str.split, pathlib.Path("/proc/net/tcp").read_text().splitlines()) if f"socket:[{it[9]}]" in files]
        check(not any(it[1].endswith(f":{int(s.options[1].split(':')[1]):04X}") for it in own), "an address of -a")
        s.end()
        check(told.recv(100) == b"STOPPING=1" and os.path.exists(listeners[1].getsockname()), "systemd's UNIX socket stays")


def reloads() -> None:
    """At SIGHUP systemd is told when it begins and when it is over."""
    with systemd() as (listeners, told):
        s = Activated(listeners, told)
        before = time.monotonic_ns() // 1000
        s.process.send_signal(signal.SIGHUP)
        got = told.recv(100), told.recv(100)
        begins = re.fullmatch(rb"RELOADING=1\nMONOTONIC_USEC=(\d+)", got[0])
        s.wants("a request behind a reload", 200, "hello, you", "/hello", b"you")
        check(begins and before <= int(begins[1]) <= time.monotonic_ns() // 1000 and got[1] == b"READY=1", "a reload", got)
        s.end()
        check(told.recv(100) == b"STOPPING=1", "it ends after a reload")


def passed_wrongly() -> None:
    """What is no stream socket, or too many, is refused in a sentence."""
    with systemd() as (listeners, told), tempfile.TemporaryDirectory() as folder, socket.socket(socket.AF_INET, socket.SOCK_DGRAM) as datagrams:
        for passed, text in (([listeners[0], datagrams], "descriptor 4 of systemd: it is no stream socket"),
                             (listeners * 9, "systemd's sockets: they are too many")):
            process = as_systemd(passed, told, subprocess.DEVNULL, folder)
            with contextlib.suppress(subprocess.TimeoutExpired):
                process.wait(60)
            process.kill()
            said = process.communicate()[1]
            check((process.returncode, said) == (1, f"edge: {text}\n"), "sockets of the wrong kind", process.returncode, said)


def restarts(kind: str) -> None:
    """Four clients lose no request while one server follows another on a socket, as systemd restarts it, three times: each tries once more."""
    asked, again, lost, over = [0], [], [], threading.Event()
    with systemd(kind) as (listeners, told):
        server = Activated(listeners, told, "-g", "1")

        def tried() -> tuple[int, bytes] | str:
            try:
                return server.ask("/hello", b"you")[:2]
            except (OSError, http.client.HTTPException) as error:
                return repr(error)

        def client() -> None:
            while not over.is_set():
                first = tried()
                asked[0] += 1
                if first != (200, b"hello, you"):
                    again.append(first)
                    second = tried()
                    lost.extend([] if second == (200, b"hello, you") else [(first, second)])

        clients = [threading.Thread(target=client) for _ in range(4)]
        for it in clients:
            it.start()
        for _ in range(3):
            time.sleep(0.2)
            server.end()
            check(told.recv(100) == b"STOPPING=1", "it has ended")
            server = Activated(listeners, told, "-g", "1")
        time.sleep(0.2)
        over.set()
        for it in clients:
            it.join()
        server.end()
    check(asked[0] > 20 and not lost, f"no request is lost over three restarts, {kind}", asked, lost[:5])
    print(f"    three restarts, {kind}: {asked[0]} requests, {len(again)} of them asked twice, {len(lost)} lost")
