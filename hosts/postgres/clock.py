"""Whether timeouts and cancels hold within 10 ms: clock.py SOCKET, by test.sh. It speaks PostgreSQL's protocol, so that no client's start counts. The
machine may be busy, so one of forty tries has to, and all have a wide bound. Ends with 1 if one is late."""

from __future__ import annotations

import functools
import socket
import statistics
import struct
import sys
import threading
import time
from typing import Callable

LEAST, TRIES, LATE, MOST = 9, 40, 10, 1000


class Session:
    def __init__(self) -> None:
        words = b"user\0postgres\0database\0postgres\0\0"
        self.server, self.state = socket.socket(socket.AF_UNIX), ""
        self.server.connect(sys.argv[1] + "/.s.PGSQL.5432")
        self.file = self.server.makefile("rb")
        self.server.sendall(struct.pack("!ii", len(words) + 8, 196608) + words)
        self.ready()

    def ready(self) -> None:
        while True:
            kind, size = struct.unpack("!ci", self.file.read(5))
            body = self.file.read(size - 4)
            if kind == b"K":
                self.process, _ = struct.unpack("!ii", body)
            if kind == b"E":
                self.state = next(field[1:] for field in body.split(b"\0") if field[:1] == b"C").decode()
            if kind == b"Z":
                return

    def ask(self, text: str) -> tuple[str, float]:
        """Its SQLSTATE, if it fails, and how long it takes, in milliseconds."""
        self.state, words, began = "", text.encode() + b"\0", time.perf_counter()
        self.server.sendall(b"Q" + struct.pack("!i", len(words) + 4) + words)
        self.ready()
        return self.state, (time.perf_counter() - began) * 1000


def timed_out(session: Session, setting: str, what: str, state: str) -> float | None:
    """How late a timeout of 50 ms is."""
    session.ask(f"SET {setting} = 50")
    said, took = session.ask(what)
    session.ask(f"SET {setting} = 0")
    return took - 50 if said == state and took >= 49 else None


def cancelled(session: Session, other: Session, what: str) -> float | None:
    """How late a cancel by another session is, from its command on."""
    began = []

    def act() -> None:
        began.append(time.perf_counter())
        other.ask(f"SELECT pg_cancel_backend({session.process})")
    timer = threading.Timer(0.05, act)
    timer.start()
    said, _ = session.ask(what)
    took = (time.perf_counter() - began[0]) * 1000 if began else 0
    timer.join()
    return took if said == "57014" and began else None


def main() -> int:
    session, other = Session(), Session()
    session.ask("SET wasmloop.fuel = 2000000000")
    tests: dict[str, Callable[[], float | None]] = {}
    for name in ("spin", "grow", "copies", "more"):
        tests[f"{name}, statement_timeout"] = functools.partial(timed_out, session, "statement_timeout", calls(name), "57014")
        tests[f"{name}, cancel"] = functools.partial(cancelled, session, other, calls(name))
    tests["lock_timeout"] = functools.partial(timed_out, session, "lock_timeout", "SELECT score(5)", "55P03")
    late = 0
    for name, act in tests.items():
        other.ask("BEGIN; LOCK TABLE wasmloop.module" if name == "lock_timeout" else "ROLLBACK")
        took: list[float] = []
        while (more := act()) is not None:
            took.append(more)
            if len(took) >= (LEAST if min(took) <= LATE else TRIES):
                break
        other.ask("ROLLBACK")
        good = more is not None and min(took) <= LATE and max(took) <= MOST
        late += not good
        told = f"least {min(took):.1f}, median {statistics.median_high(took):.1f}, most {max(took):.1f} ms late" if more is not None else f"none, behind {took}"
        print(f"{name}: {told} {'ok' if good else 'FAILED'}")
    return int(late > 0)


def calls(name: str) -> str:
    return "SELECT count(*) FROM more()" if name == "more" else f"SELECT {name}(1)"


sys.exit(main())
