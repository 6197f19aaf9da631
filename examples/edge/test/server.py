"""What the tests share: checks, a server of their own, its clients, and its metrics. The program's words are those of test.py."""
import contextlib
import http.client
import json
import os
import pathlib
import re
import resource
import select
import shutil
import signal
import socket
import subprocess
import sys
import tempfile
import threading
import time
from collections.abc import Callable
from typing import IO

HERE = pathlib.Path(__file__).resolve().parent
sys.path.insert(0, str(HERE.parent))
from ports import connects, free_port  # noqa: E402

EDGE, GUESTS = sys.argv[1], pathlib.Path(sys.argv[2])
MIB = 1 << 20
PATIENT, ENDLESS = "deadline 60000\n", "fuel 1000000000000000\n"
HOG = ENDLESS + "deadline 200\n"
DIVISION = r"trap, division by zero, after \d+ units, in function 0 \(uv_work\), (operation|instruction) \d+ \(i32.div_s\) at byte"
Answer = tuple[int, bytes, http.client.HTTPMessage]
Metrics = dict[tuple[str, str | None], float]
bad: list[str] = []
made: set[str] = set()


def found(pattern: str | re.Pattern[str], text: str) -> str:
    """The first group of a pattern that the text has."""
    match = re.search(pattern, text)
    assert match, (pattern, text)
    return match[1]


def check(good: object, what: str, *got: object) -> None:
    made.add(what)
    if not good:
        bad.append(what)
        print(f"test: {what}: {' '.join(str(it)[:300] for it in got)}", file=sys.stderr, flush=True)


def until(what: str, done: Callable[[], object], seconds: float = 60) -> None:
    """Waits for an expected event, however busy the machine is."""
    made.add(what)
    end = time.monotonic() + seconds
    while not done():
        if time.monotonic() > end:
            check(False, what)
            return
        time.sleep(0.05)


class Server:
    """The program on a folder of its own and a free port. Deadlines are long by default: a busy machine is no failure."""

    process: subprocess.Popen[str]
    said = ""  # on standard error, once it has ended

    def __init__(self, *options: str, python: bool = False, log: IO[str] | int | None = None, within: tuple[str, ...] = (), **confs: str) -> None:
        self.folder = pathlib.Path(tempfile.mkdtemp())
        for it in GUESTS.glob("*.wasm"):
            shutil.copy(it, self.folder)
        for name in {it.stem for it in self.folder.glob("*.wasm")} | confs.keys():
            (self.folder / f"{name}.conf").write_text(PATIENT + confs.get(name, ""))
        shutil.copy(HERE.parent / "dashboard.html", self.folder)
        self.log = log or open(self.folder / "access", "w+")
        self.python, self.options, self.within, self.port = python, options, within, 0
        until("the server listens", self.listens, 120)

    def is_over(self) -> bool:
        return not hasattr(self, "process") or self.process.poll() is not None

    def listens(self) -> bool:
        """Starts it, again if another process has taken its port."""
        if self.is_over():
            self.port = free_port()
            edge: list[str | pathlib.Path] = [*self.within, EDGE, "-p", str(self.port), "-w", "3", *self.options, str(self.folder)]
            if self.python:
                edge = ["/usr/bin/python3", HERE.parent / "edge.py", str(self.folder), str(self.port), "3"]
            self.process = subprocess.Popen(edge, stdout=self.log, stderr=subprocess.PIPE, text=True)
        return connects(self.port) and not self.is_over()

    def connect(self, by: str = "127.0.0.1") -> socket.socket:
        return socket.create_connection(("127.0.0.1", self.port), 60, (by, 0))

    def link(self) -> http.client.HTTPConnection:
        return http.client.HTTPConnection("127.0.0.1", self.port, timeout=120)

    def ask(self, path: str, body: bytes | None = b"x", method: str = "POST", **headers: str) -> Answer:
        with contextlib.closing(self.link()) as link:
            link.request(method, path, body, headers)
            answer = link.getresponse()
            return answer.status, answer.read(), answer.headers

    def wants(self, what: str, status: int, text: str | bytes, path: str, body: bytes | None = b"x", method: str = "POST") -> Answer:
        got = self.ask(path, body, method)
        check(got[0] == status and re.search(text.encode() if isinstance(text, str) else text, got[1], re.S), what, got[0], got[1])
        return got

    def raw(self, data: bytes, by: str = "127.0.0.1") -> bytes:
        """All that is received until the server closes the connection or is silent; reads while data is sent."""
        def send() -> None:
            with contextlib.suppress(OSError):
                s.sendall(data)

        with self.connect(by) as s:
            sender = threading.Thread(target=send)
            sender.start()
            got = read_all(s)
        sender.join()
        return got

    def size(self, name: str) -> int:
        """In KiB: VmRSS is resident memory, VmSize address space."""
        return int(found(name + r":\s+(\d+)", pathlib.Path(f"/proc/{self.process.pid}/status").read_text()))

    def shadowed(self) -> bool:
        """Whether a sanitizer has reserved address space."""
        return self.size("VmSize") > 1 << 30

    def metrics(self) -> Metrics:
        return parse_metrics(self.ask("/-/metrics", None, "GET")[1].decode())

    def number(self, name: str, tenant: str | None = None, **labels: str) -> float:
        """A metric of the server; or of a tenant, 0 if there is none."""
        labels = {"tenant": tenant, **labels} if tenant else labels
        values, key = self.metrics(), (f"edge_{name}", ",".join(f'{k}="{v}"' for k, v in labels.items()) or None)
        return values.get(key, 0.0) if tenant else values[key]

    def end(self) -> None:
        """Sends SIGTERM: it must exit with 0, and a sanitizer must have reported nothing."""
        self.process.send_signal(signal.SIGTERM)
        self.said = said = self.process.communicate(timeout=120)[1]
        check(self.process.returncode == 0, "its end", self.process.returncode, said[-2000:])
        check("anitizer" not in said and "runtime error" not in said, "a sanitizer", said[:3000])
        if not self.python and not isinstance(self.log, int):
            self.log.seek(0)
            check_log(self.log.read(), "-j" in self.options)
        shutil.rmtree(self.folder)


def check_log(text: str, is_json: bool = False) -> None:
    """Each line is whole, and of its form."""
    form = (r'at=\d{4}-\d\d-\d\dT\d\d:\d\d:\d\dZ request=\d+ client=(unix:\d+|[0-9a-f.:]+|-) '
            r'forwarded="([ !#-\[\]-~]|\\["\\]|\\u00[0-9a-f]{2})*" method=[A-Z-]+ path="[!#-\[\]-~]*" '
            r'status=\d{3} outcome=[a-z]+ in=\d+ out=\d+ us=\d+ fuel=\d+')
    lines = text.splitlines()
    odd = [it for it in lines if not (isinstance(json.loads(it), dict) if is_json else re.fullmatch(form, it))]
    check(lines and not odd, "the access log", odd[:1])


def read_all(s: socket.socket, wait: float = 60) -> bytes:
    s.settimeout(wait)
    parts = []
    with contextlib.suppress(OSError):
        while part := s.recv(65536):
            parts.append(part)
    return b"".join(parts)


def read_head(s: socket.socket, wait: float = 60) -> int:
    """The status of the next response."""
    s.settimeout(wait)
    return int(s.recv(4096)[9:12])


def head(answer: bytes) -> int | bytes:
    return int(answer[9:12]) if answer.startswith(b"HTTP/1.1 ") else answer[:40]


def readable(link: socket.socket | int) -> bool:
    return bool(select.select([link], [], [], 0)[0])


def parse_metrics(text: str) -> Metrics:
    """The values by name and labels; each family must be declared once, and be contiguous."""
    values: Metrics = {}
    kind, name, closed = "", "", set[str]()
    for line in text.splitlines():
        if line.startswith("# HELP "):
            closed.add(name)
            name = line.split()[2]
            check(name not in closed, "a family of metrics stands twice", name)
        elif line.startswith("# TYPE "):
            kind = line.split()[3]
            check(line.split()[2] == name and kind in ("counter", "gauge", "summary", "histogram"), "a type", line)
        else:
            m = re.fullmatch(r'([a-z_]+)(?:\{((?:[a-z]+="[A-Za-z0-9_.+-]*",?)*)\})? (\d+(?:\.\d+)?(?:e[+-]?\d+)?)', line)
            more = {"summary": "_(sum|count)$", "histogram": "_(sum|count|bucket)$"}.get(kind, "^$")
            check(m and (not kind or re.sub(more, "", m[1]) == name), "a line of metrics", line)
            check(m and (kind != "counter" or name.endswith("_total")), "a counter's name", line)
            if m:
                check((m[1], m[2]) not in values, "a value stands twice", line)
                values[m[1], m[2]] = float(m[3])
    return values


def put(s: Server, name: str, data: bytes) -> None:
    (s.folder / "new").write_bytes(data)
    os.rename(s.folder / "new", s.folder / name)


def may_open(count: int, what: str) -> bool:
    """Whether so many files may be open."""
    most = resource.getrlimit(resource.RLIMIT_NOFILE)[1]
    if most == resource.RLIM_INFINITY or most > count + 100:
        return True
    print(f"test: left out: {what}, since {most} files may be open")
    return False


def broken_too() -> None:
    (GUESTS / "broken.wasm").write_text("no module")
    shutil.copy(GUESTS / "ticker.wasm", GUESTS / "brief.wasm")
    for name in "mute", "crowd":
        shutil.copy(GUESTS / "limiter.wasm", GUESTS / f"{name}.wasm")
    for name in "slow", "late", "dead", "long0", "long1", "long2":
        shutil.copy(GUESTS / "spin.wasm", GUESTS / f"{name}.wasm")
