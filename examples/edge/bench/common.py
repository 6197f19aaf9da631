"""What the programs of this folder have in common: EDGE LOAD GUESTS behind their options, a folder of their own, a server that listens, requests, memory."""
import argparse
import contextlib
import http.client
import os
import pathlib
import re
import shutil
import subprocess
import sys
import tempfile
import time
from typing import AnyStr

sys.path.insert(0, str(pathlib.Path(__file__).resolve().parent.parent))
import ports as ports  # noqa: E402 (run.py and soak.py use it too)

Answer = tuple[int, bytes, http.client.HTTPMessage, float]


def words(**options: int | str) -> argparse.Namespace:
    """The words of the command line; an option has its usual value's type."""
    parser = argparse.ArgumentParser()
    for name in "edge", "load", "guests":
        parser.add_argument(name)
    for name, usual in options.items():
        parser.add_argument(f"--{name}", type=type(usual), default=usual)
    return parser.parse_args()


def room() -> pathlib.Path:
    """A folder that others may read too: nginx's workers are somebody else."""
    folder = pathlib.Path(tempfile.mkdtemp())
    folder.chmod(0o755)
    return folder


def put(guest: pathlib.Path, path: pathlib.Path) -> None:
    """A module comes at once, as a whole."""
    shutil.copy(guest, path.parent / "new")
    os.rename(path.parent / "new", path)


def listening(server: subprocess.Popen[AnyStr], port: int) -> subprocess.Popen[AnyStr]:
    """The server, once it listens."""
    for _ in range(1200):
        if ports.connects(port):
            return server
        if server.poll() is not None:
            break
        time.sleep(0.05)
    assert isinstance(server.args, list)
    raise SystemExit(f"{os.fsdecode(server.args[0])} does not listen")


def ask(port: int, path: str, body: bytes | None = b"x", method: str = "POST") -> Answer:
    """Status, bytes and heads of an answer, and how many microseconds it took."""
    link, began = http.client.HTTPConnection("127.0.0.1", port, timeout=120), time.perf_counter()
    with contextlib.closing(link):
        link.request(method, path, body)
        answer = link.getresponse()
        return answer.status, answer.read(), answer.headers, (time.perf_counter() - began) * 1e6


def memory(process: int | str, kind: str = "VmRSS") -> int:
    """VmRSS: all that is resident, in KiB; RssAnon: what isn't of files."""
    found = re.search(rf"(?m)^{kind}:\s+(\d+)", pathlib.Path(f"/proc/{process}/status").read_text())
    return int(found[1]) if found else 0
