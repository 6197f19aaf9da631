"""The edge server's -r: its guest fails under three clients, and the record of its loop fails in the same line, with at most 300 bytes per request.

usage: PYTHONPATH=capi/python WASMLOOP_LIBRARY=LIBRARY desk_edge.py EDGE OUT [FAILURES]     (1 by default)
"""

from __future__ import annotations

import http.client
import random
import shutil
import subprocess
import sys
import threading
import time
from pathlib import Path
from typing import List, Optional, Tuple

import desk_guests as guests
from wasmloop import lines, replay

EXAMPLES = Path(__file__).resolve().parent.parent.parent / "examples"
sys.path.insert(0, str(EXAMPLES / "edge"))
from ports import connects, free_port  # noqa: E402

EDGE, OUT = sys.argv[1], Path(sys.argv[2])
CLIENTS, REQUESTS, SECONDS, MOST_BYTES = 3, 5000, 30, 300


def folders() -> Tuple[Path, Path]:
    """A new folder of tenants, with the guest, and one of records."""
    tenants, records = OUT / "tenants", OUT / "edge_records"
    for folder in (tenants, records):
        shutil.rmtree(folder, ignore_errors=True)
        folder.mkdir()
    shutil.copy(guests.built(OUT, EXAMPLES, "quota") or sys.exit("FAILED: clang or wasm-ld is missing"), tenants)
    return tenants, records


def connection(port: int) -> http.client.HTTPConnection:
    """A connection once the server listens."""
    for _ in range(100):
        if connects(port):
            return http.client.HTTPConnection("127.0.0.1", port, timeout=SECONDS)
        time.sleep(0.05)
    sys.exit("FAILED: the edge server does not answer")


def client(port: int, seed: int, failures: List[str]) -> None:
    """Requests with few keys, until one fails."""
    it, rng = connection(port), random.Random(seed)
    for _ in range(REQUESTS):
        if failures:
            return
        it.request("POST", "/quota/ask", body=f"10.0.0.{rng.randrange(200)}")
        reply = it.getresponse()
        text = reply.read()
        if reply.status == 500:
            failures.append(text.decode())


def recorded(number: int) -> Tuple[Path, Optional[str]]:
    """The record of a loop of a new server, and what the server said when the loop failed; None if it did not."""
    (tenants, records), port = folders(), free_port()
    failures: List[str] = []
    server = subprocess.Popen([EDGE, "-p", str(port), "-w", "2", "-r", records, tenants], stdout=subprocess.DEVNULL)
    threads = [threading.Thread(target=client, args=(port, CLIENTS * number + it, failures)) for it in range(CLIENTS)]
    for it in threads:
        it.start()
    for it in threads:
        it.join()
    server.terminate()
    server.wait()
    return records / "quota.1", failures[0] if failures else None


def again(path: Path, failure: str, line: int) -> Tuple[str, int, float]:
    """What is wrong with the record of a failure, how many requests it has, and the bytes of each."""
    rows = replay.rows_of(str(path))
    run, told = replay.Replay(rows), ""
    while run.next():
        told = run.told or told
    asked = sum(it[0] == "request" for it in rows)
    size = (path.stat().st_size - 2 * len(run.code)) / (asked + 1)      # (what begins the loop counts as a request)
    if not run.failed or f"quota.c:{line}]" not in lines.Lines(run.code, run.code).told(told):
        return f"the server: {failure}the record: {told}", asked, size
    return f"{size:.0f} bytes per request" if size > MOST_BYTES else "", asked, size


def main(failures: int = 1) -> int:
    line, found = guests.marked(Path(__file__).with_name("desk") / "quota.c")[0], []
    for number in range(failures):
        path, failure = recorded(number)
        if failure is None:
            print("left out: a guest that did not fail: no two requests met in one millisecond")
            continue
        found.append(again(path, failure, line))
        if found[-1][0]:
            print(f"FAILED: {found[-1][0]}")
    right = sum(not it[0] for it in found)
    if not found:
        print("FAILED: the guest of the edge server never failed")
        return 1
    print(f"records of the edge server: {right} of {len(found)} failures at line {line} again, after {sum(it[1] for it in found)} requests, "
          f"of at most {max(it[2] for it in found):.0f} bytes")
    return 0 if right == len(found) else 1


if __name__ == "__main__":
    sys.exit(main(*map(int, sys.argv[3:])))
