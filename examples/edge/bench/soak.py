"""The server for long under load, with tenants that come, change and go, and hostile ones beside: is an answer lost, or given twice, does memory grow?

usage: soak.py [--seconds S] [--rate R] [--tenants N] [--threads N] EDGE LOAD GUESTS     (600 s, 1,000 a second, 100 tenants that stay, 3 threads)

EDGE and LOAD are the programs of edge.c and bench/load.c, GUESTS a folder of modules. Each request of LOAD carries its number, which the guest greets; the
server's access log must have each of its own numbers once, but for the lines that the server counts as lost because this program read too slowly.

All this runs for a tenth of the time to warm up, and then for the time. Before and after it the server is idle, with the same tenants: malloc must then have
given out as much as before, but for LEAK bytes a request. Resident memory settles once as many hostile guests as ever have had all their memory at once, which
malloc keeps: so WARM do at first, and from then on it must not grow. Ends with 1 if a request is lost, strays or fails, if a line is missing or duplicated, if
malloc has given out more, or if the last quarter of the time took more than a tenth more resident memory than the second.
"""
import collections
import concurrent.futures
import os
import pathlib
import re
import shutil
import subprocess
import sys
import threading
import time
from collections.abc import Iterable

import common
from common import ask

told = common.words(seconds=600, rate=1000, tenants=100, threads=3)
FOLDER, PATIENCE = common.room(), 120
LEAK, WARM = 4, 8
# what a thread keeps in reserve would count as given out; and in which thread's own memory a hostile guest comes to lie would be chance
EXACT = os.environ | {"GLIBC_TUNABLES": "glibc.malloc.tcache_count=0:glibc.malloc.arena_max=1"}
HOSTILE = "spin", "bomb", "trap", "deep", "limiter"
PATHS = "/spin", "/bomb", "/trap/0", "/deep", "/flood/ask", "/limiter/ask"
over = threading.Event()
numbers = bytearray()
twice: list[int] = []
statuses: collections.Counter[str] = collections.Counter()
seen: collections.Counter[str] = collections.Counter()


def patient(name: str) -> None:
    """A busy machine is no failure."""
    (FOLDER / f"{name}.conf").write_text(f"deadline {PATIENCE}000\n")


def put(name: str, guest: str) -> None:
    common.put(pathlib.Path(told.guests) / f"{guest}.wasm", FOLDER / f"{name}.wasm")


def read_log(log: Iterable[str]) -> None:
    """Each request's number must come once."""
    for line in log:
        words = dict(it.split("=", 1) for it in line.split())
        number = int(words["request"])
        numbers.extend(bytes(max(0, number + 1 - len(numbers))))
        if numbers[number]:
            twice.append(number)
        numbers[number] = 1
        statuses[words["status"]] += 1


def come_and_go(port: int) -> None:
    """A tenant comes, is asked, changes, is asked until the new module answers, and goes; one of those that stay changes."""
    n = 0
    while not over.is_set():
        n += 1
        patient(f"guest{n}")
        put(f"guest{n}", "hello")
        if ask(port, f"/guest{n}")[:2] != (200, b"hello, x"):
            seen["a new tenant that doesn't answer"] += 1
        put(f"guest{n}", "crc32")
        put(f"t{n % told.tenants}", "hello")
        while not over.is_set() and (got := ask(port, f"/guest{n}"))[1] == b"hello, x":
            pass
        if got[0] != 200:
            seen[f"a changed tenant: {got[:2]}"] += 1
        (FOLDER / f"guest{n}.wasm").unlink()
        (FOLDER / f"guest{n}.conf").unlink()
        seen["came and went"] += 1
        over.wait(0.02)


def hostile(port: int, path: str) -> None:
    while not over.is_set():
        seen[f"{path} {ask(port, path)[0]}"] += 1


def warm(port: int) -> None:
    """All tenants that stay are asked, and so many hostile guests have all their memory at once: their jobs take turns."""
    for n in range(told.tenants):
        ask(port, f"/t{n}")
    with concurrent.futures.ThreadPoolExecutor(WARM) as pool:
        list(pool.map(lambda n: ask(port, f"/warm{n % WARM}"), range(4 * WARM)))


def idle(port: int) -> dict[str, int]:
    """What malloc has given out once the server is idle and as it was at first; `flood`, which is never idle, is removed before."""
    (FOLDER / "flood.wasm").unlink()
    end = time.monotonic() + PATIENCE
    while time.monotonic() < end:
        text = ask(port, "/-/metrics", None, "GET")[1].decode()
        values = {name: int(value) for name, value in re.findall(r"(?m)^edge_(\w+) (\d+)$", text)}
        if (values["tenants"], values["clients"], values["threads_busy"], values["tasks_waiting"]) == (told.tenants + len(HOSTILE) + WARM, 1, 0, 0):
            return values
        time.sleep(0.1)
    raise SystemExit(f"the server is not idle: {values}")


def under_load(server: subprocess.Popen[str], port: int, seconds: int) -> tuple[str, list[int]]:
    """The line of LOAD, and the resident memory in each second."""
    paths = [f"/t{n}" for n in range(told.tenants)]
    limits = ["-c", "64", "-d", str(seconds), "-r", str(told.rate), "-m", f"{PATIENCE}000"]
    put("flood", "flood")
    over.clear()
    threads = [threading.Thread(target=come_and_go, args=(port,)), *(threading.Thread(target=hostile, args=(port, path)) for path in PATHS)]
    load = subprocess.Popen([told.load, *limits, str(port), *paths], stdout=subprocess.PIPE, text=True)
    for it in threads:
        it.start()
    memory = []
    while load.poll() is None:
        memory.append(common.memory(server.pid))
        time.sleep(1)
    over.set()
    for it in threads:
        it.join()
    return load.communicate()[0].strip(), memory


def fill() -> None:
    """The tenants that stay."""
    for n in range(told.tenants):
        patient(f"t{n}")
        put(f"t{n}", "hello")
    for name in HOSTILE:
        put(name, name)
    for name in "bomb", *(f"warm{n}" for n in range(WARM)):
        put(name, "bomb")
        (FOLDER / f"{name}.conf").write_text(f"fuel 3000000\ndeadline {PATIENCE}000\n")


def main() -> None:
    port = common.ports.free_port()
    fill()
    server = subprocess.Popen([told.edge, "-p", str(port), "-w", str(told.threads), FOLDER], stdout=subprocess.PIPE, text=True, env=EXACT)
    reader = threading.Thread(target=read_log, args=(server.stdout,))
    reader.start()
    try:
        common.listening(server, port)
        warm(port)
        first, _ = under_load(server, port, max(2, told.seconds // 10))
        before, asked = idle(port), len(numbers)
        said, memory = under_load(server, port, told.seconds)
        after, asked = idle(port), len(numbers) - asked
    finally:
        over.set()
        server.terminate()
        reader.join()
        shutil.rmtree(FOLDER)
    quarter, lost, more = max(1, len(memory) // 4), after["log_lines_lost_total"], after["allocated_bytes"] - before["allocated_bytes"]
    early, late, missing = max(memory[quarter:2 * quarter]), max(memory[-quarter:]), len(numbers) - 1 - sum(numbers) - lost
    print(said)
    print("; ".join(f"{k} {v}" for k, v in sorted(seen.items())))
    print(f"{sum(statuses.values())} lines of the access log, {lost} lost as counted, {missing} missing, {len(twice)} twice;",
          f"statuses {dict(sorted(statuses.items()))}")
    print(f"given out by malloc, idle: {before['allocated_bytes']} bytes, and {more} more after {asked} requests;",
          f"resident: {memory[0]} KiB at first, at most {early} in the second quarter, {late} in the last")
    wrong = {"a request": not all(re.search(r"lost 0 strays 0 .* status 200 \d+$", it) for it in (first, said)), "the access log": twice or missing,
             "a leak": more > LEAK * asked, "resident memory": late > 1.1 * early, "its end": server.wait(),
             "a tenant": any(it.startswith("a ") for it in seen)}
    print("wrong:", ", ".join(name for name, holds in wrong.items() if holds) or "nothing")
    sys.exit(any(wrong.values()))


main()
