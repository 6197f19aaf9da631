"""Random modules for a running server, which none may crash.

usage: random_modules.py make FOLDER COUNT [SEED]      changed copies of rules.wasm and of the examples: some bytes of their code are others
       random_modules.py postgres SOCKET FOLDER        each module in SQL, by two sessions
       random_modules.py nginx CONF PID PORT FOLDER    each accepted module as a location (CONF has the line #RANDOM), while it is reloaded
       random_modules.py redis SOCKET FOLDER           each module by WL.LOAD and WL.CALL

FOLDER may have modules of any other generator: functions f(i64) -> i64, t(i32, i32, i32, i32) -> i32, room and uv_work are called.
"""

from __future__ import annotations

import collections
import concurrent.futures
import http.client
import os
import pathlib
import random
import re
import signal
import socket
import subprocess
import sys
import time
from typing import Counter, Iterator

TOP = pathlib.Path(__file__).resolve().parent.parent
OPS = (0, 1, 2, 3, 4, 5, 6)
OPCODES = b"\x00\x01\x0b\x0c\x0d\x10\x1a\x20\x21\x28\x36\x41\x6a\x6d\x6f\x7f"
# functions in SQL: name, arguments, result, the exports that each is tried with, and what it is called with
FUNCTIONS = (
    ("f", "bigint", "bigint", ("f", "score", "heavy", "running", "grow", "copies", "deep"), "x"),
    ("t", "text", "text", ("t", "slug"), "repeat(chr(65), x)"),
    ("d", "int, int", "int", ("divide",), "x - 5, x - 3"),
    ("s", "bigint", "SETOF bigint", ("series",), "x * 1000"),
    ("w", "text", "SETOF text", ("words",), "repeat('ab - ', x)"),
    ("n", "bigint, bigint", "bigint", ("total_of nulls",), "NULL, x"),
)


def modules(folder: str) -> list[pathlib.Path]:
    return sorted(pathlib.Path(folder).glob("*.wasm"), key=lambda p: (len(p.name), p.name))


def make(folder: str, count: str, seed: str = "1") -> None:
    os.makedirs(folder, exist_ok=True)
    random.seed(int(seed))
    seeds = [TOP / "hosts/guest/rules.wasm"] * 8 + sorted((TOP / "examples").glob("*.wasm"))
    for k in range(int(count)):
        data = bytearray(random.choice(seeds).read_bytes())
        for _ in range(random.choice([1, 1, 1, 1, 2, 4])):
            at = random.randrange(8, len(data))
            data[at] = random.choice([random.randrange(256), random.choice(OPCODES), data[at] ^ 1 << random.randrange(8)])
        (pathlib.Path(folder) / f"{k}.wasm").write_bytes(data)


def statements(k: int, data: bytes) -> Iterator[str]:
    yield "SET statement_timeout = 500;"                # a set may be endless
    yield f"INSERT INTO wasmloop.module VALUES ('m{k}', decode('{data.hex()}', 'hex'));"
    for name, takes, gives, exports, given in FUNCTIONS:
        for export in exports:
            yield f"CREATE FUNCTION {name}{k}({takes}) RETURNS {gives} LANGUAGE wasmloop AS 'm{k}.{export}';"
            yield f"SELECT count(v) FROM (SELECT generate_series(1, 10) AS x) y, {name}{k}({given}) AS v;"
            yield f"DROP FUNCTION {name}{k};"
    yield f"DELETE FROM wasmloop.module WHERE name = 'm{k}';"


def postgres(where: str, folder: str) -> bool:
    def session(part: list[tuple[int, pathlib.Path]]) -> tuple[bool, Counter[str]]:
        script = ["SELECT pg_backend_pid();"] + [s for k, path in part for s in statements(k, path.read_bytes())] + ["SELECT pg_backend_pid();"]
        psql = ["psql", "-X", "-q", "-A", "-t", "-v", "VERBOSITY=sqlstate", "-h", where, "-U", "postgres", "postgres"]
        ran = subprocess.run(psql, input="\n".join(script), capture_output=True, text=True)
        lines = ran.stdout.split()
        return lines[0] == lines[-1], collections.Counter(re.findall(r"ERROR:  (\w+)", ran.stderr)) + collections.Counter(returned=len(lines) - 2)
    numbered = list(enumerate(modules(folder)))
    with concurrent.futures.ThreadPoolExecutor(2) as pool:
        same, counts = zip(*pool.map(session, [numbered[0::2], numbered[1::2]]))
    print(f"postgres: {len(numbered)} modules, sessions that lived: {sum(same)} of 2; outcomes: {dict(sum(counts, collections.Counter()))}")
    return all(same)


def nginx(conf: str, pid: str, port: str, folder: str) -> bool:
    text = pathlib.Path(conf).read_text()
    # (4: it has run, and did not return; another status: it is rejected, or has no uv_work)
    tried = [(p, subprocess.run([TOP / "dist/wasmloop", "work", p, "0", "--fuel", "0"], capture_output=True).returncode) for p in modules(folder)]
    accepted = [p for p, status in tried if status in (0, 4)]
    places = "".join(f"location /m{k} {{ wasmloop {p} {k % 7}; wasmloop_time 100ms; }}\n" for k, p in enumerate(accepted))
    pathlib.Path(conf).write_text(text.replace("#RANDOM", places))

    def requests(numbers: list[int]) -> Counter[int | str]:
        random.seed(numbers[0])
        codes: Counter[int | str] = collections.Counter()
        connection = http.client.HTTPConnection("127.0.0.1", int(port), timeout=20)
        for k in numbers:
            for size in (0, 5, random.randrange(65536)):
                try:
                    connection.request("POST", f"/m{k}", bytes(random.randrange(256) for _ in range(min(size, 100))) * max(1, size // 100))
                    answer = connection.getresponse()
                    answer.read()
                    codes[answer.status] += 1
                except (OSError, http.client.HTTPException):        # an old worker that has ended closes what it keeps alive
                    connection.close()
                    codes["closed"] += 1
        return codes
    os.kill(int(pid), signal.SIGHUP)
    time.sleep(2)
    with concurrent.futures.ThreadPoolExecutor(8) as pool:
        parts = [list(range(len(accepted)))[k::8] for k in range(8)]
        done = [pool.submit(requests, part) for part in parts if part]
        for _ in range(3):
            time.sleep(1)
            os.kill(int(pid), signal.SIGHUP)
        codes: Counter[int | str] = sum((d.result() for d in done), collections.Counter())
    print(f"nginx: {len(modules(folder))} modules, {len(accepted)} accepted; answers: {dict(codes)}")
    return codes[404] == 0 and codes["closed"] < 100


def redis(where: str, folder: str) -> bool:
    server = socket.socket(socket.AF_UNIX)
    server.connect(where)
    file = server.makefile("rb")
    counts: Counter[str] = collections.Counter()

    def command(*words: bytes) -> str:
        server.sendall(b"*%d\r\n" % len(words) + b"".join(b"$%d\r\n%s\r\n" % (len(w), w) for w in words))
        line = file.readline()
        if line[:1] == b"$" and line != b"$-1\r\n":
            file.read(int(line[1:]) + 2)
        assert line, "the server has closed the connection"
        return line.split(b",")[0].split(b":")[0].strip().decode() if line[:1] == b"-" else "done"
    for path in modules(folder):
        loaded = command(b"wl.load", b"m", path.read_bytes(), b"10000000", b"20")
        counts[loaded] += 1
        for op in OPS if loaded == "done" else ():
            counts[command(b"wl.call", b"m", b"%d" % op, b"x" * (op * 1000))] += 1
    print(f"redis: {len(modules(folder))} modules; answers: {dict(counts)}")
    return True


if __name__ == "__main__":
    if len(sys.argv) < 4 or sys.argv[1] not in ("make", "postgres", "nginx", "redis"):
        sys.exit(__doc__)
    sys.exit(0 if globals()[sys.argv[1]](*sys.argv[2:]) in (None, True) else 1)
