"""The tables of MEASURED.md in one run: this server beside alternatives, on the same guests.

usage: run.py [--seconds S] [--rounds R] [--parts flat,rate,..] [--only edge,node,..] [--rates 100,1000] [--class "chrt -r 20"] EDGE LOAD GUESTS

EDGE and LOAD are the programs of edge.c and bench/load.c, GUESTS a folder of modules. It starts each server that is installed on a port of its own
(edge; py, where WASMLOOP_LIBRARY and PYTHONPATH lead to the library; node; lua: nginx with libnginx-mod-http-lua; fork: a process a request), says what is left
out, lets them take turns, and ends them.

    flat     wrk, eight connections, each asks again once it is answered
    rate     LOAD asks so many times a second, whatever the server does; a time counts from the moment that was due
    hostile  hello flat out and at 1,000 a second, alone and then beside four connections that ask a hostile tenant: answers a second and their ratio, p99
    cost     a thousand tenants of crc32: memory of each, a new file's first answer, its second
    exact    a guest that never ends, twenty times: how long, and after how many units
    wish     of EDGE and edge.py: how much later than their deadline of 20 ms three such guests are answered, 200 times each

and of EDGE alone

    plain    hello, beside EDGE over bench/plain.c, which has a C function in its place
    threads  hello and crc32 with one, two and four threads
    many     ten thousand tenants of crc32

A cell is the median over the rounds. --class puts servers and clients into a class of the scheduler, where others use the machine too.
"""
import contextlib
import functools
import os
import pathlib
import re
import shutil
import statistics
import subprocess
import time
from collections.abc import Callable, Iterable, Iterator

import common
from common import ask

HERE = pathlib.Path(__file__).resolve().parent
told = common.words(seconds=2, rounds=3, threads=3, parts="flat,rate,hostile,cost,exact,plain,wish,threads,many", only="edge,py,node,lua,fork",
                    rates="100,1000", hostile="spin,bomb,deep,huge,trap", many=1000, **{"class": ""})
ROOM = common.room()
PREFIX: list[str] = vars(told)["class"].split()
GUESTS = {"hello": 16, "crc32": 1024}
NEVER_END = {"spin": b"x", "bomb": b"x", "hog": bytes(65536)}
FOLDERS = {name: ROOM / ("lua" if name == "lua" else "py" if name == "fork" else "wasm") for name in told.only.split(",")}
NGINX_BYTES = 1 << 30  # of address space: its hook counts instructions, and each of bomb's makes a mebibyte, until the machine has none
SUFFIX = {"lua": ".lua", "py": ".py", "wasm": ".wasm"}
Command = list[str | pathlib.Path]
Program = subprocess.Popen[bytes]
Servers = dict[str, tuple[int, Program]]  # a port and who listens there
Figures = tuple[float, float, float, float, int]  # answers a second, p50, p99 and p99.9 in ms, and how many were refused
Measure = Callable[[int], Figures]  # of a port


# ---- servers ----


def nginx(port: int) -> Command:
    text = (HERE.parent / "other/nginx.conf.in").read_text()
    for name, value in {"DIR": ROOM, "PORT": port, "LUA": ROOM / "lua", "HOOK": "true"}.items():
        text = text.replace(f"@{name}@", str(value))
    (ROOM / "nginx.conf").write_text(text)
    return ["prlimit", f"--as={NGINX_BYTES}", "nginx", "-p", ROOM, "-c", ROOM / "nginx.conf"]


def missing(name: str) -> str | None:
    """Why a server can't be started, or None."""
    if name == "py" and not os.environ.get("WASMLOOP_LIBRARY"):
        return "WASMLOOP_LIBRARY is not set"
    if name in ("py", "fork") and subprocess.run(["/usr/bin/python3", "-c", "import aiohttp"], capture_output=True, check=False).returncode:
        return "there is no aiohttp"
    if name == "node" and not shutil.which("node"):
        return "there is no node"
    if name == "lua" and not (shutil.which("nginx") and pathlib.Path("/usr/lib/nginx/modules/ngx_http_lua_module.so").exists()):
        return "there is no nginx with Lua"
    return None


def start(name: str, port: int, threads: int = told.threads, program: pathlib.Path | None = None) -> Program:
    tenants, most = FOLDERS[name], str(threads)
    commands: dict[str, Callable[[], Command]] = {
        "edge": lambda: [program or told.edge, "-p", str(port), "-w", most, tenants],
        "py": lambda: ["/usr/bin/python3", HERE.parent / "edge.py", tenants, str(port), most],
        "node": lambda: ["node", HERE.parent / "other/node_edge.mjs", tenants, str(port), most, "50"], "lua": lambda: nginx(port),
        "fork": lambda: ["/usr/bin/python3", HERE.parent / "other/fork_edge.py", tenants, str(port), most]}
    with open(ROOM / "access", "w") as log:
        server = subprocess.Popen([*PREFIX, *commands[name]()], stdout=log.fileno() if name == "edge" else subprocess.DEVNULL, stderr=subprocess.DEVNULL)
    return common.listening(server, port)


def resident(pid: int) -> int:
    """The memory of a process and its children that is theirs alone, in KiB."""
    total = 0
    for it in pathlib.Path("/proc").glob("[0-9]*"):
        with contextlib.suppress(OSError):
            if it.name == str(pid) or common.memory(it.name, "PPid") == pid:
                total += common.memory(it.name, "RssAnon")
    return total


# ---- measures ----


def wrk(port: int, guest: str, seconds: int, connections: int) -> Command:
    length = GUESTS.get(guest, 16)
    path = ROOM / f"{length}.lua"
    path.write_text(f'wrk.method = "POST"\nwrk.body = string.rep("x", {length})\n'
                    'done = function(_, l) io.write(string.format("p %d %d %d\\n", l:percentile(50), l:percentile(99), l:percentile(99.9))) end\n')
    return [*PREFIX, "wrk", "-t1", f"-c{connections}", f"-d{seconds}", "--timeout", "10", "-s", path, f"http://127.0.0.1:{port}/{guest}"]


def found(pattern: str, text: str) -> re.Match[str]:
    """Where a pattern is that the text has."""
    match = re.search(pattern, text)
    assert match, (pattern, text)
    return match


def flat_out(port: int, guest: str) -> Figures:
    out = subprocess.run(wrk(port, guest, told.seconds, 8), capture_output=True, text=True, check=True).stdout
    refused = re.search(r"Non-2xx or 3xx responses: (\d+)", out)
    p50, p99, p999 = (int(it) / 1000 for it in found(r"(?m)^p (\d+) (\d+) (\d+)", out).groups())
    return float(found(r"Requests/sec:\s+([\d.]+)", out)[1]), p50, p99, p999, int(refused[1]) if refused else 0


def at_rate(port: int, guest: str, rate: int) -> Figures:
    words = ["-c", "64", "-d", str(told.seconds), "-r", str(rate), "-b", str(GUESTS[guest]), str(port), f"/{guest}"]
    out = subprocess.run(PREFIX + [told.load, *words], capture_output=True, text=True, check=False).stdout
    got = dict(zip((words := out.split())[::2], words[1::2]))
    good = int((re.search(r"status.* 200 (\d+)", out) or [0, 0])[1])
    p50, p99, p999 = (int(got[it]) / 1000 for it in ("p50", "p99", "p999"))
    return float(got["rate"]), p50, p99, p999, int(got["asked"]) - good


@contextlib.contextmanager
def beside(port: int, hostile: str) -> Iterator[None]:
    if not hostile:
        yield
        return
    other = subprocess.Popen(wrk(port, hostile, told.seconds + 1, 4), stdout=subprocess.DEVNULL, stderr=subprocess.DEVNULL)
    time.sleep(0.5)
    yield
    other.wait()


# ---- tables ----


def table(heads: list[str], rows: dict[str, list[str]]) -> None:
    print("\n| | " + " | ".join(heads) + " |\n" + "|---" * (len(heads) + 1) + "|")
    for name, cells in rows.items():
        print(f"| {name} | " + " | ".join(cells) + " |", flush=True)


def medians(got: Iterable[Figures]) -> list[float]:
    return [statistics.median(it) for it in zip(*got)]


def cell(got: list[Figures]) -> str:
    rate, p50, p99, p999, refused = medians(got)
    return f"{rate:,.0f}; {p50:.2f}, {p99:.2f}, {p999:.2f}" + (f" ({refused:.0f} refused)" if refused else "")


def turns(servers: Servers, heads: list[str], measures: list[Measure]) -> None:
    """Each measure of each server, in turns."""
    got: dict[tuple[str, int], list[Figures]] = {(name, k): [] for name in servers for k in range(len(measures))}
    for _ in range(told.rounds):
        for k, measure in enumerate(measures):
            for name, (port, _) in servers.items():
                got[name, k].append(measure(port))
    table(heads, {name: [cell(got[name, k]) for k in range(len(measures))] for name in servers})


def flat(servers: Servers) -> None:
    turns(servers, [f"{guest}, {length} bytes" for guest, length in GUESTS.items()], [functools.partial(flat_out, guest=guest) for guest in GUESTS])


def rate(servers: Servers) -> None:
    def measure(port: int, guest: str, hostile: str, rate: int) -> Figures:
        with beside(port, hostile):
            return at_rate(port, guest, rate)

    for rate in map(int, told.rates.split(",")):
        cells = [(guest, hostile) for guest in GUESTS for hostile in ("", "spin")]
        able = {name: it for name, it in servers.items() if name != "fork" or rate <= 100}
        turns(able, [f"{guest}{' beside ' + hostile if hostile else ''}, {rate:,} a second" for guest, hostile in cells],
              [functools.partial(measure, guest=guest, hostile=hostile, rate=rate) for guest, hostile in cells])


def settle(port: int) -> None:
    """What the last hostile tenant left is over, or ten seconds are: eight hellos in a row are answered at once."""
    end, good = time.monotonic() + 10, 0
    while good < 8 and time.monotonic() < end:
        *_, us = ask(port, "/hello")
        good = good + 1 if us < 20000 else 0


def pair(port: int, measure: Measure, hostile: str) -> tuple[Figures, Figures]:
    """What is measured alone, and beside a hostile tenant."""
    settle(port)
    before = measure(port)
    with beside(port, hostile):
        return before, measure(port)


def hostile(servers: Servers) -> None:
    """Hello alone and then beside each hostile tenant, which take turns: the ratio is the median of the turns' own."""
    names = told.hostile.split(",")
    for text, measure in (("flat out", functools.partial(flat_out, guest="hello")),
                          ("at 1,000 a second", functools.partial(at_rate, guest="hello", rate=1000))):
        got: dict[tuple[str, str], list[tuple[Figures, Figures]]] = {(name, it): [] for name in servers for it in names if name != "fork" or text == "flat out"}
        for _ in range(told.rounds):
            for (name, it), both in got.items():
                try:
                    both.append(pair(servers[name][0], measure, it))
                except OSError as error:
                    raise SystemExit(f"{name} does not answer hello after {it}, {text}: {error}") from error
        cells: dict[str, list[str]] = {}
        for (name, _), both in got.items():
            before, after = medians(it for it, _ in both), medians(it for _, it in both)
            ratio = statistics.median(it[0] / max(alone[0], 1) for alone, it in both)
            rates = f"{before[0]:,.0f} to {after[0]:,.0f}, {ratio:.3f}; " if text == "flat out" else ""
            cells.setdefault(name, []).append(f"{rates}{before[2]:.2f} to {after[2]:.2f}")
        table([f"{it}, {text}" for it in names], cells)


def tenants_of(name: str, port: int, server: Program, many: int) -> tuple[list[str], list[pathlib.Path]]:
    """What so many tenants of crc32 cost, each asked twice."""
    folder = FOLDERS[name]
    suffix = SUFFIX[folder.name]
    links = [folder / f"t{n}{suffix}" for n in range(many)]
    for _ in range(20):
        ask(port, "/crc32")
    before, first = resident(server.pid), []
    for it in links:
        shutil.copy(folder / f"crc32{suffix}", it)
        first.append(ask(port, f"/{it.stem}"))
    after = resident(server.pid)
    second = [ask(port, f"/{it.stem}") for it in links]
    bad = sum(status != 200 for status, *_ in first + second)
    us = [f"{statistics.median(it):,.0f}, {sorted(it)[len(it) * 99 // 100]:,.0f}" for it in ([us for *_, us in first], [us for *_, us in second])]
    return [f"{(after - before) / many:.1f} KiB", *us, f"{resident(server.pid) / 1024:.0f} MB" + (f", {bad} failed" if bad else "")], links


COSTS = ["a tenant of crc32", "a new file's first answer, p50, p99 us", "its second", "all memory"]


def cost(servers: Servers) -> None:
    rows: dict[str, list[str]] = {}
    for name, (port, server) in servers.items():
        rows[name], links = tenants_of(name, port, server, told.many)
        for it in links:
            it.unlink()
    table([COSTS[0] + f", {told.many:,} of them", *COSTS[1:]], rows)


@contextlib.contextmanager
def alone(threads: int = told.threads, program: pathlib.Path | None = None) -> Iterator[tuple[int, Program]]:
    port = common.ports.free_port()
    server = start("edge", port, threads, program)
    yield port, server
    server.terminate()
    server.wait()


def plain(_servers: Servers) -> None:
    subprocess.run([HERE / "plain.sh", ROOM / "plain"], check=True)
    got: dict[str, list[Figures]] = {"edge": [], "a C function": []}
    with alone() as (edge, _), alone(program=ROOM / "plain") as (c, _):
        for _ in range(2 * told.rounds):
            got["edge"].append(flat_out(edge, "hello"))
            got["a C function"].append(flat_out(c, "hello"))
    table(["hello, flat out"], {name: [cell(it)] for name, it in got.items()})
    print(f"\nof the C function's: {medians(got['edge'])[0] / medians(got['a C function'])[0]:.2f}")


def wish(servers: Servers) -> None:
    rows: dict[str, list[str]] = {name: [] for name in ("edge", "py") if name in servers}
    for guest, body in NEVER_END.items():
        (ROOM / f"wasm/wish{guest}.conf").write_text("fuel 1000000000000000\ndeadline 20\nrest 0\n")
        shutil.copy(ROOM / f"wasm/{guest}.wasm", ROOM / f"wasm/wish{guest}.wasm")
        for name, cells in rows.items():
            us = []
            for _ in range(200):
                us.append(ask(servers[name][0], f"/wish{guest}", body)[3] - 20000)
                time.sleep(0.02)  # else a real-time class has had its share of a processor, and the kernel stops it
            us.sort()
            cells.append(f"{us[100]:,.0f}, {us[198]:,.0f}, {us[199]:,.0f}")
    table([f"{guest} is answered later than its deadline by, p50, p99, worst us" for guest in NEVER_END], rows)


def threads(_servers: Servers) -> None:
    rows = {}
    for count in 1, 2, 4:
        with alone(count) as (port, _):
            rows[f"{count} threads"] = [cell([flat_out(port, guest) for _ in range(told.rounds)]) for guest in GUESTS]
    table(list(GUESTS), rows)


def many(_servers: Servers) -> None:
    with alone() as (port, server):
        cells, links = tenants_of("edge", port, server, 10000)
        paths = [f"/{it.stem}" for it in links]
        load = PREFIX + [told.load, "-c", "8", "-d", str(told.seconds), "-b", "1024", str(port), *paths]
        out = subprocess.run(load, capture_output=True, text=True, check=False).stdout
        table([*COSTS, "crc32 of 1 KiB by all in turn, flat out"], {"edge, 10,000 tenants": [*cells, out.split(" status")[0]]})


def exact(servers: Servers) -> None:
    rows = {}
    for name, (port, _) in servers.items():
        got = [ask(port, "/spin") for _ in range(20)]
        ms = [us / 1000 for *_, us in got]
        units = {heads.get("Wasmloop-Fuel") for _, _, heads, _ in got}
        statuses = " ".join(sorted({str(status) for status, *_ in got}))
        rows[name] = [f"{min(ms):.0f} to {max(ms):.0f} ms", statuses, ", ".join(str(it) for it in units if it) or "no"]
    table(["a guest that never ends takes", "status", "units, each time"], rows)


def main() -> None:
    if not shutil.which("wrk"):
        raise SystemExit("left out: all, there is no wrk")
    shutil.copytree(told.guests, ROOM / "wasm")
    shutil.copytree(HERE.parent / "other/lua", ROOM / "lua")
    shutil.copytree(HERE.parent / "other/py", ROOM / "py")
    servers: Servers = {}
    try:
        for name in told.only.split(","):
            if why := missing(name):
                print(f"left out: {name}: {why}", flush=True)
            else:
                port = common.ports.free_port()
                servers[name] = port, start(name, port)
        machine = f"{os.cpu_count()} processors, load {os.getloadavg()[0]:.1f}{', ' + ' '.join(PREFIX) if PREFIX else ''}"
        print(f"{told.seconds} s a cell, {told.rounds} rounds, {machine}", flush=True)
        for part in told.parts.split(","):
            globals()[part](servers)
    finally:
        for _, server in servers.values():
            server.terminate()
            server.wait()
        shutil.rmtree(ROOM)


if __name__ == "__main__":
    main()
