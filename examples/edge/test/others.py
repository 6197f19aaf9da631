"""The page in a browser, edge.py, and requests by scripts of this folder, some of which others wrote."""
import contextlib
import os
import re
import resource
import subprocess
import tempfile

from functions import hogs, lines, methods, queues
from server import DIVISION, ENDLESS, GUESTS, HERE, HOG, Server, broken_too, check, put, read_head, until


def page() -> None:
    """The page in a browser: a row for each tenant, no p99 above the worst, the last failure, and a timeline."""
    s = Server(hello="type text/plain\n")
    for path in ("/hello",) * 20 + ("/trap", "/limiter/ask"):
        s.ask(path)
    until("a timer of the loop", lambda: b"run timer" in s.ask("/-/log/limiter", None, "GET")[1])
    got = ""

    def look() -> bool:
        """A busy machine's browser may give up."""
        nonlocal got
        with tempfile.TemporaryDirectory(ignore_cleanup_errors=True) as home, contextlib.suppress(subprocess.TimeoutExpired):
            got = subprocess.run(["chromium", "--headless", "--no-sandbox", "--disable-gpu", "--disable-dev-shm-usage", f"--user-data-dir={home}",
                                  "--virtual-time-budget=3000", "--dump-dom", f"http://127.0.0.1:{s.port}/-/"],
                                 capture_output=True, text=True, check=False, timeout=120).stdout
        return 'data-ready="3"' in got

    until("the page in a browser", look, 180)
    rows = re.findall(r"<tr>(.*?)</tr>", got.split("<tbody", 1)[-1].split("</tbody", 1)[0], re.S)
    cells = {re.sub("<.*?>", "", (it := re.findall(r"<td[^>]*>(.*?)</td>", row, re.S))[0]): it for row in rows}
    check(set(cells) == {"hello", "trap", "limiter"}, "rows of the page", got[-2000:])

    def seconds(text: str) -> float:
        number, unit = text.split(" of ")[0].split()
        return float(number) * {"ms": 1e-3}.get(unit, 1e-6)

    for name, it in cells.items():
        check(it[1] == "ready" and seconds(it[5]) <= seconds(it[6]), "p99 above the worst", name, it)
    for name, wanted in ("hello", (False, True, False)), ("trap", (True, True, False)):
        check(tuple(" of " in text for text in cells[name][4:7]) == wanted, "of how many answers p50 and p99 are", name, cells[name])
    check("division by zero" in cells.get("trap", [""])[-1], "the last failure in the page", cells)
    check("<svg" in got and "loop 0 run timer" in got, "the timeline in the page", got[-500:])
    s.end()


def alike(s: Server) -> None:
    """edge.py reports a failure as the server in C does."""
    other = Server(spin="fuel 1000000\n")
    for path in "/trap/0", "/trap/1", "/trap/2", "/deep", "/spin":
        got = [(status, text, [heads[f"Wasmloop-{it}"] for it in ("Outcome", "Value", "Fuel")]) for status, text, heads in (it.ask(path) for it in (s, other))]
        check(got[0] == got[1], "two servers alike", path, *got)
    other.end()


def unreadable(s: Server) -> None:
    """edge.py reads a file that it could not read again; meanwhile the old one serves, and a tenant without one says why it fails. A FIFO stops nothing."""
    hello, crc = (GUESTS / "hello.wasm").read_bytes(), (GUESTS / "crc32.wasm").read_bytes()
    put(s, "mine.wasm", hello)
    for name in "fifo.wasm", "unset.conf":
        os.mkfifo(s.folder / name)
    put(s, "unset.wasm", hello)
    s.wants("a FIFO as a module", 500, "fifo.wasm is not a regular file", "/fifo")
    s.wants("a FIFO as limits", 500, "unset.conf is not a regular file", "/unset")
    put(s, "unset.conf", b"type text/html")
    check(s.ask("/unset", b"abc")[2]["Content-Type"] == "text/html", "limits in place of a FIFO")
    with contextlib.closing(s.link()) as link:

        def ask() -> bytes:
            link.request("POST", "/mine", b"abc")
            answer = link.getresponse()
            got: bytes = answer.read() + answer.headers["Content-Type"].encode()
            return got

        check(ask() == b"hello, abctext/plain", "before")
        most = resource.prlimit(s.process.pid, resource.RLIMIT_NOFILE)
        resource.prlimit(s.process.pid, resource.RLIMIT_NOFILE, (1, most[1]))
        put(s, "mine.wasm", crc)
        put(s, "mine.conf", b"type text/html")
        check(ask() == b"hello, abctext/plain", "without descriptors")
        resource.prlimit(s.process.pid, resource.RLIMIT_NOFILE, most)
        check(ask() == b"\x35\x24\x41\xc2text/html", "files that could not be read are read again")


def python() -> None:
    """edge.py, for which WASMLOOP_LIBRARY and PYTHONPATH must name the library."""
    broken_too()
    s = Server(python=True, hog=HOG, spin="fuel 1000000\n", slow=f"{ENDLESS}queue 2\nrun 1\ndeadline 2000\n", late=f"{ENDLESS}run 1\ndeadline 2000\n",
               hello="type text/plain\n", mine="type text/plain\n")
    s.wants("greeting", 200, "^hello, you$", "/hello", b"you")
    s.wants("no tenant", 404, "no such tenant", "/nobody")
    s.wants("division", 500, DIVISION, "/trap/0")
    s.wants("memory", 500, "an access outside the memory", "/trap/1")
    s.wants("depth", 500, "depth", "/deep")
    s.wants("fuel", 504, "spent, after 1000000 units", "/spin")
    methods(s)
    lines(s)
    alike(s)
    hogs(s)
    s.wants("no module", 500, "broken: ", "/broken")
    s.wants("no work", 404, "exports no uv_work", "/ticker")
    s.wants("an operation too great", 400, "an operation", "/hello/4294967296")
    s.wants("the longest body", 200, "", "/crc32", bytes(65536))
    s.wants("a longer body", 413, "", "/crc32", bytes(65537))
    queues(s)
    unreadable(s)
    put(s, "hello.wasm", (GUESTS / "crc32.wasm").read_bytes())
    until("a new module", lambda: s.ask("/hello", b"abc")[1] == b"\x35\x24\x41\xc2")
    put(s, "hello.wasm", b"no module")
    s.wants("a bad module", 200, re.escape(b"\x35\x24\x41\xc2"), "/hello", b"abc")
    check(s.number("requests_total", "spin", outcome="spent") == 2, "numbers")
    links = [s.connect() for _ in range(2)]
    for it in links:
        it.sendall(b"POST /late HTTP/1.1\r\nHost: x\r\nContent-Length: 1\r\n\r\nx")
    until("a request of the last", lambda: ("edge_fuel_units_total", 'tenant="late"') in s.metrics())
    for _ in range(5):
        s.metrics()  # both were sent before: both have come when the last of these is answered
    s.end()
    got = [read_head(it) for it in links]
    check(set(got) <= {504, 503}, "the end", got)


def by_script(what: str, script: str, *words: str, options: tuple[str, ...] = ()) -> None:
    """A script that is a client of the server: its last line is printed."""
    s = Server(*options, hello="type text/plain\n")
    done = subprocess.run(["/usr/bin/python3", HERE / script, str(s.port), *words], capture_output=True, text=True, check=False)
    print(*done.stdout.strip().splitlines()[-1:], flush=True)
    check(done.returncode == 0, what, *(it for it in done.stderr.splitlines() if it.startswith(script[:-3])))
    s.end()


def forms() -> None:
    """Forms of requests that RFC 9112 refuses, and some that it doesn't."""
    by_script("forms of requests", "forms.py")


def strict() -> None:
    """A strict client on h11, a parser that others wrote."""
    by_script("a strict client", "strict.py", options=("-t", "60"))


def twisted() -> None:
    by_script("requests of Twisted's tests", "vectors.py", "twisted", options=("-t", "2"))


def h11() -> None:
    by_script("requests of h11's tests", "vectors.py", "h11", options=("-t", "2"))


def llhttp() -> None:
    by_script("requests of llhttp's tests", "vectors.py", "llhttp", os.environ["LLHTTP"], options=("-t", "2"))
