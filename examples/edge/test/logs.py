"""The access log: the client and the outcome of each request, as key=value and as JSON, whatever bytes a request has."""
import json
import re
import time
from collections.abc import Callable

from server import ENDLESS, Server, broken_too, check, head, read_head, until

HOSTILE = bytes([9, *range(32, 127), *range(128, 256)])  # all bytes that a header's value may have
KEYS = {"at": str, "request": int, "client": str, "forwarded": str, "method": str, "path": str, "status": int, "outcome": str, "in": int, "out": int,
        "us": int, "fuel": int}
Line = dict[str, str | int]


def by_json(line: str) -> Line:
    got: Line = json.loads(line)
    return got


def by_keys(line: str) -> Line:
    """A line of key=value; what stands between quotes is as in JSON."""
    pairs = re.findall(r'(\w+)=("(?:[^"\\]|\\.)*"|\S+)', line)
    return {key: json.loads(value) if value[0] == '"' else int(value) if KEYS[key] is int else value for key, value in pairs}


def outcomes(s: Server) -> dict[str, tuple[int, str]]:
    """Sends a request for each outcome: what its line must say."""
    with s.connect() as link:
        link.sendall(b"POST /slow/499 HTTP/1.1\r\nHost: x\r\nContent-Length: 0\r\n\r\n")
        until("one that runs", lambda: s.number("tenant_tasks", "slow", are="running") == 1)
    until("one whose client left", lambda: s.number("requests_total", "slow", outcome="gone") == 1)
    wanted = {"/slow/499": (499, "gone"), "/hello/200": (200, "done"), "/trap/0": (500, "trap"), "/deep/500": (500, "depth"), "/spin/504": (504, "spent"),
              "/late/504": (504, "late"), "/broken/500": (500, "refused"), "/none/404": (404, "refused"), "/hello/x": (400, "refused")}
    for path, (status, _) in wanted.items():
        if status != 499:
            check(s.ask(path)[0] == status, "a status", path)
    check(s.ask("/-/tenants?x=1", None, "GET")[0] == 200 and s.ask("/-/nothing", None, "GET")[0] == 404, "pages")
    return {**wanted, "/-/tenants?x=1": (200, "done"), "/-/nothing": (404, "refused")}


def forwarding(s: Server) -> list[str]:
    """Sends requests with hostile bytes, by a proxy and not: what the lines must have of them."""
    post = b"POST /hello/%d HTTP/1.1\r\nConnection: close\r\nHost: x\r\nUser-Agent: " + HOSTILE.replace(b"%", b"%%") + b"\r\n%sContent-Length: 0\r\n\r\n"
    value = HOSTILE.strip(b" \t")
    cases = [(b"X-Forwarded-For: " + value[:150] + b"\r\n", value[:150]), (b"x-FORWARDED-for:" + value[-150:] + b"\r\n", value[-150:]),
             (b"X-Empty:\r\nX-Forwarded-For: 2001:db8::1\r\nX-Forwarded-For: \"10.0.0.1\\\r\n", b"2001:db8::1, \"10.0.0.1\\"),
             (b"X-Forwarded-For: 1\t2\r\n", b"1\t2"), (b"X-Forwarded-For: " + b"\"" * 9000 + b"\r\n", b"\"" * 159),
             (b"X-Forwarded-For2: 1\r\nX-Forwarded-Fo: 2\r\nForwarded: 3\r\n", b"")]
    for by in "127.0.0.5", "127.0.0.1":
        for n, (header, _) in enumerate(cases):
            check(head(s.raw(post % (n, header), by)) == 200, "a request with hostile bytes", header)
    kept(s)
    for path in b"/\"", b"/\xff\xfe", b"/\\u0000", b"/a\x7f", b"/\x1b[2J":
        check(head(s.raw(b"POST " + path + b" HTTP/1.1\r\nHost: x\r\n\r\n")) == 400, "a path with hostile bytes", path)
    return [it.decode("latin-1") for _, it in cases] + ["a\\b", ""]


def kept(s: Server) -> None:
    """Two requests of a proxy's connection: the first comes in pieces, with a header that no trailer changes; the second has nothing of the first."""
    pieces = [b"POST /spin HTTP/1.1\r\nHost: x\r\nTransfer-Encoding: chunked\r\nX-Forw", b"arded-For: a", b"\\b\r\n\r\n0\r\nX-Forwarded-For: no\r\n\r\n"]
    with s.connect("127.0.0.5") as link:
        for it in pieces:
            link.sendall(it)
            time.sleep(0.1)
        check(read_head(link) == 504, "one that comes in pieces")
        link.sendall(b"GET /-/health HTTP/1.1\r\nHost: x\r\n\r\n")
        check(read_head(link) == 200, "one behind it")


def check_lines(lines: list[Line], wanted: dict[str, tuple[int, str]], forwarded: list[str]) -> None:
    check(lines and all({key: type(value) for key, value in it.items()} == KEYS for it in lines), "the keys of a line", lines[:1])
    for path, what in wanted.items():
        got = [(it["status"], it["outcome"], it["client"], it["forwarded"]) for it in lines if it["path"] == path]
        check(got == [(*what, "127.0.0.1", "")], "the line of an outcome", path, got)
    by_proxy = [it["forwarded"] for it in lines if it["client"] == "127.0.0.5"]
    check([it["outcome"] for it in lines if it["client"] == "127.0.0.5"][-2:] == ["spent", "done"], "the outcomes of two requests of a connection")
    check(by_proxy == forwarded, "whom a proxy forwards", *zip(by_proxy, forwarded))
    check(not any(it["forwarded"] for it in lines if it["client"] != "127.0.0.5"), "what others say is not told")


def written(read: Callable[[str], Line], *options: str) -> None:
    """Sends all that, and reads what was written of it, which must be ASCII."""
    s = Server(*options, "-x", "127.0.0.5", spin="fuel 1000000\n", slow=f"{ENDLESS}deadline 3600000\n", late=f"{ENDLESS}deadline 100\n", deep="depth 32\n")
    wanted, forwarded = outcomes(s), forwarding(s)
    s.ask("/hello/last")
    until("the last line", lambda: "/hello/last" in (s.folder / "access").read_text("ascii"))
    check_lines([read(it) for it in (s.folder / "access").read_text("ascii").splitlines()], wanted, forwarded)
    s.end()


def logs() -> None:
    broken_too()
    written(by_keys)
    written(by_json, "-j")
