"""Where the server listens: addresses of IPv4 and IPv6, UNIX sockets; and how its limits count who connects there."""
import contextlib
import os
import pathlib
import re
import shutil
import signal
import socket
import stat
import subprocess
import tempfile

from ports import UnixConnection, free_port
from server import EDGE, Server, check, read_head, until

GET = b"GET /-/nothing HTTP/1.1\r\nHost: x\r\n\r\n"
SHARE = 3  # connections that an address may have of 20, if it is the only one


def asked(*words: str) -> str:
    """What curl prints of a greeting."""
    return subprocess.run(["curl", "-s", "-m", "60", "-d", "you", *words], capture_output=True, text=True, check=False).stdout


def refused(*words: str) -> tuple[int, str]:
    """A server that should not start: its status and what it says."""
    try:
        done = subprocess.run([EDGE, *words], capture_output=True, text=True, check=False, timeout=60)
    except subprocess.TimeoutExpired:
        return 0, "it started"
    return done.returncode, done.stderr


def clients_of(s: Server) -> list[str]:
    return re.findall(r"client=(\S+) .*path=\"/hello\"", (s.folder / "access").read_text())


# ---- addresses ----


def several(room: pathlib.Path) -> None:
    """A server listens at as many addresses as it is given; each client's line has its address."""
    port, path = free_port(), room / "edge.sock"
    s = Server("-a", "127.0.0.1", "-a", f"[::1]:{port}", "-a", f"unix:{path}", "-a", "::1", hello="type text/plain\n")
    got = asked(f"http://127.0.0.1:{s.port}/hello"), asked(f"http://[::1]:{port}/hello"), asked(f"http://[::1]:{s.port}/hello")
    check(got == ("hello, you",) * 3, "three addresses", got)
    check(asked("--unix-socket", str(path), "http://x/hello") == "hello, you", "a UNIX socket")
    wanted = ["127.0.0.1", "::1", "::1", f"unix:{os.getuid()}"]
    until("the clients in the log", lambda: clients_of(s) == wanted)
    s.end()


def mapped() -> None:
    """An address of IPv4 that comes by IPv6 is one of IPv4, in the log and in the limits."""
    port = free_port()
    s = Server("-a", "127.0.0.1", "-a", f"[::]:{port}", "-c", "20", "-t", "300")
    check(asked(f"http://127.0.0.1:{port}/hello") == asked(f"http://[::1]:{port}/hello") == "hello, you", "both protocols by one socket")
    until("the clients of both in the log", lambda: clients_of(s) == ["127.0.0.1", "::1"])
    links = filled([(socket.AF_INET, ("127.0.0.1", s.port), "127.0.0.9")] * SHARE)
    check(status((socket.AF_INET, ("127.0.0.1", port), "127.0.0.9")) == 503, "an address that comes by both protocols")
    check(status((socket.AF_INET, ("127.0.0.1", port), "127.0.0.10")) == 404, "beside it")
    for it in links:
        it.close()
    s.end()


Place = tuple[socket.AddressFamily, tuple[str, int] | str, str]


def linked(place: Place) -> socket.socket:
    """A connection to an address, or a path, from another address."""
    family, to, by = place
    link = socket.socket(family)
    link.settimeout(60)
    if by:
        link.bind((by, 0))
    link.connect(to)
    return link


def filled(places: list[Place]) -> list[socket.socket]:
    """Connections that stand, each behind a response."""
    links = [linked(it) for it in places]
    for it in links:
        it.sendall(GET)
        check(read_head(it) == 404, "a connection within the share", places)
    return links


def status(place: Place) -> int:
    with linked(place) as link:
        link.sendall(GET)
        return read_head(link)


def counted(*more: str) -> dict[str, int]:
    """The status of one connection more than the share, for ::1 and for a UNIX socket, and beside both."""
    with tempfile.TemporaryDirectory() as room:
        path = f"{room}/edge.sock"
        s = Server("-a", "127.0.0.1", "-a", "::1", "-a", f"unix:{path}", "-c", "20", "-t", "300", *more)
        six: Place = (socket.AF_INET6, ("::1", s.port), "")
        unix: Place = (socket.AF_UNIX, path, "")
        links, got = filled([six] * SHARE), {}
        got["::1"], got["unix"] = status(six), status(unix)
        for it in links:
            it.close()
        until("they are gone", lambda: s.number("clients") == 1)
        links = filled([unix] * SHARE)
        got["unix too"], got["127.0.0.1"] = status(unix), status((socket.AF_INET, ("127.0.0.1", s.port), "127.0.0.9"))
        for it in links:
            it.close()
        s.end()
    return got


def shares() -> None:
    """Each address of IPv6 and each user of a UNIX socket has a share, unless they are a proxy's."""
    check(counted() == {"::1": 503, "unix": 404, "unix too": 503, "127.0.0.1": 404}, "shares of ::1 and a UNIX socket", counted())
    check(counted("-x", "::1") == {"::1": 404, "unix": 404, "unix too": 503, "127.0.0.1": 404}, "a proxy at ::1")
    check(counted("-x", "0:0::1", "-x", "unix") == {"::1": 404, "unix": 404, "unix too": 404, "127.0.0.1": 404}, "two proxies")


def words() -> None:
    """Which words are no addresses."""
    with tempfile.TemporaryDirectory() as room:
        for word in "1.2.3", "[::1", "[::1]:", "[::1]8080", "[::1]:65536", "127.0.0.1:0", "127.0.0.1:x", "localhost", "::1::2", "a" * 200, "":
            got = refused("-a", word, room)
            check(got == (1, f"edge: {word[:127]}: it is no address, or has no port from 1 to 65535\n"), "no address", word, got)
        check(refused(*["-a", "127.0.0.1"] * 17, room)[0] == 2, "more addresses than may be")
        for option in ("-x", "127.0.0"), ("-x", "local"), ("-m", "8"), ("-m", "1777"), ("-m", "0"):
            check(refused(*option, room)[0] == 2, "no word of an option", option)
        with socket.create_server(("::1", 0), family=socket.AF_INET6) as taken:
            port = taken.getsockname()[1]
            got = refused("-a", f"[::1]:{port}", room)
            check(got == (1, f"edge: ::1, port {port}: address already in use\n"), "a port of IPv6 that is taken", got)


# ---- UNIX sockets ----


def answers(path: pathlib.Path) -> bool:
    with contextlib.closing(UnixConnection(str(path))) as link, contextlib.suppress(OSError):
        link.request("GET", "/-/health")
        return link.getresponse().read() == b"ok\n"
    return False


def modes(room: pathlib.Path) -> None:
    """A socket has its mode, and is removed at the end; what was there before is not."""
    for mode, options in (0o660, ()), (0o600, ("-m", "600")), (0o666, ("-m", "666")):
        path = room / f"{mode:o}"
        s = Server("-a", "127.0.0.1", "-a", f"unix:{path}", *options)
        check(stat.S_IMODE(path.stat().st_mode) == mode and answers(path), "the mode of a socket", oct(path.stat().st_mode))
        s.end()
        check(not path.exists(), "a socket is removed at the end")


def in_the_way(room: pathlib.Path) -> None:
    """A socket whose server was killed is replaced; one in use, and a file, are not."""
    path, folder = room / "edge.sock", str(room)
    s = Server("-a", "127.0.0.1", "-a", f"unix:{path}")
    got = refused("-a", f"unix:{path}", folder)
    check(got == (1, f"edge: unix:{path}: another server listens there\n") and answers(path), "a socket in use", got)
    s.process.send_signal(signal.SIGKILL)
    s.process.communicate()
    check(path.exists() and not answers(path), "a socket that a killed server leaves")
    until("a server that replaces it", s.listens)
    check(answers(path), "a socket that is replaced")
    s.end()
    (room / "file").write_text("kept")
    got = refused("-a", f"unix:{room}/file", folder)
    check(got == (1, f"edge: unix:{room}/file: a file that is no socket has this name\n") and (room / "file").read_text() == "kept", "a file", got)
    long = f"{room}/{'a' * 108}"
    for name, text in (long, "the path is too long"), (f"{room}/none/edge", "no such file or directory"), ("", "no such file or directory"):
        got = refused("-a", f"unix:{name}", folder)
        check(got == (1, f"edge: {f'unix:{name}'[:127]}: {text}\n"), "no path of a socket", got)


def two_servers(room: pathlib.Path) -> None:
    """A server removes no socket but its own; and its own too, if it can't listen elsewhere."""
    path = room / "edge.sock"
    first = Server("-a", "127.0.0.1", "-a", f"unix:{path}")
    check(answers(path), "its own socket")
    path.unlink()
    second = Server("-a", "127.0.0.1", "-a", f"unix:{path}")
    first.end()
    check(answers(path), "a socket of another server is not removed")
    got = refused("-a", f"unix:{room}/own", "-a", f"127.0.0.1:{second.port}", str(room))
    check(got == (1, f"edge: 127.0.0.1, port {second.port}: address already in use\n"), "one of two addresses is taken", got)
    check(not (room / "own").exists(), "the other is given back")
    second.end()
    check(not path.exists(), "it is removed by its own")


def listeners() -> None:
    with tempfile.TemporaryDirectory() as name:
        room = pathlib.Path(name)
        if shutil.which("curl"):
            several(room)
            mapped()
        else:
            print("test: left out: addresses in the log, since there is no curl")
        modes(room)
        in_the_way(room)
        two_servers(room)
    shares()
    words()


# ---- addresses of networks, in a namespace of its own ----


def networks() -> None:
    """The addresses of one /64 count together, those of another one apart; the log has each."""
    subprocess.run(["ip", "link", "set", "lo", "up"], check=True)
    same = [f"2001:db8:0:7:{n}::{n}" for n in range(1, SHARE + 2)]
    for address in ("2001:db8::1", *same, "2001:db8:0:8::9", "2001:db8:1:7::9"):
        subprocess.run(["ip", "-6", "address", "add", f"{address}/128", "dev", "lo", "nodad"], check=True)
    s = Server("-a", "::", "-c", "20", "-t", "300")
    at = ("2001:db8::1", s.port)
    links = filled([(socket.AF_INET6, at, it) for it in same[:SHARE]])
    check(status((socket.AF_INET6, at, same[SHARE])) == 503, "one address of a /64 more than its share")
    check(status((socket.AF_INET6, at, "2001:db8:0:8::9")) == 404, "an address of another /64")
    check(status((socket.AF_INET6, at, "2001:db8:1:7::9")) == 404, "an address of another /48")
    for it in links:
        it.close()
    until("the addresses in the log", lambda: "client=2001:db8:0:7:2::2 " in (s.folder / "access").read_text())
    s.end()
