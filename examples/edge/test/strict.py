"""A strict client on h11, an HTTP/1.1 parser that others wrote: it sends random well-formed requests in random pieces; h11 must accept each response.

usage: strict.py PORT [COUNT [SEED]]     PORT: of a server whose tenants are those of guests/, on 127.0.0.1; COUNT: connections (300)
"""
import random
import socket
import sys
from collections.abc import Iterator
from importlib.metadata import version

import h11

PORT, COUNT = int(sys.argv[1]), int((*sys.argv[2:3], "300")[0])
chance = random.Random(int((*sys.argv[3:4], "45")[0]))
PAGES = "/-/metrics", "/-/tenants", "/-/nothing", "/-/"
TENANTS = "/hello", "/crc32", "/trap/0", "/spin", "/nobody", "/hello/x", "/limiter/ask", "/limiter/send/0"


def request() -> tuple[h11.Request, list[bytes]]:
    """A random request, and its body's parts."""
    method, body = chance.choice(("POST", "POST", "POST", "GET", "HEAD", "PUT", "DELETE", "OPTIONS")), list[bytes]()
    path = chance.choice(PAGES if method in ("GET", "HEAD") and chance.random() < 0.7 else TENANTS)
    heads = [("Host", "x"), ("X-Long", "y" * chance.choice((0, 1, 500, 4000)))]
    if method in ("POST", "PUT"):
        body = [bytes(chance.choice((1, 7, 300, 9000))) for _ in range(chance.randrange(4))]
        heads.append(chance.choice((("Content-Length", str(sum(map(len, body)))), ("Transfer-Encoding", "chunked"))))
        heads += [("Expect", "100-continue")] * (chance.random() < 0.3)
    heads += [("Connection", "close")] * (chance.random() < 0.1)
    return h11.Request(method=method, target=path, headers=heads), body


def pieces(data: bytes) -> Iterator[bytes]:
    while data:
        size = chance.choice((1, 3, 50, 2000, len(data)))
        yield data[:size]
        data = data[size:]


def answer(link: socket.socket, peer: h11.Connection) -> list[int]:
    """The statuses of a response: the final one, maybe after 100."""
    statuses = []
    while True:
        event = peer.next_event()
        if event is h11.NEED_DATA:
            peer.receive_data(link.recv(65536))
        elif isinstance(event, (h11.InformationalResponse, h11.Response)):
            statuses.append(event.status_code)
        elif isinstance(event, (h11.EndOfMessage, h11.ConnectionClosed)):
            return statuses
        elif event is h11.PAUSED:
            raise ValueError("bytes after the response")


def dialogue() -> list[tuple[str, str, list[int]]]:
    """Requests on one connection, at most eight: the method, the path and the statuses of each."""
    peer, told = h11.Connection(h11.CLIENT), list[tuple[str, str, list[int]]]()
    with socket.create_connection(("127.0.0.1", PORT), 60) as link:
        link.setsockopt(socket.IPPROTO_TCP, socket.TCP_NODELAY, 1)
        while len(told) < 8 and peer.our_state is h11.IDLE:
            ask, body = request()
            data = b"".join(peer.send(it) or b"" for it in (ask, *(h11.Data(data=part) for part in body), h11.EndOfMessage()))
            try:
                for part in pieces(data):
                    link.sendall(part)
            except OSError:
                pass  # rejected before its body has arrived
            told.append((ask.method.decode(), ask.target.decode(), answer(link, peer)))
            if peer.our_state is h11.DONE and peer.their_state is h11.DONE:
                peer.start_next_cycle()
    return told


def main() -> int:
    seen, bad = dict[int, int](), 0
    for _ in range(COUNT):
        try:
            for method, path, statuses in dialogue():
                seen[statuses[-1]] = seen.get(statuses[-1], 0) + 1
                if len(statuses) > 2 or statuses[:-1] not in ([], [100]):
                    raise ValueError(f"{method} {path}: {statuses}")
        except (h11.ProtocolError, ValueError, OSError, IndexError) as error:
            bad += 1
            print(f"strict: {type(error).__name__}: {error}", file=sys.stderr)
    print(f"strict: {sum(seen.values())} answers by h11 {version('h11')}, {bad} of {COUNT} connections wrong; statuses {dict(sorted(seen.items()))}")
    return 1 if bad or not seen else 0


if __name__ == "__main__":
    sys.exit(main())
