"""Sends the requests of forms.txt: whole, byte by byte, and cut anywhere. Each must get its status; what is refused must end the connection, so that
the request behind it is not served, and behind what is accepted the next one must be.

usage: forms.py PORT [FILE [SEED]]     PORT: of a server with guests/hello.c as a tenant, on 127.0.0.1
"""
import pathlib
import random
import re
import socket
import sys
import time
from collections.abc import Iterator

PORT = int(sys.argv[1])
FILE = pathlib.Path(sys.argv[2] if sys.argv[2:] else pathlib.Path(__file__).with_name("forms.txt"))
chance = random.Random(int((*sys.argv[3:4], "46")[0]))
BEHIND = b"POST /hello HTTP/1.1\r\nHost: x\r\nConnection: close\r\nContent-Length: 6\r\n\r\nbehind"


def forms() -> Iterator[tuple[int, str, bytes]]:
    """The status, the name and the bytes of each block."""
    for block in re.split(r"\n\n+", FILE.read_text("ascii")):
        lines = [it for it in block.strip("\n").split("\n") if not it.startswith("# ")]
        if lines[:1] not in ([], [""]):
            yield int(lines[0][:3]), lines[0][4:], "".join(lines[1:]).encode().decode("unicode_escape").encode("latin-1")


def pieces(data: bytes, how: str) -> Iterator[bytes]:
    """The data whole, byte by byte, or in two pieces."""
    cuts = {"whole": list[int](), "bytes": list(range(1, len(data)))}.get(how, [chance.randrange(1, len(data))])
    for begin, end in zip([0, *cuts], [*cuts, len(data)]):
        yield data[begin:end]


def answers(data: bytes, how: str) -> bytes:
    """All that the server sends until it closes the connection."""
    got = b""
    with socket.create_connection(("127.0.0.1", PORT), 60) as link:
        link.setsockopt(socket.IPPROTO_TCP, socket.TCP_NODELAY, 1)
        try:
            for part in pieces(data, how):
                link.sendall(part)
                if how == "cut":
                    time.sleep(0.002)
            while part := link.recv(65536):
                got += part
        except OSError:
            pass  # it was refused before all of it had arrived
    return got


def is_right(status: int, data: bytes, got: bytes) -> bool:
    """Whether these are the answers: one that ends the connection, or two."""
    told = [int(it) for it in re.findall(rb"HTTP/1\.1 (\d+) ", got)]
    if status == 405:
        return told[:1] == [405]
    if status != 200:
        return told == [status] and b"\r\nConnection: close\r\n" in got
    if b"HTTP/1.0" in data:
        return told == [200] and b"behind" not in got
    return told == [200, 200] and got.endswith(b"\r\n\r\nhello, behind") and (b"hello, me" in got or not data.endswith(b"me"))


def main() -> int:
    bad, all_forms = 0, list(forms())
    for status, what, data in all_forms:
        for how in "whole", "bytes", "cut", "cut", "cut":
            got = answers(data + BEHIND, how)
            if not is_right(status, data, got):
                bad += 1
                print(f"forms: {what}, {how}: {data!r}: expected {status}, found {got[:300]!r}", file=sys.stderr)
    refused = sum(it[0] in (400, 501) for it in all_forms)
    print(f"forms: {len(all_forms)} forms of requests, {refused} of them refused, each in five ways, {bad} wrong")
    return 1 if bad or refused < 150 or len({it[2] for it in all_forms}) < len(all_forms) else 0


if __name__ == "__main__":
    sys.exit(main())
