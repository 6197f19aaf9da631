"""A port for a server of a test, whether a server listens there, and a client of a UNIX socket."""
import contextlib
import http.client
import socket


def free_port() -> int:
    with socket.socket() as s:
        s.bind(("127.0.0.1", 0))
        port: int = s.getsockname()[1]
        return port


def connects(port: int) -> bool:
    """Asks from another address: a client that asks too early could be given the server's port, and so connect to itself."""
    with contextlib.suppress(OSError):
        socket.create_connection(("127.0.0.1", port), 60, ("127.0.0.2", 0)).close()
        return True
    return False


class UnixConnection(http.client.HTTPConnection):
    """A client of a UNIX socket, which waits so many seconds."""

    def __init__(self, path: str, seconds: float = 120) -> None:
        super().__init__("x", timeout=seconds)
        self.path = path

    def connect(self) -> None:
        self.sock = socket.socket(socket.AF_UNIX)
        self.sock.settimeout(self.timeout)
        self.sock.connect(self.path)
