"""Others' requests: those that the tests of other HTTP parsers have are sent to this server, and that parser is the judge.

usage: vectors.py PORT twisted|h11 [-v]         those of the package, as its tests hand them to it
       vectors.py PORT llhttp FOLDER [-v]       those of the files FOLDER/test/request/*.md of llhttp's sources, with the result that stands there

PORT: of a server with guests/hello.c as a tenant, on 127.0.0.1; -v: prints each request and its status. What the judge accepts must be answered as a request
(200, or 404 and 405 where it asks for something else, or 408 where its end is missing), what it rejects with 4xx or 501. Request lines of the
right form are changed to those of the tenant, and HTTP/1.1 gets a Host. Of a connection the first request counts.
"""
import concurrent.futures
import importlib
import inspect
import io
import pathlib
import re
import socket
import sys
import unittest
from collections.abc import Callable
from typing import Any

# Tests of what the judge limits, and of forms in bodies: no rule of HTTP.
ITS_OWN = {
    "twisted": "TooBig|tooMany|tooLong|headerLimit|oversized|multipart|ConnectionLost|connectionLost|afterFinished",
    "h11": "max_incomplete",
    "llhttp": "^method: .*(RTSP|ICE|PRI|QUERY)",
}
# What this server rejects, as RFC 9112 demands or allows, and the judge doesn't: of this test, what has these bytes.
STRICTER = [
    ("test_chunkedEncoding", b"", "6.1: Transfer-Encoding in HTTP/1.0 is faulty framing"),
    ("test_transferEncodingIdentity", b"", "6.1 and 6.3: a coding other than chunked, with a Content-Length"),
    ("test_headerStripWhitespace", b"", "RFC 9110, 5.5: vertical tab and form feed are no part of a value"),
    ("test_headersMultiline", b"", "5.2: a folded header"),
    ("test_long", b"a;\r\n", "7.1.1: an extension has a name"),
    ("test_readers_unusual", b"multi-line\r\n ", "5.2: a folded header"),
    ("test_ChunkedReader", b"5   \t \r\n", "7.1: no blanks stand behind a chunk's size"),
    ("test_allow_some_garbage_in_cookies", b"\x01", "RFC 9110, 5.5: control bytes are no part of a value"),
    ("method: M-SEARCH request", b"", "3.2.4: only OPTIONS has a star as its target"),
    ("sample: No HTTP version", b"", "3: a request line has a version"),
    ("transfer-encoding: POST with `chunked` as last transfer-encoding", b"", "6.1: a coding that the server does not know is 501"),
    ("transfer-encoding: POST with `chunked` as last transfer-encoding (multiple headers)", b"", "6.1: the same"),
    ("uri: `host:port` and basic auth", b"", "RFC 9110, 4.2.4: a user in a URL is an error"),
]
CHUNKED = b"POST /hello HTTP/1.1\r\nHost: x\r\nTransfer-Encoding: chunked\r\n\r\n"
seen: list[tuple[str, bytes, bool | None]] = []  # (the test, what it sent, whether it is accepted, or None)


# ---- Twisted: its channel and its decoder of chunks are watched while its tests run ----


class Named(unittest.TestResult):
    of, test = "", ""

    def startTest(self, test: unittest.TestCase) -> None:
        super().startTest(test)
        Named.of, _, Named.test = test.id().rpartition(".")


def watch_requests(http: Any) -> None:
    feed, lose = http.HTTPChannel.dataReceived, http.HTTPChannel.connectionLost

    def fed(channel: Any, data: bytes) -> object:
        channel.__dict__.setdefault("sent", bytearray()).extend(data)
        return feed(channel, data)

    def lost(channel: Any, reason: object) -> object:
        if hasattr(channel, "sent") and isinstance(said := getattr(channel.transport, "value", bytes)(), bytes):
            seen.append((Named.test, bytes(channel.sent), not said.startswith(b"HTTP/1.1 400") if said else None))
        return lose(channel, reason)

    http.HTTPChannel.dataReceived, http.HTTPChannel.connectionLost = fed, lost


def watch_chunks(http: Any) -> None:
    feed, decoders = http._ChunkedTransferDecoder.dataReceived, dict[object, int]()

    def fed(decoder: Any, data: bytes) -> None:
        if not Named.of.endswith(".ChunkedTransferEncodingTests"):
            feed(decoder, data)
            return  # watched as a part of its request
        if decoder not in decoders:
            decoders[decoder] = len(seen)
            seen.append((Named.test, CHUNKED, None))
        test, sent, accepted = seen[decoders[decoder]]
        try:
            feed(decoder, data)
            accepted = accepted or (True if decoder.state == "FINISHED" else None)
        except http._MalformedChunkedDataError:
            accepted = False
            raise
        finally:
            seen[decoders[decoder]] = test, sent + data, accepted

    http._ChunkedTransferDecoder.dataReceived = fed


def of_twisted(_: str) -> str:
    http, tests = (importlib.import_module(f"twisted.web.{it}") for it in ("http", "test.test_http"))
    watch_requests(http)
    watch_chunks(http)
    unittest.defaultTestLoader.loadTestsFromModule(tests).run(Named(io.StringIO()))
    return f"Twisted {importlib.import_module('twisted').version.public()}"


# ---- h11: so are its reader of heads and the test of its reader of chunks ----


def watch_heads(h11: Any, test: Callable[[], str]) -> None:
    """Heads of requests; the body that one promises is put behind it."""
    place = h11._state.CLIENT, h11._state.IDLE
    read = h11._readers.READERS[place]

    def reads(buffer: Any) -> object:
        before = bytes(buffer)
        try:
            event = read(buffer)
        except h11.ProtocolError:
            seen.append((test(), before, False))
            raise
        if event is not None:
            length = re.search(rb"(?i)\r\ncontent-length: *(\d+)", before)
            body = b"0\r\n\r\n" if b"chunked" in before.lower() else bytes(int(length[1])) if length else b""
            seen.append((test(), before[:len(before) - len(buffer)] + body, True))
        return event

    h11._readers.READERS[place] = reads


def watch_bodies(h11: Any, tests: Any) -> None:
    """Chunks, and the body that is expected of them."""
    check = tests.t_body_reader

    def checks(thunk: Callable[[], object], data: bytes, expected: list[object], do_eof: bool = False) -> object:
        if isinstance(thunk(), h11._readers.ChunkedReader):
            seen.append(("test_ChunkedReader", CHUNKED + data, isinstance(expected[-1], h11.EndOfMessage)))
        return check(thunk, data, expected, do_eof)

    tests.t_body_reader = checks


def of_h11(_: str) -> str:
    h11 = importlib.import_module("h11")
    modules = [importlib.import_module(f"h11.tests.{it}") for it in ("test_io", "test_connection", "test_headers")]
    name = [""]
    watch_heads(h11, lambda: name[0])
    watch_bodies(h11, modules[0])
    for name[0], test in (it for module in modules for it in vars(module).items()):
        if name[0].startswith("test_") and not inspect.signature(test).parameters:
            test()
    return f"h11 {h11.__version__}"


# ---- llhttp: its tests are pages with requests and what its parser says ----


def unescaped(text: str) -> str:
    """A request as llhttp's test/md-test.ts reads it."""
    text = re.sub(r"\\(\r\n|\r|\n)", "", text.removesuffix("\n"))
    text = re.sub(r"\r\n|\r|\n", "\r\n", text)
    for letter, byte in ("r", "\r"), ("n", "\n"), ("t", "\t"), ("f", "\f"):
        text = text.replace("\\" + letter, byte)
    text = re.sub(r"\\x([0-9a-fA-F]+)", lambda it: chr(int(it[1], 16)), text)
    return re.sub(r"\\([0-7]{1,3})", lambda it: chr(int(it[1], 8)), text)


def of_llhttp(folder: str) -> str:
    block = re.compile(r'^#+ ([^\n]*)\n|^<!-- *meta=\{ *"type": *"request" *(?:, *"noScan": *true *)?\} *-->\n'
                       r'```http\n(.*?)```\n[^`]*```log\n(.*?)```', re.M | re.S)
    for page in sorted(pathlib.Path(folder, "test/request").glob("*.md")):
        name = ""
        for title, text, told in block.findall(page.read_text("utf-8")):
            name = title or name
            if text and "${" not in text:
                first = told.split("message complete")[0]
                seen.append((f"{page.stem}: {name}", unescaped(text).encode("latin-1", "replace"), "error code=" not in first))
    return "llhttp"


# ---- this server ----


def for_tenant(data: bytes, accepted: bool) -> bytes:
    """The same for the tenant; whole, though the judge stops reading where it rejects."""
    data = re.sub(rb"^((?:\r\n)*)(?:GET|HEAD|POST|PUT|DELETE|OPTIONS|PATCH) /[!-~]* HTTP/1", rb"\1POST /hello HTTP/1", data)
    if not re.search(rb"(?i)\nhost *:", data):
        data = data.replace(b" HTTP/1.1\r\n", b" HTTP/1.1\r\nHost: x\r\n", 1)
    return data if accepted else data + (b"\r\n0\r\n\r\n" if b"chunked\r\n\r\n" in data else b"\r\n\r\n")


def status(port: int, data: bytes) -> int | None:
    """The status of the first response, or None."""
    with socket.create_connection(("127.0.0.1", port), 60) as link:
        try:
            link.sendall(data)
        except OSError:
            pass  # rejected before all of it has arrived
        told = re.match(rb"HTTP/1\.[01] (\d+) ", link.recv(65536))
    return int(told[1]) if told else None


def main(port: int, judge: str, *words: str) -> int:
    told_of = {"twisted": of_twisted, "h11": of_h11, "llhttp": of_llhttp}[judge](words[0] if words else "")
    judged = [(test, data, accepted) for test, data, accepted in seen if accepted is not None and not re.search(ITS_OWN[judge], test)]
    vectors = sorted({(test, for_tenant(data, accepted), accepted) for test, data, accepted in judged})
    with concurrent.futures.ThreadPoolExecutor(16) as pool:
        statuses = list(pool.map(lambda it: status(port, it[1]), vectors))
    bad = 0
    for (test, data, accepted), got in zip(vectors, statuses):
        stricter = any(test == name and some in data for name, some, _ in STRICTER)
        good = got in (100, 200, 404, 405, 408) if accepted and not stricter else got is not None and 400 <= got <= 501 and got != 408
        bad += not good
        if "-v" in words or not good:
            text = f"vectors: {test}: {data[:200]!r}: {got}, {judge} {'accepts' if accepted else 'rejects'} it"
            print(text, file=sys.stdout if good else sys.stderr)
    rejected = sum(not accepted for *_, accepted in vectors)
    print(f"vectors: {len(vectors)} requests of the tests of {told_of}, {rejected} to be rejected, {bad} wrong")
    return 1 if bad or rejected < 10 or len(vectors) - rejected < 10 else 0


if __name__ == "__main__":
    sys.exit(main(int(sys.argv[1]), *sys.argv[2:]))
