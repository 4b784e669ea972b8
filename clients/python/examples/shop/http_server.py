"""A server for a WSGI application, of the standard library: a thread for each connection, which stays open from request to request.

What two readers of a connection may take for different requests is refused, and the connection ends. So does one that is slow.
"""

from __future__ import annotations

import io
import re
import sys
from collections.abc import Iterator
from dataclasses import dataclass
from http.client import responses
from socket import IPPROTO_TCP, SHUT_WR, TCP_NODELAY, socket
from socketserver import BaseRequestHandler, ThreadingTCPServer
from threading import BoundedSemaphore
from time import monotonic
from typing import TYPE_CHECKING, Any, NamedTuple
from urllib.parse import unquote
from wsgiref.handlers import SimpleHandler

if TYPE_CHECKING:
    from _typeshed.wsgi import WSGIApplication

LONGEST_BODY = 4_194_304
LONGEST_HEAD = 65_536
LONGEST_LINE_OF_A_CHUNK = 256

TOKEN = rb"[!#$%&'*+.^_`|~0-9A-Za-z-]+"
REQUEST_LINE = re.compile(rb"(%s) (?:http://[^/?#\x00-\x20\x7f-\xff]+)?(/[\x21-\x7e]*) HTTP/1\.([0-9])" % TOKEN)
HEADER = re.compile(rb"(%s):[ \t]*([^\x00-\x08\x0a-\x1f\x7f]*?)[ \t]*" % TOKEN)
CHUNK = re.compile(rb"([0-9A-Fa-f]{1,8})(?:[ \t]*;[^\x00-\x08\x0a-\x1f\x7f]*)?")
LENGTH = re.compile("0*([0-9]{1,19})")
OF_THE_BODY = ("content-length", "content-type", "transfer-encoding")
# headers that stand once, since two could be read as either
ONCE = (*OF_THE_BODY, "host")


@dataclass(frozen=True)
class Limits:
    """How many connections there may be, and the seconds for each part of their requests."""

    connections: int = 256
    # until the first request begins, and between two
    first: float = 10
    idle: float = 75
    head: float = 10
    body: float = 30
    response: float = 30


class Refused(Exception):
    """A request that is answered by this status, after which the connection ends."""

    def __init__(self, status: int) -> None:
        super().__init__(responses[status])
        self.status = status


class Head(NamedTuple):
    method: str
    target: str
    is_old: bool
    headers: dict[str, str]

    def goes_on(self) -> bool:
        """Whether the connection stays open after this request. Under HTTP/1.0 it ends."""
        options = self.headers.get("connection", "").lower().split(",")
        return not self.is_old and "close" not in (option.strip() for option in options)

    def length(self) -> int | None:
        """How long the body is; or none, where it comes in chunks."""
        codings, length = self.headers.get("transfer-encoding"), self.headers.get("content-length", "0")
        if codings is not None:
            if self.is_old or "content-length" in self.headers:
                raise Refused(400)
            if codings.lower() != "chunked":
                raise Refused(501)
            return None
        digits = LENGTH.fullmatch(length)
        if digits is None:
            raise Refused(400)
        if int(digits[1]) > LONGEST_BODY:
            raise Refused(413)
        return int(digits[1])


class Stream:
    """What comes over a connection. Each part has a time by which it is there, or TimeoutError is raised."""

    def __init__(self, connection: socket) -> None:
        self._connection, self._buffer, self._until = connection, bytearray(), 0.0

    def allow(self, seconds: float) -> None:
        """Begins a part, which has this time."""
        self._until = monotonic() + seconds

    def begins(self) -> bool:
        """Waits for a request. Returns whether one begins, before the other side closes or the time is over."""
        try:
            return bool(self._buffer) or self._receive()
        except TimeoutError:
            return False

    def line(self, most: int, status: int = 431) -> bytes:
        """A line without its end, CR LF. One of more bytes is refused by this status."""
        searched = 0
        while (end := self._buffer.find(b"\n", searched)) < 0 and searched <= most:
            searched = len(self._buffer)
            self._need()
        if not 0 <= end < most:
            raise Refused(status)
        line = self.exactly(end + 1)
        if not line.endswith(b"\r\n"):
            raise Refused(400)
        return line[:-2]

    def exactly(self, size: int) -> bytes:
        while len(self._buffer) < size:
            self._need()
        taken = bytes(self._buffer[:size])
        del self._buffer[:size]
        return taken

    def send(self, text: bytes, seconds: float) -> None:
        self._connection.settimeout(seconds)
        try:
            self._connection.sendall(text)
        except TimeoutError:
            raise ConnectionAbortedError("the other side doesn't read") from None

    def end(self) -> None:
        """Ends what is sent, and waits a little for the other side to close: what it still sends would destroy the last response."""
        self._connection.shutdown(SHUT_WR)
        self.allow(1)
        dropped = 0
        while dropped < LONGEST_BODY and self._receive():
            dropped += len(self._buffer)
            self._buffer.clear()

    def _need(self) -> None:
        if not self._receive():
            raise ConnectionError("the other side closed within a request")

    def _receive(self) -> bool:
        left = self._until - monotonic()
        if left <= 0:
            raise TimeoutError
        self._connection.settimeout(left)
        received = self._connection.recv(65_536)
        self._buffer += received
        return bool(received)


def read_head(stream: Stream) -> Head:
    found = REQUEST_LINE.fullmatch(stream.line(LONGEST_HEAD))
    if found is None:
        raise Refused(400)
    method, target, minor = (part.decode() for part in found.groups())
    headers = read_headers(stream)
    if minor != "0" and "host" not in headers:
        raise Refused(400)
    return Head(method, target, minor == "0", headers)


def read_headers(stream: Stream) -> dict[str, str]:
    """The headers by their names in small letters. Those of one name are one, as far as that is allowed."""
    headers: dict[str, list[str]] = {}
    left = LONGEST_HEAD
    while line := stream.line(left):
        found = HEADER.fullmatch(line)
        if found is None:
            raise Refused(400)
        name, value = (part.decode("latin-1") for part in found.groups())
        headers.setdefault(name.lower(), []).append(value)
        left -= len(line) + 2
    if any(len(headers.get(name, ())) > 1 for name in ONCE):
        raise Refused(400)
    return {name: ("; " if name == "cookie" else ", ").join(values) for name, values in headers.items()}


def read_body(stream: Stream, length: int | None) -> bytes:
    return stream.exactly(length) if length is not None else b"".join(read_chunks(stream))


def read_chunks(stream: Stream) -> Iterator[bytes]:
    left = LONGEST_BODY
    while True:
        found = CHUNK.fullmatch(stream.line(LONGEST_LINE_OF_A_CHUNK, 400))
        if found is None:
            raise Refused(400)
        size = int(found[1], 16)
        if size == 0:
            # the trailers aren't used
            read_headers(stream)
            return
        left -= size
        if left < 0:
            raise Refused(413)
        yield stream.exactly(size)
        if stream.exactly(2) != b"\r\n":
            raise Refused(400)


class Answer(SimpleHandler):
    """Runs the application for one request."""

    http_version = "1.1"
    # the variables of this process have no place among those of a request
    os_environ: dict[str, str] = {}


class Handler(BaseRequestHandler):
    """Answers the requests of a connection."""

    server: ThreadingServer
    request: socket

    def handle(self) -> None:
        self.request.setsockopt(IPPROTO_TCP, TCP_NODELAY, True)
        stream, limits = Stream(self.request), self.server.limits
        try:
            stream.allow(limits.first)
            while stream.begins() and self.answer_one(stream, limits):
                stream.allow(limits.idle)
        except Refused as refused:
            self.refuse(stream, refused.status)
        except TimeoutError:
            self.refuse(stream, 408)
        except OSError:
            # the other side is gone
            pass

    def answer_one(self, stream: Stream, limits: Limits) -> bool:
        """Answers a request. Returns whether the connection stays open."""
        stream.allow(limits.head)
        head = read_head(stream)
        length = head.length()
        stream.allow(limits.body)
        if length != 0 and not head.is_old and head.headers.get("expect", "").lower() == "100-continue":
            stream.send(b"HTTP/1.1 100 Continue\r\n\r\n", limits.response)
        body, response = read_body(stream, length), io.BytesIO()
        Answer(io.BytesIO(body), response, sys.stderr, self.environ_of(head, body)).run(self.server.answer)
        stream.send(response.getvalue(), limits.response)
        return head.goes_on()

    def environ_of(self, head: Head, body: bytes) -> dict[str, Any]:
        path, _, query = head.target.partition("?")
        host, port = self.server.server_address[:2]
        environ = {"REQUEST_METHOD": head.method, "SCRIPT_NAME": "", "PATH_INFO": unquote(path, "latin-1"), "QUERY_STRING": query}
        environ |= {"SERVER_NAME": str(host), "SERVER_PORT": str(port), "SERVER_PROTOCOL": "HTTP/1.0" if head.is_old else "HTTP/1.1"}
        environ |= {"REMOTE_ADDR": str(self.client_address[0]), "CONTENT_LENGTH": str(len(body)) if body else ""}
        environ |= {"CONTENT_TYPE": head.headers.get("content-type", "")}
        for name, value in head.headers.items():
            # _ would be read as -
            if "_" not in name and name not in OF_THE_BODY:
                environ[f"HTTP_{name.upper().replace('-', '_')}"] = value
        return environ

    def refuse(self, stream: Stream, status: int) -> None:
        try:
            stream.send(refusal(status), 1)
            stream.end()
        except OSError:
            pass


def refusal(status: int) -> bytes:
    reason = responses[status]
    return f"HTTP/1.1 {status} {reason}\r\nConnection: close\r\nContent-Type: text/plain\r\nContent-Length: {len(reason)}\r\n\r\n{reason}".encode()


class ThreadingServer(ThreadingTCPServer):
    daemon_threads = True
    allow_reuse_address = True
    request_queue_size = 128

    def __init__(self, address: tuple[str, int], application: WSGIApplication, limits: Limits = Limits()) -> None:
        super().__init__(address, Handler)
        self.answer, self.limits = application, limits
        self._free = BoundedSemaphore(limits.connections)

    @property
    def server_port(self) -> int:
        return int(self.server_address[1])

    def process_request(self, request: Any, client_address: Any) -> None:
        """Has a thread answer a connection, unless there are too many."""
        if self._free.acquire(blocking=False):
            try:
                super().process_request(request, client_address)
            except RuntimeError:
                # there are too many threads
                self._free.release()
                raise
            return
        try:
            request.settimeout(0)
            request.sendall(refusal(503))
        except OSError:
            pass
        self.shutdown_request(request)

    def process_request_thread(self, request: Any, client_address: Any) -> None:
        try:
            super().process_request_thread(request, client_address)
        finally:
            self._free.release()

    def handle_error(self, request: Any, client_address: Any) -> None:
        """Nothing is printed for a connection. The application's own errors are printed with their requests."""
