"""The shop as a WSGI application: GraphQL at /graphql, and at / a page with a query editor that draws the rounds of an answer.

A request whose header Accept names application/vnd.rudzkvano.rounds+json is answered in that media type: with the same response, and with what
was asked for it in `extensions`. There `rounds` is a list of rounds, and a round a list of its batches, as

    {"loader": "ordersByCustomer", "keys": ["7", "9"], "milliseconds": 0.4, "statement": "select ..", "failed": "why"}

where the last two may be missing, a key of two columns is a list of two texts, and null stands for all rows.
"""

from __future__ import annotations

import json
from collections.abc import Callable, Iterable, Sequence
from pathlib import Path
from typing import TYPE_CHECKING, Any

from rudzkvano import Loader, Round, Server, wsgi

from batches import MOST_KEYS, batch_functions
from database import Database

if TYPE_CHECKING:
    from _typeshed.wsgi import StartResponse, WSGIApplication, WSGIEnvironment

ROUNDS = "application/vnd.rudzkvano.rounds+json"
# The longest answer and the longest body of a request, in bytes, and the most work of a request, in positions of its answer. The schema has cycles,
# so a short query can ask for any number of rows.
MOST_BYTES, MOST_WORK = 4_194_304, 1_000_000

HERE = Path(__file__).resolve().parent
SCHEMA, BINDINGS = HERE / "schema.graphql", HERE / "bindings.txt"
FILES = {
    "/": (HERE.parents[2] / "page" / "index.html", "text/html; charset=utf-8"),
    "/examples": (HERE / "examples.json", "application/json"),
    "/schema.graphql": (SCHEMA, "text/plain; charset=utf-8"),
}


class Recorder:
    """Batch functions for one request, and what it asked of them."""

    def __init__(self, database: Database, loaders: Iterable[Loader]) -> None:
        self._statements: list[str | None] = []
        self.functions = batch_functions(database, loaders, self._statements.append)
        self.rounds: list[list[dict[str, Any]]] = []

    def take_round(self, finished: Round) -> None:
        """The batches of a round ran in order, and their statements stand in that order."""
        batches = []
        for batch, statement in zip(finished.batches, self._statements, strict=True):
            told: dict[str, Any] = {"loader": batch.loader, "keys": batch.keys or [None], "milliseconds": round(batch.milliseconds, 3)}
            told |= {"statement": statement, "failed": batch.failed}
            batches.append({name: value for name, value in told.items() if value is not None})
        self.rounds.append(batches)
        self._statements.clear()


def application(database: Database) -> WSGIApplication:
    server = Server(SCHEMA.read_text("utf-8"), BINDINGS.read_text("utf-8"))
    files = {path: (file.read_bytes(), media_type) for path, (file, media_type) in FILES.items()}
    limits: Any = {"max_batch": MOST_KEYS, "max_answer": MOST_BYTES, "max_work": MOST_WORK, "max_body": MOST_BYTES}
    plain = wsgi.application(server, batch_functions(database, server.loaders), **limits)

    def serve_rounds(environ: WSGIEnvironment, start_response: StartResponse) -> Iterable[bytes]:
        recorder = Recorder(database, server.loaders)
        answer = wsgi.application(server, recorder.functions, on_round=recorder.take_round, **limits)
        method = environ["REQUEST_METHOD"]
        asked = {**environ, "REQUEST_METHOD": "GET" if method == "HEAD" else method, "HTTP_ACCEPT": "application/graphql-response+json"}
        status, headers, text = run(answer, asked)
        # the response is an object: the extensions become its last member
        text = text[:-1] + b',"extensions":' + json.dumps({"rounds": recorder.rounds}, separators=(",", ":")).encode() + b"}"
        replaced = {"Content-Type": ROUNDS, "Content-Length": str(len(text))}
        start_response(status, [(name, replaced.get(name, value)) for name, value in headers])
        return [] if method == "HEAD" else [text]

    def serve_file(environ: WSGIEnvironment, start_response: StartResponse) -> Iterable[bytes]:
        text, media_type = files[environ["PATH_INFO"]]
        if environ["REQUEST_METHOD"] not in ("GET", "HEAD"):
            return send(start_response, "405 Method Not Allowed", b"", "text/plain", ("Allow", "GET, HEAD"))
        sent = send(start_response, "200 OK", text, media_type)
        return sent if environ["REQUEST_METHOD"] == "GET" else []

    def serve(environ: WSGIEnvironment, start_response: StartResponse) -> Iterable[bytes]:
        path = environ["PATH_INFO"]
        if path == "/graphql":
            told = ROUNDS in environ.get("HTTP_ACCEPT", "")
            return (serve_rounds if told else plain)(environ, start_response)
        if path in files:
            return serve_file(environ, start_response)
        return send(start_response, "404 Not Found", b"nothing here\n", "text/plain")

    return serve


def run(answer: WSGIApplication, environ: WSGIEnvironment) -> tuple[str, list[tuple[str, str]], bytes]:
    """The status, the headers and the body of a response."""
    started: list[tuple[str, list[tuple[str, str]]]] = []

    def start_response(status: str, headers: list[tuple[str, str]], exception: object = None, /) -> Callable[[bytes], object]:
        started.append((status, headers))
        return lambda _: None

    answered = answer(environ, start_response)
    try:
        body = b"".join(answered)
    finally:
        getattr(answered, "close", lambda: None)()
    return *started[0], body


def send(start_response: StartResponse, status: str, text: bytes, media_type: str, *headers: tuple[str, str]) -> Sequence[bytes]:
    start_response(status, [("Content-Type", media_type), ("Content-Length", str(len(text))), *headers])
    return [text]
