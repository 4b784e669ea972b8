"""GraphQL over HTTP: what is asked in which way, and the status and media type of the response, over WSGI and ASGI."""

import asyncio
import io
import json
import logging
import time
import unittest
from collections.abc import Callable
from typing import Any, NamedTuple
from urllib.parse import quote
from wsgiref.validate import validator

import worlds
from rudzkvano import HTTPError, PublicError, asgi, wsgi
from rudzkvano.http import MAX_ANSWER, MAX_WORK, HttpFault

GRAPHQL, JSON = "application/graphql-response+json", "application/json"
ADA = {"data": {"user": {"name": "Ada"}}}
QUERY: dict[str, Any] = {"query": "{user(id:1){name}}"}
NAMED: dict[str, Any] = {"query": "query A($i:ID!){user(id:$i){name}} query B{users{id}}", "operationName": "A", "variables": {"i": 1}}
UNKNOWN, NULL = {"query": "{user(id:1){age}}"}, {"query": "{users{name}}"}


class Call(NamedTuple):
    """A request. `accept` and `content_type` of None are absent. `length` is its Content-Length, where that isn't the length of the body."""

    method: str = "POST"
    address: str = ""
    accept: str | None = None
    content_type: str | None = JSON
    body: bytes = b""
    length: str | None = None


class Answer(NamedTuple):
    status: int
    headers: dict[str, str]
    body: Any


def post(request: Any, accept: str | None = None, content_type: str | None = JSON) -> Call:
    return Call("POST", "", accept, content_type, request if isinstance(request, bytes) else json.dumps(request).encode())


def get(accept: str | None = None, **parameters: str) -> Call:
    return Call("GET", "&".join(f"{name}={quote(text)}" for name, text in parameters.items()), accept, None)


ASKED = json.dumps(QUERY).encode()
MARK = "\ufeff".encode()
MUTATION = "mutation{a}"
MOST = 2000

# Requests, and the status and the media type of the response: the table that the handler for Node has too. By the draft of GraphQL over HTTP, 2xx is
# for a response that has data (GRAPHQL) or that is well-formed (JSON), and 4xx for a request that isn't.
CASES: list[tuple[Call, int, str]] = [
    (post(QUERY), 200, GRAPHQL),
    (post(NAMED), 200, GRAPHQL),
    (post(json.dumps(NAMED, indent=2).replace("\n", "\r\n").encode()), 200, GRAPHQL),
    (post({**QUERY, "variables": None, "operationName": None, "extensions": {}, "other": 1}), 200, GRAPHQL),
    (post(MARK + ASKED), 200, GRAPHQL),
    (post(b'{"query":1,' + ASKED[1:]), 200, GRAPHQL),
    (get(query="{user(id:1){name}}"), 200, GRAPHQL),
    (get(query='{user(id:"é"){name}}'), 200, GRAPHQL),
    (get(JSON, query=NAMED["query"], operationName="A", variables='{"i":1}'), 200, JSON),
    (get(query="{user(id:1){name}}", operationName="", variables=""), 200, GRAPHQL),
    (Call("GET", "query={a}&query=" + quote(QUERY["query"]), None, "text/plain", b"body"), 200, GRAPHQL),
    (Call("HEAD", "query=" + quote(QUERY["query"]), None, None), 200, GRAPHQL),
    (Call("HEAD", "query={", JSON, None), 200, JSON),
]
# what a Content-Length tells: nothing else of a request is looked at before
for length, status in [
    ("x", 400),
    ("-1", 400),
    ("+5", 400),
    ("5, 5", 400),
    ("1_0", 400),
    ("9" * 5000, 400),
    (str(2**64), 400),
    (str(2**64 - 1), 413),
]:
    CASES.append((Call("POST", length=length), status, GRAPHQL))
    CASES.append((Call("PUT", length=length), 400 if status == 400 else 405, GRAPHQL))
CASES += [
    (Call("GET", "query={", None, None, length="9" * 5000), 400, GRAPHQL),
    (Call("POST", body=ASKED, length="0" * 5000 + str(len(ASKED))), 200, GRAPHQL),
    (Call("POST", accept=JSON, length=str(MOST + 1)), 413, JSON),
    (Call("POST", accept="text/html", length=str(MOST + 1)), 406, JSON),
    (Call("POST", content_type="text/plain", length=str(MOST + 1)), 415, GRAPHQL),
    (post(b" " * (MOST + 1)), 413, GRAPHQL),
]
for method in ("PUT", "OPTIONS", "DELETE"):
    CASES += [(Call(method), 405, GRAPHQL), (Call(method, accept=JSON), 405, JSON), (Call(method, accept="text/html"), 405, JSON)]
ACCEPTED: list[tuple[str | None, str | None]] = [
    (None, GRAPHQL),
    ("", GRAPHQL),
    (" , ,", GRAPHQL),
    ("*/*", GRAPHQL),
    ("application/*", GRAPHQL),
    (GRAPHQL, GRAPHQL),
    (JSON, JSON),
    (JSON.upper(), JSON),
    (f"{JSON}, {GRAPHQL}", GRAPHQL),
    (f"{GRAPHQL}; charset=utf-8, {JSON};q=0.9", GRAPHQL),
    (f"{GRAPHQL};q=0.8, {JSON};q=0.9", JSON),
    (f"{GRAPHQL};Q=0.8, {JSON};charset=utf-8; q=0.9", JSON),
    (f"text/html, {JSON}, */*", JSON),
    (f"text/html, */*;q=0.1, {GRAPHQL};q=0", JSON),
    (f"application/*;q=0, */*, {GRAPHQL};q=0.0001", GRAPHQL),
    ("application/*;q=0, */*", None),
    (f"{JSON};q=0, {JSON};q=1", None),
    (f"{JSON};q=1.000, */*;q=0.", JSON),
    ("*/*;q=abc", GRAPHQL),
    ("*/*;q=2", GRAPHQL),
    ("*/*;q=1.5", GRAPHQL),
    ("*/*;q=", GRAPHQL),
    ("*/*;q=-1", GRAPHQL),
    ("*/*;q=0", None),
    ("text/html", None),
    (f"{JSON};q=0", None),
    (f"{JSON};q=0.000", None),
]
CASES += [(post(QUERY, accept), 200 if media_type else 406, media_type or JSON) for accept, media_type in ACCEPTED]
CONTENT_TYPES: list[tuple[str | None, int]] = [
    ("application/json; charset=utf-8", 200),
    ('Application/JSON;charset="UTF-8"', 200),
    ("application/json;version=1", 200),
    ("application/json; charset=latin-1", 415),
    ("application/json; charset=", 415),
    ("text/plain", 415),
    ("application/graphql", 415),
    ("", 415),
    (None, 415),
]
for accept in (GRAPHQL, JSON):
    CASES += [(post(QUERY, accept, content_type), status, accept) for content_type, status in CONTENT_TYPES]
# the same with both media types: a request error, an error of fields that leaves no data, and what is no request
FAULTS: list[tuple[Any, int, int]] = [
    (UNKNOWN, 400, 200),
    ({"query": "{"}, 400, 200),
    ({"query": ""}, 400, 200),
    ({"query": MUTATION}, 400, 200),
    ({**QUERY, "operationName": "A"}, 400, 200),
    ({"query": NAMED["query"], "operationName": "A"}, 400, 200),
    (NULL, 200, 200),
    (b"", 400, 400),
    (b"{", 400, 400),
    (b'{"query":"{user(id:1){name}}"', 400, 400),
    (b'{"query":"\xff"}', 400, 400),
    (b"[" * 2000, 400, 400),
    (MARK + MARK + ASKED, 400, 400),
    (ASKED.decode().encode("utf-16"), 400, 400),
    ("{user(id:1){name}}", 400, 400),
    ([QUERY], 400, 400),
    ({}, 400, 400),
    ({"query": None}, 400, 400),
    ({"query": 1}, 400, 400),
    ({**QUERY, "variables": "{}"}, 400, 400),
    ({**QUERY, "variables": []}, 400, 400),
    ({**QUERY, "operationName": 1}, 400, 400),
    # what Python reads as JSON, and the library doesn't
    ({"query": '{user(id:"\ud800"){name}}'}, 400, 400),
    (b'{"query":"{user(id:1){name}}","variables":{"i":' + b"[" * 200 + b"]" * 200 + b"}}", 400, 400),
    (b'{"query":"{user(id:1){name}}","variables":{"i":1e999}}', 400, 400),
]
for number in ("NaN", "Infinity", "-Infinity"):
    FAULTS.append((b'{"query":"{user(id:1){name}}","variables":{"i":%s}}' % number.encode(), 400, 400))
CASES += [(post(request, GRAPHQL), status, GRAPHQL) for request, status, _ in FAULTS]
CASES += [(post(request, JSON), status, JSON) for request, _, status in FAULTS]
for accept in (GRAPHQL, JSON):
    CASES.append((get(accept), 400, accept))
    CASES += [(get(accept, query="{a}", variables=text), 400, accept) for text in ("{", "1", "\ufeff{}", '{"i":NaN}')]
    CASES += [(call, 405, accept) for call in (get(accept, query=MUTATION), get(accept, query=MUTATION)._replace(method="HEAD"))]


class Refusing(NamedTuple):
    """What a function `loaders` refuses a request with, and the response."""

    error: HTTPError
    status: int
    headers: dict[str, str]


REFUSED = [
    Refusing(HTTPError(401, "who are you?", {"WWW-Authenticate": "Bearer"}), 401, {"Www-Authenticate": "Bearer"}),
    Refusing(HTTPError(403, "not for you"), 403, {}),
    Refusing(HTTPError(503, "é"), 503, {}),
    Refusing(HTTPError(599, "full"), 599, {}),
]


class Applications:
    """The same server over WSGI and over ASGI."""

    def __init__(self) -> None:
        self.server = worlds.WORLDS["examples"].server()
        self.functions = worlds.functions(self.server)
        self.serve(self.functions)

    def serve(self, loaders: Any, **options: Any) -> None:
        """Makes both applications anew."""
        options = {"max_body": MOST, **options}
        self.wsgi = wsgi.application(self.server, loaders, **options)
        self.asgi = asgi.application(self.server, loaders, **options)

    def by_wsgi(self, call: Call) -> Answer:
        environ: dict[str, Any] = {"REQUEST_METHOD": call.method, "QUERY_STRING": call.address, "SERVER_NAME": "host", "SERVER_PORT": "80"}
        environ |= {"wsgi.version": (1, 0), "wsgi.url_scheme": "http", "wsgi.input": io.BytesIO(call.body), "wsgi.errors": io.StringIO()}
        environ |= {"SCRIPT_NAME": "", "PATH_INFO": "/graphql", "wsgi.multithread": True, "wsgi.multiprocess": False, "wsgi.run_once": False}
        length = call.length if call.length is not None else str(len(call.body)) if call.body else ""
        environ["CONTENT_LENGTH"] = length
        for name, value in (("HTTP_ACCEPT", call.accept), ("CONTENT_TYPE", call.content_type)):
            if value is not None:
                environ[name] = value
        started: list[Any] = []
        # the validator refuses a Content-Length that is none by itself
        serve = validator(self.wsgi) if call.length is None else self.wsgi
        response = serve(environ, lambda *start: started.append(start))  # type: ignore[arg-type]
        body = b"".join(response)
        getattr(response, "close", lambda: None)()
        return Answer(int(started[0][0][:3]), {name.title(): value for name, value in started[0][1]}, body)

    def by_asgi(self, call: Call) -> Answer:
        headers = [(b"accept", call.accept), (b"content-type", call.content_type), (b"content-length", call.length)]
        told = [(name, value.encode()) for name, value in headers if value is not None]
        scope = {"type": "http", "method": call.method, "query_string": call.address.encode(), "headers": told, "path": "/graphql"}
        half = len(call.body) // 2
        events = [{"type": "http.request", "body": call.body[:half], "more_body": True}, {"type": "http.request", "body": call.body[half:]}]
        return self.by_events(scope, iter(events))

    def by_events(self, scope: dict[str, Any], events: Any) -> Answer:
        sent: list[Any] = []

        async def receive() -> Any:
            return next(events)

        async def send(message: Any) -> None:
            sent.append(message)

        asyncio.run(self.asgi(scope, receive, send))  # type: ignore[arg-type]
        named = {name.decode().title(): value.decode() for name, value in sent[0]["headers"]}
        return Answer(sent[0]["status"], named, sent[1]["body"])


class Http(unittest.TestCase):
    def setUp(self) -> None:
        self.applications = Applications()
        self.addCleanup(self.applications.server.close)
        self.ways = [self.applications.by_wsgi, self.applications.by_asgi]

    def test_statuses_and_media_types(self) -> None:
        for call, status, media_type in CASES:
            for way in self.ways:
                with self.subTest(call=call, way=way.__name__):
                    found = way(call)
                    self.assertEqual((found.status, found.headers["Content-Type"]), (status, f"{media_type}; charset=utf-8"))
                    if call.method == "HEAD":
                        self.assertEqual(found.body, b"")
                        continue
                    self.assertEqual(int(found.headers["Content-Length"]), len(found.body))
                    response = json.loads(found.body)
                    self.assertTrue("data" in response or response["errors"])

    def test_answers(self) -> None:
        for way in self.ways:
            for call in (post(QUERY), post(NAMED), post(QUERY, JSON), get(query=QUERY["query"])):
                self.assertEqual(json.loads(way(call).body), ADA)
            null = worlds.WORLDS["examples"].answers[6]
            self.assertEqual(way(post(NULL)).body.decode(), null)
            self.assertEqual(way(Call("PUT")).headers["Allow"], "GET, HEAD, POST")
            self.assertEqual(way(get(query=MUTATION)).headers["Allow"], "POST")

    def test_head_is_answered_as_get(self) -> None:
        for way in self.ways:
            for call in (get(query=QUERY["query"]), get(query="{"), get(query=MUTATION), Call("GET", length="x"), Call("GET", accept="text/html")):
                wanted, found = way(call), way(call._replace(method="HEAD"))
                self.assertEqual(found, wanted._replace(body=b""))

    def test_numbers_arrive_as_they_were_sent(self) -> None:
        body = b'{"query":"query($i:ID!){user(id:$i){name}}","variables":{"i":9007199254740993}}'
        for way in self.ways:
            asked: list[Any] = []
            self.applications.serve({"userById": worlds.noted(asked, lambda keys: [None])})
            way(post(body))
            self.assertEqual(asked, [["9007199254740993"]])

    def test_the_functions_of_a_request(self) -> None:
        requests: list[Any] = []

        def functions_for(request: Any) -> Any:
            requests.append(request)
            return self.applications.functions

        self.applications.serve(functions_for, max_answer=1000)
        many = {"query": "{" + "".join(f"a{at}:user(id:1){{name}}" for at in range(60)) + "}"}
        for way, path in zip(self.ways, ("PATH_INFO", "path")):
            self.assertEqual(way(post(QUERY)).status, 200)
            self.assertEqual(requests.pop()[path], "/graphql")
            self.assertEqual(json.loads(way(post(many)).body), {"errors": [{"message": "answer too long"}]})

    def test_functions_that_are_awaited(self) -> None:
        async def functions_for(request: Any) -> Any:
            await asyncio.sleep(0)
            return self.applications.functions

        self.applications.serve(functions_for)
        self.assertEqual(json.loads(self.applications.by_asgi(post(QUERY)).body), ADA)
        with self.assertRaisesRegex(TypeError, "^the function loaders returned an awaitable, which only the ASGI application awaits$"):
            self.applications.by_wsgi(post(QUERY))

    def test_a_request_that_is_refused(self) -> None:
        for error, status, headers in REFUSED:

            def refuses(request: Any) -> Any:
                raise error

            async def refuses_late(request: Any) -> Any:
                await asyncio.sleep(0)
                raise error

            for way, function in ((self.ways[0], refuses), (self.ways[1], refuses), (self.ways[1], refuses_late)):
                self.applications.serve(function)
                for accept in (GRAPHQL, JSON):
                    found = way(post(QUERY, accept))
                    self.assertEqual((found.status, json.loads(found.body)), (status, {"errors": [{"message": error.message}]}))
                    self.assertEqual(found.headers, {**found.headers, **headers, "Content-Type": f"{accept}; charset=utf-8"})
        for status in (200, 399, 600):
            with self.assertRaisesRegex(ValueError, f"^{status} is no status of an error$"):
                HTTPError(status, "x")

    def test_errors_of_the_host_go_on(self) -> None:
        def wrong(request: Any) -> Any:
            raise ZeroDivisionError

        self.applications.serve(wrong)
        for way in self.ways:
            self.assertRaises(ZeroDivisionError, way, post(QUERY))

    def test_limits(self) -> None:
        for limit in (0, -1, float("nan"), float("inf")):
            for make in (wsgi.application, asgi.application):
                with self.assertRaisesRegex(ValueError, "^max_body is .*, and not 1 to [0-9,]*$"):
                    make(self.applications.server, {}, max_body=limit)  # type: ignore[arg-type]

    def test_an_answer_is_limited(self) -> None:
        name = "a" * MAX_ANSWER
        long, too_long = f'{{"data":{{"user":{{"name":"{name}"}}}}}}'.encode(), b'{"errors":[{"message":"answer too long"}]}'
        cases: list[tuple[dict[str, Any], str, int, bytes]] = [
            ({}, GRAPHQL, 400, too_long),
            ({}, JSON, 200, too_long),
            ({"max_answer": 2 * MAX_ANSWER}, GRAPHQL, 200, long),
            ({"max_answer": None}, GRAPHQL, 200, long),
        ]
        for options, accept, status, body in cases:
            self.applications.serve({"userById": lambda ids: [{"id": 1, "name": name}]}, **options)
            for way in self.ways:
                found = way(post(QUERY, accept))
                self.assertEqual((found.status, found.body == body), (status, True))

    def test_work_is_limited(self) -> None:
        friends, too_much = worlds.FRIENDS, '{"errors":[{"message":"too much work"}]}'
        self.applications.server = friends.server()
        self.addCleanup(self.applications.server.close)
        # with 17 levels of friends it is 524,287 work, and with 18 it is 1,048,575
        cases: list[tuple[dict[str, Any], int, str, int, str]] = [
            ({}, 17, GRAPHQL, 200, friends.answer(17)),
            ({}, 18, GRAPHQL, 400, too_much),
            ({}, 18, JSON, 200, too_much),
            ({"max_work": 2 * MAX_WORK}, 18, GRAPHQL, 200, friends.answer(18)),
            ({"max_work": None}, 18, GRAPHQL, 200, friends.answer(18)),
            ({"max_rounds": 1}, 1, GRAPHQL, 400, '{"errors":[{"message":"too many rounds"}]}'),
        ]
        for options, levels, accept, status, text in cases:
            self.applications.serve(friends.functions(), **options)
            for way in self.ways:
                found = way(post({"query": friends.query(levels)}, accept))
                self.assertEqual((found.status, found.body == text.encode()), (status, True))

    def test_other_protocols(self) -> None:
        with self.assertRaises(ValueError):
            asyncio.run(self.applications.asgi({"type": "websocket"}, None, None))  # type: ignore[arg-type]


class Bodies(unittest.TestCase):
    """How bodies are read."""

    def setUp(self) -> None:
        self.applications = Applications()
        self.addCleanup(self.applications.server.close)

    def scope(self, **headers: str) -> dict[str, Any]:
        told = [(name.replace("_", "-").encode(), value.encode()) for name, value in {"content_type": JSON, **headers}.items()]
        return {"type": "http", "method": "POST", "query_string": b"", "headers": told, "path": "/"}

    def environ(self, **members: Any) -> dict[str, Any]:
        return {"REQUEST_METHOD": "POST", "CONTENT_TYPE": JSON, **members}

    def test_a_body_in_messages_of_one_byte(self) -> None:
        """It takes time that grows with the body, and not with its square: half a minute."""
        self.applications.serve(self.applications.functions, max_body=1_048_576)
        body = ASKED + b" " * (1_048_576 - len(ASKED))
        events = ({"type": "http.request", "body": body[at : at + 1], "more_body": at + 1 < len(body)} for at in range(len(body)))
        start = time.process_time()
        self.assertEqual(self.applications.by_events(self.scope(), events).status, 200)
        self.assertLess(time.process_time() - start, 15)

    def test_a_body_that_is_refused_is_not_read(self) -> None:
        def no_events() -> Any:
            self.fail("the body is read")
            yield

        class NoBody:
            read: Callable[..., Any] = self.fail

        for name, value, status in (("content_length", str(MOST + 1), 413), ("accept", "text/html", 406), ("content_type", "text/plain", 415)):
            self.assertEqual(self.applications.by_events(self.scope(**{name: value}), no_events()).status, status)
            member = name.upper().replace("ACCEPT", "HTTP_ACCEPT")
            environ = self.environ(**{"CONTENT_LENGTH": "5", member: value, "wsgi.input": NoBody()})
            with self.assertRaises(HttpFault) as raised:
                wsgi.read_environ(environ, MOST)
            self.assertEqual(raised.exception.response.status, status)

    def test_a_body_without_a_length(self) -> None:
        endless = ({"type": "http.request", "body": b" " * 100, "more_body": True} for _ in range(MOST // 100 + 1))
        self.assertEqual(self.applications.by_events(self.scope(), endless).status, 413)
        for body, is_terminated, wanted in ((ASKED, True, ASKED), (ASKED, False, b""), (b" " * MOST, True, b" " * MOST)):
            environ = self.environ(**{"wsgi.input": io.BytesIO(body), "wsgi.input_terminated": is_terminated})
            self.assertEqual(wsgi.read_environ(environ, MOST).body, wanted)
        with self.assertRaises(HttpFault) as raised:
            wsgi.read_environ(self.environ(**{"wsgi.input": io.BytesIO(b" " * (MOST + 1)), "wsgi.input_terminated": True}), MOST)
        self.assertEqual(raised.exception.response.status, 413)


class Errors(unittest.TestCase):
    """What callers are told of errors of batch functions: that of a PublicError, unless `on_error` says more."""

    def setUp(self) -> None:
        self.applications = Applications()
        self.addCleanup(self.applications.server.close)

    def errors(self, way: Any, error: Exception, **options: Any) -> list[Any]:
        """The errors in the response, by their messages and extensions, where a batch fails."""

        def fails(keys: Any) -> Any:
            raise error

        self.applications.serve({"userById": fails}, **options)
        response = json.loads(way(post(QUERY)).body)
        self.assertEqual(response["data"], {"user": None})
        return [{name: it for name, it in error.items() if name not in ("locations", "path")} for error in response["errors"]]

    def test_errors_are_logged_and_not_told(self) -> None:
        for way in (self.applications.by_wsgi, self.applications.by_asgi):
            for options in ({}, {"on_error": None}):
                with self.assertLogs("rudzkvano", logging.ERROR) as logged:
                    self.assertEqual(self.errors(way, OSError("no table users"), **options), [{"message": "internal error"}])
                self.assertIn("OSError: no table users", logged.output[0])
                self.assertIn("loader userById failed", logged.output[0])
            with self.assertLogs("rudzkvano", logging.ERROR):
                self.applications.serve({})
                self.assertIn(b'"message":"internal error"', way(post(QUERY)).body)
            with self.assertNoLogs("rudzkvano"):
                wanted = {"message": "no user", "extensions": {"code": "GONE"}}
                self.assertEqual(self.errors(way, PublicError("no user", {"code": "GONE"})), [wanted])

    def test_what_the_hook_says(self) -> None:
        told: list[Any] = []
        for way in (self.applications.by_wsgi, self.applications.by_asgi):
            for answer, wanted in [(None, "internal error"), ("sorry", "sorry"), (PublicError("gone"), "gone")]:

                def hook(error: Exception, loader: str, keys: Any) -> Any:
                    told.append((str(error), loader, keys))
                    return answer

                self.assertEqual(self.errors(way, OSError("down"), on_error=hook), [{"message": wanted}])
                self.assertEqual(told.pop(), ("down", "userById", ["1"]))


if __name__ == "__main__":
    unittest.main()
