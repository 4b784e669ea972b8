"""GraphQL over HTTP, without a server: reads a request, and writes the response to it. `wsgi` and `asgi` are over this."""

from __future__ import annotations

import json
import re
from collections.abc import Awaitable, Callable, Mapping
from dataclasses import dataclass
from typing import Any, NamedTuple, NoReturn, TypeAlias, Union
from urllib.parse import parse_qsl

from .errors import log_error
from .loaders import Loaders
from .server import Options

RESPONSE_JSON, JSON = "application/graphql-response+json", "application/json"
# how many bytes the body of a request, and an answer, may have, and how much work a request may be, unless told otherwise
MAX_BODY, MAX_ANSWER, MAX_WORK = 1_048_576, 16_777_216, 1_000_000
# the longest length that a request may tell
_LONGEST = 2**64 - 1
_BYTE_ORDER_MARK = b"\xef\xbb\xbf"
# what the library says of JSON that it doesn't read
_NOT_A_REQUEST = '{"errors":[{"message":"not a request"}]}'
_MUTATION = '{"errors":[{"message":"not served: mutation"'

# Batch functions; or what makes them for a request, of the WSGI environ or the ASGI scope. In ASGI it may be a coroutine function.
LoadersOf: TypeAlias = Union[Loaders, Callable[[Any], Union[Loaders, Awaitable[Loaders]]]]


@dataclass(frozen=True)
class HttpRequest:
    """What is read of an HTTP request. `query` is that of its address, without the question mark; an absent header is empty."""

    method: str
    query: str
    content_type: str
    accept: str
    body: bytes = b""
    content_length: str = ""


@dataclass(frozen=True)
class HttpResponse:
    status: int
    headers: list[tuple[str, str]]
    body: bytes


class HTTPError(Exception):
    """What the function `loaders` of a handler raises to refuse a request: with a status from 400 to 599, a message and perhaps headers."""

    def __init__(self, status: int, message: str, headers: Mapping[str, str] | None = None) -> None:
        super().__init__(message)
        if not 400 <= status <= 599:
            raise ValueError(f"{status} is no status of an error")
        self.status, self.message, self.headers = status, message, dict(headers or {})


class HttpFault(Exception):
    """A request that is answered before any GraphQL is, by `response`."""

    def __init__(self, status: int, message: str, media_type: str = JSON, *headers: tuple[str, str]) -> None:
        super().__init__(message)
        self.response = _response(status, media_type, json.dumps({"errors": [{"message": message}]}), *headers)


@dataclass(frozen=True)
class Asked:
    """A well-formed GraphQL request as JSON text, and the media type of its response."""

    request: bytes
    media_type: str
    method: str = "POST"

    def response(self, text: str) -> HttpResponse:
        """The response with this text. One without data is a request error, which only `application/json` hides in the status 200."""
        if text == _NOT_A_REQUEST:
            return _response(400, self.media_type, text)
        if self.method != "POST" and text.startswith(_MUTATION):
            return _response(405, self.media_type, text, ("Allow", "POST"))
        has_data = text.startswith('{"data":') or "data" in json.loads(text)
        return _response(200 if has_data or self.media_type == JSON else 400, self.media_type, text)

    def refusal(self, error: HTTPError) -> HttpResponse:
        """The response where the request is refused by the function `loaders`."""
        return HttpFault(error.status, error.message, self.media_type, *error.headers.items()).response


class Head(NamedTuple):
    """What the head of a request tells: the media type of the response, and the length of the body, which is 0 where it isn't told."""

    media_type: str
    length: int


def read_head(request: HttpRequest, max_body: int = MAX_BODY) -> Head:
    """Looks at all but the body of a request, or raises HttpFault."""
    wanted = _accepted(request.accept)
    media_type = wanted or JSON
    length = _length(request.content_length)
    if length is None:
        raise HttpFault(400, "Content-Length is no length", media_type)
    if request.method not in ("GET", "HEAD", "POST"):
        raise HttpFault(405, "only GET, HEAD and POST are served", media_type, ("Allow", "GET, HEAD, POST"))
    if wanted is None:
        raise HttpFault(406, f"a response is {RESPONSE_JSON} or {JSON}")
    if request.method == "POST" and not _is_json(request.content_type):
        raise HttpFault(415, f"the body of a request is {JSON} in UTF-8", media_type)
    if request.method == "POST" and length > max_body:
        raise too_long(max_body, media_type)
    return Head(media_type, length)


def read_request(request: HttpRequest) -> Asked:
    """Reads a request, or raises HttpFault."""
    media_type, _ = read_head(request, _LONGEST)
    try:
        text = request.body.removeprefix(_BYTE_ORDER_MARK) if request.method == "POST" else _in_address(request.query)
        _check(_parsed(text, "the body"))
        return Asked(text, media_type, request.method)
    except ValueError as error:
        raise HttpFault(400, str(error), media_type) from None


def loaders_for(loaders: LoadersOf, request: Any) -> Loaders | Awaitable[Loaders]:
    """The batch functions for a request."""
    return loaders(request) if callable(loaders) else loaders


def with_defaults(options: Options) -> Options:
    """These options; where they don't say how long an answer or how much work a request may be, MAX_ANSWER and MAX_WORK, and where they don't say
    what callers are told of errors, errors are logged, and callers aren't told."""
    told = options.copy()
    told.setdefault("max_answer", MAX_ANSWER)
    told.setdefault("max_work", MAX_WORK)
    told["on_error"] = options.get("on_error") or log_error
    return told


def too_long(max_body: int, media_type: str = JSON) -> HttpFault:
    return HttpFault(413, f"the body of a request has at most {max_body} bytes", media_type)


def _length(told: str) -> int | None:
    """The length that a Content-Length tells, where an absent one is 0; or none, for what is no length."""
    digits = told.lstrip("0") or "0"
    if not (told.isascii() and told.isdigit() or told == "") or len(digits) > len(str(_LONGEST)):
        return None
    return int(digits) if int(digits) <= _LONGEST else None


def _response(status: int, media_type: str, text: str, *headers: tuple[str, str]) -> HttpResponse:
    body = text.encode()
    told = [("Content-Type", f"{media_type}; charset=utf-8"), ("Content-Length", str(len(body))), *headers]
    return HttpResponse(status, told, body)


_QUALITY = re.compile(r"q=(0(?:\.[0-9]*)?|1(?:\.0*)?)", re.IGNORECASE)


def _accepted(accept: str) -> str | None:
    """The media type that an Accept header wants most; of two that it wants as much, the one that it names."""
    qualities: dict[str, float] = {}
    for part in accept.split(","):
        media_range, *parameters = (word.strip() for word in part.split(";"))
        if media_range or parameters:
            found = filter(None, map(_QUALITY.fullmatch, parameters))
            qualities.setdefault(media_range.lower(), next((float(it[1]) for it in found), 1.0))
    if not qualities:
        return RESPONSE_JSON

    def wanted(media_type: str) -> tuple[float, bool]:
        quality = next((qualities[it] for it in (media_type, "application/*", "*/*") if it in qualities), 0.0)
        return quality, media_type in qualities

    best = max((RESPONSE_JSON, JSON), key=wanted)
    return best if wanted(best)[0] > 0 else None


def _is_json(content_type: str) -> bool:
    media_type, *parameters = (word.strip() for word in content_type.lower().split(";"))
    charset = next((it.removeprefix("charset=") for it in parameters if it.startswith("charset=")), "utf-8")
    return media_type == JSON and charset.strip('"') == "utf-8"


def _refuse(constant: str) -> NoReturn:
    raise ValueError(f"{constant} is no JSON")


def _parsed(text: bytes, what: str) -> Any:
    try:
        return json.loads(text.decode(), parse_constant=_refuse)
    except (ValueError, RecursionError):
        raise ValueError(f"{what} is no JSON in UTF-8") from None


def _in_address(query: str) -> bytes:
    """The request that an address has, as JSON text."""
    given = dict(parse_qsl(query))
    members = {name: json.dumps(given[name]) for name in ("query", "operationName") if name in given}
    if "variables" in given:
        _parsed(given["variables"].encode(), "variables")
        members["variables"] = given["variables"]
    return ("{" + ",".join(f'"{name}":{text}' for name, text in members.items()) + "}").encode()


def _check(request: Any) -> None:
    """Checks the types of a request's members, or raises ValueError."""
    if not isinstance(request, dict):
        raise ValueError("a request is an object")
    query, variables, operation_name = (request.get(name) for name in ("query", "variables", "operationName"))
    if not isinstance(query, str):
        raise ValueError("a request has a string query")
    if not isinstance(variables, (dict, type(None))):
        raise ValueError("variables is an object")
    if not isinstance(operation_name, (str, type(None))):
        raise ValueError("operationName is a string")
