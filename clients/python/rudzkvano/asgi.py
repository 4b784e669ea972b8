"""An ASGI application that serves GraphQL over HTTP.

    application = rudzkvano.asgi.application(server, loaders)
"""

from __future__ import annotations

from collections.abc import Awaitable, Callable
from dataclasses import replace
from typing import TYPE_CHECKING, Any

from .http import MAX_BODY, HttpFault, HttpRequest, HttpResponse, HTTPError, LoadersOf, loaders_for, read_head, read_request, too_long, with_defaults
from .limits import checked_limit
from .server import Options, Server

if TYPE_CHECKING:
    from typing_extensions import Unpack

Receive = Callable[[], Awaitable[Any]]
Send = Callable[[Any], Awaitable[None]]


async def read_scope(scope: Any, receive: Receive, max_body: int = MAX_BODY) -> HttpRequest:
    """The request that a scope has, or HttpFault. The body of one that is refused by its head isn't read."""
    content_type, accept, length = (_header(scope, name) for name in (b"content-type", b"accept", b"content-length"))
    request = HttpRequest(scope["method"], scope["query_string"].decode("latin-1"), content_type, accept, content_length=length)
    head = read_head(request, max_body)
    if request.method != "POST":
        return request
    parts, size, more = [], 0, True
    while more:
        message = await receive()
        parts.append(message.get("body", b""))
        size, more = size + len(parts[-1]), message.get("more_body", False)
        if size > max_body:
            raise too_long(max_body, head.media_type)
    return replace(request, body=b"".join(parts))


def _header(scope: Any, wanted: bytes) -> str:
    return ", ".join(value.decode("latin-1") for name, value in scope["headers"] if name == wanted)


def application(server: Server, loaders: LoadersOf, *, max_body: int = MAX_BODY, **options: Unpack[Options]) -> Callable[..., Awaitable[None]]:
    """Answers by these batch functions; or by those that `loaders` makes of the scope, for each request."""

    checked_limit("max_body", max_body)
    options = with_defaults(options)

    async def answered(scope: Any, receive: Receive) -> HttpResponse:
        try:
            asked = read_request(await read_scope(scope, receive, max_body))
        except HttpFault as fault:
            return fault.response
        try:
            functions = loaders_for(loaders, scope)
            if isinstance(functions, Awaitable):
                functions = await functions
        except HTTPError as error:
            return asked.refusal(error)
        return asked.response(await server.answer_text_async(asked.request, functions, **options))

    async def serve(scope: Any, receive: Receive, send: Send) -> None:
        if scope["type"] != "http":
            raise ValueError(f"this application serves http, and not {scope['type']}")
        response = await answered(scope, receive)
        headers = [(name.lower().encode("latin-1"), value.encode("latin-1")) for name, value in response.headers]
        await send({"type": "http.response.start", "status": response.status, "headers": headers})
        await send({"type": "http.response.body", "body": b"" if scope["method"] == "HEAD" else response.body})

    return serve
