"""A WSGI application that serves GraphQL over HTTP.

    application = rudzkvano.wsgi.application(server, loaders)
"""

from __future__ import annotations

from collections.abc import Coroutine, Iterable
from dataclasses import replace
from http.client import responses
from typing import TYPE_CHECKING

from .http import MAX_BODY, HttpFault, HttpRequest, HttpResponse, HTTPError, LoadersOf, loaders_for, read_head, read_request, too_long, with_defaults
from .limits import checked_limit
from .loaders import Loaders
from .server import Options, Server

if TYPE_CHECKING:
    from _typeshed.wsgi import StartResponse, WSGIApplication, WSGIEnvironment
    from typing_extensions import Unpack


def read_environ(environ: WSGIEnvironment, max_body: int = MAX_BODY) -> HttpRequest:
    """The request that an environ has, or HttpFault. The body of one that is refused by its head isn't read."""
    names = ("QUERY_STRING", "CONTENT_TYPE", "HTTP_ACCEPT", "CONTENT_LENGTH")
    query, content_type, accept, length = (environ.get(name) or "" for name in names)
    request = HttpRequest(environ["REQUEST_METHOD"], query, content_type, accept, content_length=length)
    head = read_head(request, max_body)
    if request.method != "POST":
        return request
    # a body whose length isn't told can be read where the server says that it ends
    ends = length == "" and environ.get("wsgi.input_terminated")
    body = environ["wsgi.input"].read(max_body + 1 if ends else head.length)
    if len(body) > max_body:
        raise too_long(max_body, head.media_type)
    return replace(request, body=body)


def application(server: Server, loaders: LoadersOf, *, max_body: int = MAX_BODY, **options: Unpack[Options]) -> WSGIApplication:
    """Answers by these batch functions; or by those that `loaders` makes of the environ, for each request."""
    checked_limit("max_body", max_body)
    options = with_defaults(options)

    def answered(environ: WSGIEnvironment) -> HttpResponse:
        try:
            asked = read_request(read_environ(environ, max_body))
        except HttpFault as fault:
            return fault.response
        try:
            functions = _functions_for(loaders, environ)
        except HTTPError as error:
            return asked.refusal(error)
        return asked.response(server.answer_text(asked.request, functions, **options))

    def serve(environ: WSGIEnvironment, start_response: StartResponse) -> Iterable[bytes]:
        response = answered(environ)
        start_response(f"{response.status} {responses.get(response.status, 'Refused')}", response.headers)
        return [] if environ["REQUEST_METHOD"] == "HEAD" else [response.body]

    return serve


def _functions_for(loaders: LoadersOf, environ: WSGIEnvironment) -> Loaders:
    functions = loaders_for(loaders, environ)
    if isinstance(functions, Coroutine):
        functions.close()
    if hasattr(functions, "__await__"):
        raise TypeError("the function loaders returned an awaitable, which only the ASGI application awaits")
    return functions
