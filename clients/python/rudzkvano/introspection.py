"""Introspection by graphql-core: its module `graphql` answers operations that ask for `__schema` or `__type` alone, over the same schema."""

from __future__ import annotations

import json
import re
from collections.abc import Iterator, Mapping
from types import NoneType
from typing import Any, NamedTuple, Protocol

_MAY_ASK = re.compile(r"__schema\b|__type\b")
# where characters may be escaped
_MAY_ASK_IN_JSON = re.compile(rb"__schema\b|__type\b|\\u")


class _Request(NamedTuple):
    query: str
    variables: Mapping[str, Any] | None
    operation_name: str | None


class GraphQL(Protocol):
    """What is used of the module."""

    GraphQLError: Any

    def build_schema(self, source: str, /) -> Any: ...

    def parse(self, source: str, /) -> Any: ...

    def validate(self, schema: Any, document: Any, /) -> Any: ...

    def execute_sync(self, schema: Any, document: Any, /, *, variable_values: Any, operation_name: Any) -> Any: ...


class Introspection:
    """Answers introspection of a schema."""

    def __init__(self, graphql: GraphQL, schema: str) -> None:
        self.graphql, self._schema = graphql, graphql.build_schema(schema)

    def answer(self, query: Any, variables: Mapping[str, Any] | None, operation_name: str | None) -> str | None:
        """The text of the response; or None, where the request doesn't ask for introspection alone."""
        request = _request_of(query, variables, operation_name)
        if request is None or not _MAY_ASK.search(request.query):
            return None
        try:
            document = self.graphql.parse(request.query)
            return self._response(document, request) if _asks_for_introspection(document, request.operation_name) else None
        except (self.graphql.GraphQLError, RecursionError):
            return None

    def _response(self, document: Any, request: _Request) -> str:
        response: dict[str, Any] = {}
        errors = self.graphql.validate(self._schema, document)
        if not errors:
            named = {"variable_values": request.variables, "operation_name": request.operation_name}
            result = self.graphql.execute_sync(self._schema, document, **named)
            errors = result.errors
        if errors:
            response["errors"] = [error.formatted for error in errors]
        elif result.data is not None:
            response["data"] = result.data
        return json.dumps(response, ensure_ascii=False, separators=(",", ":"))


def _request_of(query: Any, variables: Any, operation_name: Any) -> _Request | None:
    """One request that is well-formed. A list of requests is none."""
    if isinstance(query, bytes):
        try:
            query = json.loads(query) if _MAY_ASK_IN_JSON.search(query) else None
        except (ValueError, RecursionError):
            return None
    if isinstance(query, Mapping):
        query, variables, operation_name = (query.get(name) for name in ("query", "variables", "operationName"))
    are_right = isinstance(query, str) and isinstance(variables, (Mapping, NoneType)) and isinstance(operation_name, (str, NoneType))
    return _Request(query, variables, operation_name) if are_right else None


def _asks_for_introspection(document: Any, operation_name: str | None) -> bool:
    """Whether an operation asks for `__schema` or `__type`, and for nothing else but `__typename`."""
    operations = [it for it in document.definitions if it.kind == "operation_definition"]
    chosen = [it for it in operations if operation_name is None or it.name and it.name.value == operation_name]
    if len(chosen) != 1 or chosen[0].operation.value != "query":
        return False
    fragments = {it.name.value: it for it in document.definitions if it.kind == "fragment_definition"}
    names = set(_root_fields(chosen[0].selection_set, fragments, set()))
    return bool(names & {"__schema", "__type"}) and names <= {"__schema", "__type", "__typename"}


def _root_fields(selections: Any, fragments: Mapping[str, Any], spread: set[str]) -> Iterator[str]:
    """The names of the fields of a selection set, those of its fragments too. `spread` are the fragments that were looked at."""
    for selection in selections.selections:
        if selection.kind == "field":
            yield selection.name.value
        elif selection.kind == "inline_fragment":
            yield from _root_fields(selection.selection_set, fragments, spread)
        elif selection.name.value in fragments and selection.name.value not in spread:
            spread.add(selection.name.value)
            yield from _root_fields(fragments[selection.name.value].selection_set, fragments, spread)
