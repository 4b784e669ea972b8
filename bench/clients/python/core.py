"""The schema of the workloads by graphql-core, with resolvers that load by an asyncio DataLoader."""

import asyncio
from collections.abc import Awaitable, Callable, Mapping
from typing import Any

from graphql import DocumentNode, ExecutionResult, GraphQLSchema, build_schema, execute, parse, validate

BatchFunctions = Mapping[str, Callable[[Any], Awaitable[Any]]]


class DataLoader:
    """Remembers each key, and asks for all keys at once that came until the event loop has run what was ready: as the DataLoader of graphql-js,
    without what the workloads don't use (a limit, `prime`, `clear`, a cache of one's own)."""

    def __init__(self, function: Callable[[Any], Awaitable[Any]]) -> None:
        self._function = function
        self._futures: dict[Any, asyncio.Future[Any]] = {}
        self._waiting: list[tuple[Any, asyncio.Future[Any]]] = []

    def load(self, key: Any) -> "asyncio.Future[Any]":
        future = self._futures.get(key)
        if future is None:
            loop = asyncio.get_running_loop()
            future = self._futures[key] = loop.create_future()
            if not self._waiting:
                loop.call_soon(loop.call_soon, self._start)
            self._waiting.append((key, future))
        return future

    def load_many(self, keys: Any) -> "asyncio.Future[list[Any]]":
        return asyncio.gather(*map(self.load, keys))

    def _start(self) -> None:
        waiting, self._waiting = self._waiting, []
        self._task = asyncio.ensure_future(self._ask(waiting))

    async def _ask(self, waiting: "list[tuple[Any, asyncio.Future[Any]]]") -> None:
        try:
            values = await self._function([key for key, _ in waiting])
        except Exception as error:
            for _, future in waiting:
                future.set_exception(error)
        else:
            for (_, future), value in zip(waiting, values, strict=True):
                future.set_result(value)


def _resolve(schema: GraphQLSchema, type_name: str, **resolvers: Any) -> None:
    for name, resolver in resolvers.items():
        schema.type_map[type_name].fields[name].resolve = resolver  # type: ignore[attr-defined]


def _best(user: Any, info: Any) -> Any:
    return None if user["best"] is None else info.context["userById"].load(user["best"])


async def _liked(user: Any, info: Any) -> Any:
    likes = await info.context["likesByUser"].load(user["id"])
    return await info.context["postById"].load_many([like["post"] for like in likes])


async def _users(_: Any, info: Any) -> Any:
    return await info.context["allUsers"]([])


class Core:
    """Answers by graphql-core. Documents that were parsed and found valid are kept by their texts, or none are."""

    def __init__(self, schema: str, functions: BatchFunctions, keeps_documents: bool) -> None:
        self._functions, self._schema = functions, build_schema(schema)
        self._documents: dict[str, DocumentNode] | None = {} if keeps_documents else None
        _resolve(
            self._schema,
            "Query",
            user=lambda _, info, id: info.context["userById"].load(id),
            usersByIds=lambda _, info, ids: info.context["userById"].load_many(ids),
            users=_users,
        )
        _resolve(self._schema, "User", best=_best, posts=lambda user, info: info.context["postsByAuthor"].load(user["id"]), liked=_liked)
        _resolve(self._schema, "Post", author=lambda post, info: info.context["userById"].load(post["author"]))

    def _document(self, query: str) -> DocumentNode:
        document = self._documents.get(query) if self._documents is not None else None
        if document is None:
            document = parse(query)
            if validate(self._schema, document):
                raise ValueError(query)
            if self._documents is not None:
                self._documents[query] = document
        return document

    async def answer(self, query: str, variables: Any) -> Any:
        context: dict[str, Any] = {name: DataLoader(function) for name, function in self._functions.items() if name != "allUsers"}
        context["allUsers"] = self._functions["allUsers"]
        found = execute(self._schema, self._document(query), variable_values=variables, context_value=context)
        result = found if isinstance(found, ExecutionResult) else await found
        return result.formatted
