"""A server: a schema with its bindings. It answers requests, each by a memory of its own."""

from __future__ import annotations

import os
from array import array
from collections.abc import Mapping
from typing import TYPE_CHECKING, Any, TypeAlias, TypedDict, Union

from .client import Asks, Client, Introspect, Query, Variables, read_json
from .handles import Opened
from .errors import OnError
from .introspection import GraphQL, Introspection
from .library import BAD_SCHEMA, SIZES, Argument, Library, Refused, SchemaFault, buffers, cut, packed, pointer_to, words
from .limits import Limits, checked_limit
from .loaders import Forms, Loader, Loaders, OnRound, checked_forms

if TYPE_CHECKING:
    from typing_extensions import Unpack

MaxBatch: TypeAlias = Union[int, Mapping[str, int], None]


class _AskOptions(TypedDict, total=False):
    on_round: Union[OnRound, None]
    on_error: Union[OnError, None]
    introspection: Union[GraphQL, None]
    rows: Forms


class _AnswerOptions(_AskOptions, total=False):
    max_answer: Union[int, None]
    max_work: Union[int, None]
    max_rounds: Union[int, None]


class Options(_AnswerOptions, total=False):
    """`max_batch`: the greatest number of keys in one batch, for all loaders or by their names, 1 to 65,535. `max_answer`: the greatest number of
    bytes in an answer. `max_work`: how much work a request may be at most, or all of a list in sum: how many positions its answer has.
    `max_rounds`: how many rounds it may take at most. `on_round`: what is called after each round. `on_error`: what is called with each error of
    a batch function, and says what callers are told of it. `introspection`: the module `graphql` of graphql-core, which answers operations that
    ask for `__schema` or `__type` alone, without the limits on work and rounds. `rows`: how the lists of all loaders, or of loaders by their
    names, are read: "aligned" or "in_any_order". Each may be None."""

    max_batch: MaxBatch


class Server:
    """A schema with its bindings. `library` is the path of the C library, or a Library."""

    closed = False

    def __init__(self, schema: str, bindings: str, library: str | os.PathLike[str] | Library | None = None) -> None:
        self._library = library if isinstance(library, Library) else Library(library)
        self._opened = Opened(self._library)
        texts, fault = (schema.encode(), bindings.encode()), array("Q", bytes(24))
        arguments: list[Argument | bytes] = [texts[0], SIZES[len(texts[0])], texts[1], SIZES[len(texts[1])]]
        try:
            self._call("rz_open", *arguments, pointer_to(fault))
        except Refused as refused:
            if refused.code != BAD_SCHEMA:
                raise
            line, column, rest = fault
            place = rest & 0xFFFFFFFF, line, column, bool(rest >> 32)
            raise SchemaFault(refused, *place, self._library.fault_text(pointer_to(fault), arguments)) from None
        self.loaders = self._read_loaders()
        self._names = frozenset(loader.name for loader in self.loaders)
        self._schema = schema
        self._introspection: Introspection | None = None

    def _call(self, name: str, *arguments: Argument | bytes) -> int:
        """Makes a call of this name, while nobody else has the server."""
        return self._library.call(getattr(self._library.calls, name), self._opened.handle.address, *arguments)

    def _read_loaders(self) -> tuple[Loader, ...]:
        sizes = array("Q", bytes(16))
        self._call("rz_loaders_sizes", pointer_to(sizes))
        kinds, ends, data = words(sizes[0]), words(4 * sizes[0]), array("B", bytes(sizes[1]))
        self._call("rz_loaders", *buffers(kinds, ends, data))
        texts = cut(ends.tolist(), data.tobytes())
        loaders = []
        for number, kind in enumerate(kinds):
            name, table, *columns = texts[4 * number : 4 * number + 4]
            loaders.append(Loader(number, name, table, tuple(columns[: kind % 4]), kind >= 4))
        return tuple(loaders)

    def answer(
        self,
        query: Query,
        loaders: Loaders,
        variables: Variables = None,
        operation_name: str | None = None,
        **options: Unpack[Options],
    ) -> Any:
        """The response: a dict with `data` and `errors`, or for a list of requests a list of these. Nothing is remembered."""
        return read_json(self.answer_text(query, loaders, variables, operation_name, **options))

    async def answer_async(
        self,
        query: Query,
        loaders: Loaders,
        variables: Variables = None,
        operation_name: str | None = None,
        **options: Unpack[Options],
    ) -> Any:
        """The response, with batch functions that may be coroutines. The batches of a round run at the same time."""
        client = self._made(loaders, **options) if options else self._plain(loaders)
        try:
            return read_json(await client.answer_text_async(query, variables, operation_name))
        finally:
            client._handle.close()

    def answer_text(
        self,
        query: Query,
        loaders: Loaders,
        variables: Variables = None,
        operation_name: str | None = None,
        **options: Unpack[Options],
    ) -> str:
        """The text of the response."""
        client = self._made(loaders, **options) if options else self._plain(loaders)
        try:
            return client.answer_text(query, variables, operation_name)
        finally:
            client._handle.close()

    async def answer_text_async(
        self,
        query: Query,
        loaders: Loaders,
        variables: Variables = None,
        operation_name: str | None = None,
        **options: Unpack[Options],
    ) -> str:
        """The text of the response, with batch functions that may be coroutines."""
        client = self._made(loaders, **options) if options else self._plain(loaders)
        try:
            return await client.answer_text_async(query, variables, operation_name)
        finally:
            client._handle.close()

    def client(self, loaders: Loaders, **options: Unpack[Options]) -> Client:
        """A client with a memory of its own, which goes on from request to request. It knows nothing."""
        return self._made(loaders, **options)

    def close(self) -> None:
        """Frees the server. Its clients go on."""
        # what is open goes with the last of them, and the new handle is empty
        self._opened, self.closed = Opened(self._library), True

    def __enter__(self) -> Server:
        return self

    def __exit__(self, *_: object) -> None:
        self.close()

    def _plain(self, loaders: Loaders) -> Client:
        """A client without options, as the most requests want it."""
        if not self._names.issuperset(loaders):
            self._check(loaders)
        return Client(self._opened, self.loaders, loaders)

    def _made(self, loaders: Loaders, max_batch: MaxBatch = None, **options: Unpack[_AnswerOptions]) -> Client:
        self._check(loaders)
        limits, asks = self._parted(**options)
        client = Client(self._opened, self.loaders, loaders, asks, self._limits(max_batch))
        client._limit(limits)
        return client

    def _parted(
        self,
        max_answer: int | None = None,
        max_work: int | None = None,
        max_rounds: int | None = None,
        **asks: Unpack[_AskOptions],
    ) -> tuple[Limits, Asks]:
        """The limits of answers, and how a client asks."""
        return Limits(max_answer, max_work, max_rounds), self._asks(**asks)

    def _asks(
        self,
        on_round: OnRound | None = None,
        on_error: OnError | None = None,
        introspection: GraphQL | None = None,
        rows: Forms = None,
    ) -> Asks:
        forms = checked_forms(rows, self._names)
        self._check(forms)
        return Asks(on_round, on_error, self._introspect(introspection) if introspection else None, forms)

    def _introspect(self, graphql: GraphQL) -> Introspect:
        """What answers introspection by this module."""
        if self._introspection is None or self._introspection.graphql is not graphql:
            self._introspection = Introspection(graphql, self._schema)
        return self._introspection.answer

    def _check(self, loaders: Mapping[str, Any]) -> None:
        if not self._names.issuperset(loaders):
            raise ValueError(f"the bindings have no loader {min(loaders.keys() - self._names)}")

    def _limits(self, max_batch: MaxBatch) -> bytes:
        """For each loader a word that says how many keys one batch may have, and 0 for no limit; or nothing, if there are no limits."""
        if max_batch is None:
            return b""
        by_name = max_batch if isinstance(max_batch, Mapping) else dict.fromkeys(self._names, max_batch)
        self._check(by_name)
        for name, limit in by_name.items():
            checked_limit(f"max_batch of loader {name}", limit, 65535)
        return packed([by_name.get(loader.name, 0) for loader in self.loaders])
