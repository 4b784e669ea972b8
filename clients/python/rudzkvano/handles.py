"""Handles of the C library, by `ctypes`: the calls that each request makes. Where the extension `_native` is built, its class of the same name makes
them in the place of this one."""

from __future__ import annotations

from array import array
from collections.abc import Callable, Sequence
from ctypes import addressof, byref, c_void_p
from itertools import chain
from threading import Lock, local
from typing import TYPE_CHECKING, Any

from .library import SIZES, Argument, Library, cut, pointer_to, words
from .loaders import Form, Keys, Loader, Order

if TYPE_CHECKING:
    from . import _native

# how large an answer or a round may be whose room is kept: in bytes, and in orders, keys, texts and bytes together; and how many rounds
_KEPT_ANSWER, _KEPT_ROUND, _KEPT_ROUNDS = 8192, 1024, 64


class _Answer:
    """Room for the bytes of an answer."""

    def __init__(self, size: int) -> None:
        self.bytes = array("B", bytes(size))
        self.at = pointer_to(self.bytes)


class _Round:
    """Room for the orders of a round, of so many orders, keys, texts and bytes: words, which are one after the other as `rz_orders` has them, and
    bytes."""

    def __init__(self, orders: int, keys: int, texts: int, size: int) -> None:
        self.words, self.bytes = words(2 * orders + keys + texts), array("B", bytes(size))
        starts, counts = (0, orders, 2 * orders, 2 * orders + keys), (orders, orders, keys, texts)
        places = [(pointer_to(self.words, start), SIZES[count]) for start, count in zip(starts, counts)]
        self.arguments = (*chain.from_iterable(places), pointer_to(self.bytes), SIZES[size])


class _Room(local):
    """What a thread has the library copy into. It is read at once, so all handles share it."""

    def __init__(self) -> None:
        self.sizes = array("Q", bytes(48))
        self.sizes_at = pointer_to(self.sizes)
        self.answer, self.rounds = _Answer(_KEPT_ANSWER), dict[tuple[int, ...], _Round]()

    def round(self, shape: tuple[int, ...]) -> _Round:
        room = _Round(*shape)
        if sum(shape) <= _KEPT_ROUND:
            if len(self.rounds) == _KEPT_ROUNDS:
                self.rounds.clear()
            self.rounds[shape] = room
        return room


_ROOM = _Room()


class Handle:
    """A handle that holds a server, what requests ask of one, or a client. It is freed with this object at the latest.

    A call that the library refuses raises `Refused`. Calls of a server wait for one another; whoever makes one of a client has acquired it.
    """

    # until there is a handle
    closed = True

    def __init__(self, library: Library) -> None:
        self._library, self._calls, self._lock, self._held = library, library.calls, Lock(), c_void_p()
        self._argument: Any = byref(self._held)
        self.closed = False

    def _call(self, call: Callable[..., int], *arguments: Argument | bytes) -> int:
        code = call(self._argument, *arguments)
        if code < 0:
            raise self._library.refused(code)
        return code

    @property
    def address(self) -> int:
        """Where the handle is. It stays there."""
        return addressof(self._held)

    def close(self) -> None:
        """Frees what is held. Further calls are refused by RZ_BAD_HANDLE."""
        if not self.closed:
            self.closed = True
            self._calls.rz_close(self._argument)

    # what nobody has any more is in no call
    __del__ = close

    # ---- Of a server.

    def client(self, limits: bytes) -> Handle:
        """A client, with a word for each loader that says how many keys an order may have, or none."""
        made = Handle(self._library)
        with self._lock:
            self._call(self._calls.rz_client, made._argument, limits, SIZES[len(limits) // 4])
        return made

    def queries(self) -> Handle:
        """Queries, which keep nothing yet."""
        made = Handle(self._library)
        with self._lock:
            self._call(self._calls.rz_queries, made._argument)
        return made

    # ---- Of a client.

    def acquire(self) -> bool:
        """Takes the client, if nobody has it."""
        return self._lock.acquire(blocking=False)

    def release(self) -> None:
        """Lets the client go."""
        self._lock.release()

    def begin(self, queries: Handle, line: str | bytes) -> None:
        """Begins the answer to a request that is JSON text, or to an array of these."""
        text = _bytes_of(line)
        self._call(self._calls.rz_begin, queries._argument, text, SIZES[len(text)])

    def begin_request(self, queries: Handle, query: str, operation: str | None, variables: bytes | None) -> None:
        """Begins the answer to a query."""
        text, name, given = _bytes_of(query), _bytes_of(operation), _bytes_of(variables)
        texts = text, SIZES[len(text)], name, SIZES[len(name)], given, SIZES[len(given)]
        self._call(self._calls.rz_begin_request, queries._argument, *texts)

    def advance(self) -> int:
        """Goes on: 0 where all is done, 1 where a round is out, 2 where an order has no reply."""
        return self._call(self._calls.rz_next)

    def cancel(self) -> None:
        """Gives up what was begun."""
        self._call(self._calls.rz_cancel)

    def sizes(self) -> list[int]:
        """How many orders, keys, texts and bytes a round has, how many bytes the answer has, and how many rounds it took."""
        room = _ROOM
        self._call(self._calls.rz_sizes, room.sizes_at)
        return room.sizes.tolist()

    def orders(self, loaders: Sequence[Loader]) -> list[Order]:
        """The orders of the round that is out, which are of these loaders."""
        shape = tuple(self.sizes()[:4])
        room = _ROOM.rounds.get(shape) or _ROOM.round(shape)
        self._call(self._calls.rz_orders, *room.arguments)
        count, told = shape[0], room.words.tolist()
        asked, counts, keys = [loaders[number] for number in told[:count]], told[count : 2 * count], sum(told[count : 2 * count])
        return list(map(Order, range(count), asked, keys_of(asked, counts, cut(told[2 * count + keys :], room.bytes.tobytes()))))

    def take_rows(self, order: int, columns: int, rows: bytes, ends: bytes, data: bytes) -> None:
        """Takes the reply to an order: for each key how many rows it has, as words, and all texts with the words of their ends."""
        counted = rows, SIZES[len(rows) // 4]
        self._call(self._calls.rz_take_rows, SIZES[order], SIZES[columns], *counted, ends, SIZES[len(ends) // 4], data, SIZES[len(data)])

    def take_returned(self, order: Order, returned: Any, form: Form | None, text_of: Callable[[Any], str]) -> bool:
        """Takes what a batch function returned for an order, if that can be read here: not without the extension."""
        return False

    def text(self) -> str:
        """The answer."""
        size = self.sizes()[4]
        room = _ROOM.answer if size <= _KEPT_ANSWER else _Answer(size)
        self._call(self._calls.rz_answer, room.at, SIZES[size])
        return str(memoryview(room.bytes)[:size], "utf-8")


def _bytes_of(text: str | bytes | None) -> bytes:
    return text if isinstance(text, bytes) else text.encode(errors="surrogatepass") if text else b""


def keys_of(loaders: Sequence[Loader], counts: Sequence[int], texts: list[str]) -> list[Keys]:
    """The keys of batches of these loaders, each with its number of keys in `counts`."""
    if len(loaders) == 1 and len(loaders[0].columns) == 1:
        return [texts]
    found: list[Keys] = []
    start = 0
    for loader, count in zip(loaders, counts):
        end = start + len(loader.columns) * count
        part = texts[start:end]
        if len(loader.columns) < 2:
            found.append(part)
        else:
            found.append(list(zip(part[::2], part[1::2])))
        start = end
    return found


class Opened:
    """A server that a handle holds, with the queries of each thread that asks it. A `Server` and its clients share it."""

    def __init__(self, library: Library) -> None:
        self.library, self._of_thread = library, local()
        self.handle: _native.Handle = library.native.handle() if library.native else Handle(library)

    def queries(self) -> _native.Handle:
        """Those of the thread that calls, with which they go."""
        try:
            queries: _native.Handle = self._of_thread.queries
        except AttributeError:
            queries = self._of_thread.queries = self.handle.queries()
        return queries
