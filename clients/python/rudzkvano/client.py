"""A client: a memory of what the loaders returned. It answers one request at a time, or loads keys, in rounds of batches."""

from __future__ import annotations

import asyncio
import json
from array import array
from collections.abc import Callable, Coroutine, Iterable, Mapping, Sequence
from contextlib import suppress
from ctypes import byref, c_uint32
from enum import IntEnum
from functools import wraps
from itertools import chain
from time import perf_counter
from types import CoroutineType, MappingProxyType
from typing import TYPE_CHECKING, Any, Concatenate, NamedTuple, NoReturn, ParamSpec, TypeAlias, TypeVar, Union

from .errors import OnError, edit_errors, fault_text, has_extensions, message_of, parted
from .handles import Opened, keys_of
from .library import BUSY, COUNTS, NO_COLUMN, NO_KEY_COLUMN, NOT_ASKED, SIZES, Argument, Refused, buffers, cut, flat, packed, pointer_to, texts_of
from .library import words, words_of
from .limits import MOST_ROUNDS, Limits, checked_limit
from .loaders import Batch, Form, Keys, Loaded, Loader, Loaders, OnRound, Order, Ran, Round
from .native import NATIVE
from .rows import AnyReply, Keyed, Misfit, Reply, Unread, item_of, outcomes_of, reply_of, text_of, unread_of, without_casts

if TYPE_CHECKING:
    from ._native import Rows

# The text of a query; a request with `query`, `variables` and `operationName`; 1 to 16 of these, which share their rounds; or JSON text of those.
Query: TypeAlias = Union[str, Mapping[str, Any], Sequence[Mapping[str, Any]], bytes]
Variables: TypeAlias = Union[Mapping[str, Any], None]
# what a batch function returned, or the error by which the batch failed; and after how many seconds
_Outcome: TypeAlias = tuple[Union[AnyReply, Exception], float]
# tells the answer to a query that another library answers, or None
Introspect: TypeAlias = Callable[[Query, Variables, Union[str, None]], Union[str, None]]


class Progress(IntEnum):
    """How far a request or a load is."""

    DONE = 0
    ROUND = 1
    WAITING = 2


# the number of a row, which nobody reads
_ANY_ROW = Argument(byref(c_uint32()))
_P = ParamSpec("_P")
_T = TypeVar("_T")


def _alone(call: Callable[Concatenate[Client, _P], _T]) -> Callable[Concatenate[Client, _P], _T]:
    """A call that is refused by RZ_BUSY while the client is in another one, as it is while it answers."""

    @wraps(call)
    def alone(self: Client, /, *arguments: _P.args, **named: _P.kwargs) -> _T:
        self._take_alone()
        try:
            return call(self, *arguments, **named)
        finally:
            self._handle.release()

    return alone


class Asks(NamedTuple):
    """How a client asks: how lists of batch functions are read, by the names of their loaders, and what is told of rounds and errors."""

    on_round: OnRound | None = None
    on_error: OnError | None = None
    introspect: Introspect | None = None
    forms: Mapping[str, Form] = MappingProxyType({})


_PLAIN = Asks()


class Client:
    """A memory of what the loaders returned; `Server.client` makes one. It does one thing at a time.

    `answer`, `load_many` and their async siblings run the rounds. A host that runs them itself calls `begin`, `begin_request` or `begin_load`, and
    then `next` up to Progress.DONE; where that returns Progress.ROUND, it calls `orders`, and `reply` or `fail` for each of these. `text` is
    the answer, and `outcomes` what was loaded.
    """

    # columns that were left out of a reply, with the loader and the reason
    _unread: Mapping[str, tuple[Loader, Unread]] = MappingProxyType({})
    _has_extensions = False
    _max_answer: int | None = None

    def __init__(
        self, opened: Opened, loaders: Sequence[Loader], functions: Loaders, asks: Asks = _PLAIN, limits: bytes = b""
    ) -> None:
        self._opened, self._loaders, self._functions, self._asks = opened, loaders, functions, asks
        self._handle = opened.handle.client(limits)

    @property
    def closed(self) -> bool:
        return self._handle.closed

    def __enter__(self) -> Client:
        return self

    def __exit__(self, *_: object) -> None:
        self.close()

    # ---- Answers.

    def answer(self, query: Query, variables: Variables = None, operation_name: str | None = None) -> Any:
        """The response: a dict with `data` and `errors`, or for a list of requests a list of these."""
        return read_json(self.answer_text(query, variables, operation_name))

    async def answer_async(self, query: Query, variables: Variables = None, operation_name: str | None = None) -> Any:
        """The response, with batch functions that may be coroutines. The batches of a round run at the same time."""
        return read_json(await self.answer_text_async(query, variables, operation_name))

    def answer_text(self, query: Query, variables: Variables = None, operation_name: str | None = None) -> str:
        """The text of the response."""
        if self._asks.introspect and (text := self._introspected(self._asks.introspect, query, variables, operation_name)) is not None:
            return text
        self._start(query, variables, operation_name)
        return self._finish(self._text)

    async def answer_text_async(self, query: Query, variables: Variables = None, operation_name: str | None = None) -> str:
        """The text of the response, with batch functions that may be coroutines."""
        if self._asks.introspect and (text := self._introspected(self._asks.introspect, query, variables, operation_name)) is not None:
            return text
        self._start(query, variables, operation_name)
        return await self._finish_async(self._text)

    def load_many(self, loader: str, keys: Iterable[Any]) -> list[Loaded]:
        """For each key its rows, in order, or a `LoadFault`. Keys that aren't known are asked for in one round, of equal keys only the first."""
        self._start_load(loader, keys)
        return self._finish(self._outcomes)

    async def load_many_async(self, loader: str, keys: Iterable[Any]) -> list[Loaded]:
        """The same, with batch functions that may be coroutines."""
        self._start_load(loader, keys)
        return await self._finish_async(self._outcomes)

    def _finish(self, result: Callable[[], _T]) -> _T:
        """Runs the rounds of what was begun, and lets the client go."""
        handle, number = self._handle, 0
        try:
            while handle.advance():
                orders = handle.orders(self._loaders)
                number += 1
                if len(orders) > 1 or self._asks.on_round is not None:
                    self._end_round(number, orders, list(map(self._run, orders)))
                    continue
                try:
                    returned = self._asked(orders[0])
                    is_awaitable = hasattr(returned, "__await__")
                except Exception as error:
                    self._end(orders[0], error)
                else:
                    self._end_with(orders[0], _not_awaited(orders[0], returned) if is_awaitable else returned)
            return result()
        except BaseException:
            self._give_up()
            raise
        finally:
            handle.release()

    async def _finish_async(self, result: Callable[[], _T]) -> _T:
        """Runs the rounds of what was begun, whose batch functions may be coroutines, and lets the client go."""
        handle, number = self._handle, 0
        try:
            while handle.advance():
                orders = handle.orders(self._loaders)
                number += 1
                if len(orders) > 1 or self._asks.on_round is not None:
                    self._end_round(number, orders, await self._run_together(orders))
                    continue
                # a round of one batch, without a coroutine for it, which takes longer than many a batch does
                try:
                    returned = self._asked(orders[0])
                    if type(returned) is CoroutineType or hasattr(returned, "__await__"):
                        returned = await returned
                except Exception as error:
                    self._end(orders[0], error)
                else:
                    self._end_with(orders[0], returned)
            return result()
        except BaseException:
            self._give_up()
            raise
        finally:
            handle.release()

    def _introspected(self, introspect: Introspect, query: Query, variables: Variables, operation_name: str | None) -> str | None:
        """The answer to a query that is answered without this client."""
        text = introspect(query, variables, operation_name)
        if text is not None and self._max_answer is not None and len(text.encode()) > self._max_answer:
            return '{"errors":[{"message":"answer too long"}]}'
        return text

    def _start_load(self, loader: str, keys: Iterable[Any]) -> None:
        """Takes the client, and begins a load."""
        self._take_alone()
        try:
            self._begin_load(loader, keys)
        except BaseException:
            self._handle.release()
            raise

    def _start(self, query: Query, variables: Variables, operation_name: str | None) -> None:
        """Takes the client, and begins a request."""
        if not self._handle.acquire():
            raise self._opened.library.refused(BUSY)
        try:
            if isinstance(query, str) and operation_name != "":
                given = None if variables is None else _json_of(variables)
                self._handle.begin_request(self._opened.queries(), query, operation_name, given)
            elif isinstance(query, str):
                self._begin(_json_of({"query": query, "operationName": "", "variables": variables}))
            elif variables is not None or operation_name is not None:
                raise TypeError("a request has its variables and its operationName in itself")
            else:
                self._begin(query if isinstance(query, bytes) else _json_of(query))
        except BaseException:
            self._handle.release()
            raise

    def _take_alone(self) -> None:
        if not self._handle.acquire():
            raise self._opened.library.refused(BUSY)

    def _give_up(self) -> None:
        """Gives up what was begun, unless it is done."""
        with suppress(Refused):
            self._handle.cancel()

    def _run(self, order: Order) -> _Outcome:
        start = perf_counter()
        try:
            returned = self._asked(order)
            is_awaitable = hasattr(returned, "__await__")
        except Exception as error:
            return error, perf_counter() - start
        return self._read(order, _not_awaited(order, returned) if is_awaitable else returned), perf_counter() - start

    async def _run_async(self, order: Order) -> _Outcome:
        """Leaves the client as it is: a batch function that goes on after it was cancelled does no harm."""
        start = perf_counter()
        try:
            returned = self._asked(order)
            if hasattr(returned, "__await__"):
                returned = await returned
        except Exception as error:
            return error, perf_counter() - start
        return self._read(order, returned), perf_counter() - start

    async def _run_together(self, orders: list[Order]) -> list[_Outcome]:
        if len(orders) == 1:
            return [await self._run_async(orders[0])]
        tasks = [asyncio.ensure_future(self._run_async(order)) for order in orders]
        try:
            outcomes: list[_Outcome] = await asyncio.gather(*tasks)
            return outcomes
        except BaseException:
            for task in tasks:
                task.cancel()
            raise

    def _form(self, order: Order) -> Form | None:
        """How a list is read that a batch function returned, if somebody says it."""
        return self._asks.forms.get(order.loader.name)

    def _read(self, order: Order, returned: Any) -> AnyReply | Exception:
        """The reply that a batch function returned, or the error by which the batch fails."""
        try:
            return reply_of(order.loader, order.keys, returned, self._form(order))
        except Exception as error:
            return error

    def _asked(self, order: Order) -> Any:
        function = self._functions.get(order.loader.name)
        if function is None:
            raise LookupError(f"no function for loader {order.loader.name}")
        return function(order.keys)

    def _end_round(self, number: int, orders: list[Order], outcomes: list[_Outcome]) -> None:
        """Takes what the batches of a round returned, and tells of it."""
        failed = [self._end(order, reply) for order, (reply, _) in zip(orders, outcomes)]
        if self._asks.on_round is not None:
            told = zip(orders, outcomes, failed)
            batches = [Ran(it.loader.name, it.keys, seconds * 1000, None if why is None else message_of(why)) for it, (_, seconds), why in told]
            self._asks.on_round(Round(number, batches))

    def _end_with(self, order: Order, returned: Any) -> None:
        """Takes what the batch function of an order returned."""
        form = self._form(order) if self._asks.forms else None
        if not self._handle.take_returned(order, returned, form, text_of):
            self._end(order, self._read(order, returned))

    def _end(self, order: Order, reply: AnyReply | Exception) -> Exception | None:
        """Takes what a batch returned. Returns the error by which it failed as a whole, if it did."""
        if not isinstance(reply, Exception):
            try:
                self._take(order, reply)
                return None
            except Misfit as misfit:
                reply = misfit
        self._fail(order, self._fault_text(reply, order.loader, order.keys))
        return reply

    def _fault_text(self, error: Exception, loader: Loader, keys: Keys) -> str:
        text = fault_text(error, loader.name, keys, self._asks.on_error)
        self._has_extensions = self._has_extensions or has_extensions(text)
        return text

    def _with_faults(self, loader: Loader, reply: Reply) -> Reply:
        return reply.with_faults([self._fault_text(error, loader, [key]) for key, error in reply.faults]) if reply.faults else reply

    # ---- Rounds by hand.

    def _begin(self, line: str | bytes) -> None:
        """Begins the answer to a request that is JSON text, or to an array of 1 to 16 of these."""
        self._handle.begin(self._opened.queries(), line)

    def _begin_request(self, query: str, operation_name: str | None = None, variables: Variables = None) -> None:
        """Begins the answer to a query."""
        given = None if variables is None else _json_of(variables)
        self._handle.begin_request(self._opened.queries(), query, operation_name, given)

    def _begin_load(self, loader: str, keys: Iterable[Any]) -> None:
        """Begins to load keys of a loader."""
        asked = self._loader(loader)
        texts = [_key_texts(asked, key) for key in keys]
        shapes = words_of([len(asked.columns)] * len(texts))
        self._call("rz_begin_load", SIZES[asked.number], *shapes, *texts_of(*flat(list(chain.from_iterable(texts)))))

    def _call(self, name: str, *arguments: Argument | bytes) -> int:
        """Makes a call of this name. Whoever makes one has taken the client."""
        library = self._opened.library
        return library.call(getattr(library.calls, name), self._handle.address, *arguments)

    def _orders(self) -> list[Order]:
        """The orders of the round that is out."""
        return self._handle.orders(self._loaders)

    def _reply(self, order: Order, returned: Any) -> None:
        """Takes the reply to an order: what a batch function returns."""
        self._take(order, reply_of(order.loader, order.keys, returned, self._form(order)))

    def _take(self, order: Order, reply: AnyReply) -> None:
        if not isinstance(reply, (Keyed, Reply)):
            self._take_read(order, reply)
            return
        if isinstance(reply, Keyed):
            self._take_keyed(order, reply)
            unread = unread_of(order.loader, order.keys, reply)
        else:
            columns, rows, ends, data, _, unread = self._with_faults(order.loader, reply)
            self._handle.take_rows(order.number, columns, packed(rows), ends, data)
        if unread:
            self._unread = {**self._unread, **{column: (order.loader, why) for column, why in unread.items()}}

    def _take_read(self, order: Order, rows: Rows) -> None:
        """The same of what the extension has read."""
        try:
            self._handle.take(order.number, rows)
        except Refused as refused:
            self._without_casts(order, Keyed(rows.columns, rows.rows, rows.ends, rows.data, {}), refused)

    def _take_keyed(self, order: Order, reply: Keyed) -> None:
        """Has the library align rows with the keys of an order."""
        try:
            self._hand_in(order, reply, {})
        except Refused as refused:
            self._without_casts(order, reply, refused)

    def _without_casts(self, order: Order, reply: Keyed, refused: Refused) -> None:
        """Takes rows that the library refused to align, where they are of other keys only if the database cast these: then the keys have a fault.
        Raises Misfit where they aren't rows of these keys."""
        if refused.code not in (NO_COLUMN, NO_KEY_COLUMN, NOT_ASKED):
            raise refused
        self._hand_in(order, *without_casts(order.loader, order.keys, reply))

    def _hand_in(self, order: Order, reply: Keyed, faults: Mapping[int, Exception]) -> None:
        texts = [self._fault_text(error, order.loader, [order.keys[place]]) for place, error in faults.items()]
        columns, rows, ends, data, _ = reply.with_faults(texts) if faults else reply
        size = SIZES[order.number], SIZES[len(columns)], COUNTS[rows]
        self._call("rz_take_keyed_rows", *size, *words_of(tuple(faults)), *texts_of(ends, data), _ANY_ROW)

    def _fail(self, order: Order, text: str) -> None:
        """Takes it that the batch of an order failed as a whole."""
        data = text.encode()
        self._call("rz_take_failed", SIZES[order.number], data, SIZES[len(data)])

    def _text(self) -> str:
        """The text of the answer."""
        text = self._handle.text()
        if not self._unread and not self._has_extensions:
            return text
        reasons: dict[str, str] = {}
        return edit_errors(text, lambda error: self._edit_error(error, reasons))

    def _edit_error(self, error: dict[str, Any], reasons: dict[str, str]) -> None:
        """Parts an error's message from its extensions. Of a column that was left out it says why: `reasons` are those that were told."""
        message = error["message"]
        column = message.removeprefix("no column ")
        if column != message and column in self._unread:
            loader, (why, key) = self._unread[column]
            keys: Keys = [] if key is None else [key]
            message = reasons[column] = reasons.get(column) or self._fault_text(why, loader, keys)
        error["message"], extensions = parted(message)
        if extensions:
            error["extensions"] = extensions

    def _outcomes(self) -> list[Loaded]:
        """For each key that was loaded its rows, or a `LoadFault`."""
        sizes = array("Q", bytes(48))
        self._call("rz_load_sizes", pointer_to(sizes))
        keys, rows, texts, size, faults, fault_size = sizes
        counts, widths, ends, fault_ends = map(words, (keys, rows, texts, faults))
        data, fault_data = array("B", bytes(size)), array("B", bytes(fault_size))
        self._call("rz_loaded", *buffers(counts, widths, ends, data, fault_ends, fault_data))
        reasons = cut(fault_ends.tolist(), fault_data.tobytes())
        return outcomes_of(counts.tolist(), widths.tolist(), cut(ends.tolist(), data.tobytes()), reasons)

    begin = _alone(_begin)
    begin_request = _alone(_begin_request)
    begin_load = _alone(_begin_load)
    orders = _alone(_orders)
    reply = _alone(_reply)
    fail = _alone(_fail)
    text = _alone(_text)
    outcomes = _alone(_outcomes)

    @_alone
    def next(self) -> Progress:
        """Goes on."""
        return Progress(self._handle.advance())

    @_alone
    def cancel(self) -> None:
        """Gives up the request that is being answered, or the keys that are loaded."""
        self._handle.cancel()

    @_alone
    def rounds(self) -> int:
        """How many rounds the answer took."""
        return self._handle.sizes()[5]

    # ---- What is known.

    @_alone
    def restart(self) -> None:
        """Forgets all keys, logs and rounds."""
        self._call("rz_restart")
        self._unread = {}

    @_alone
    def limit_answers(self, most: int | None) -> None:
        """From now on an answer has at most `most` bytes; None is no limit."""
        self._call("rz_limit_answers", SIZES[0 if most is None else checked_limit("max_answer", most)])
        self._max_answer = most

    @_alone
    def limit_work(self, most: int | None) -> None:
        """From now on a request, or all of a list in sum, may be at most `most` work; None is no limit."""
        self._call("rz_limit_work", SIZES[0 if most is None else checked_limit("max_work", most)])

    @_alone
    def limit_rounds(self, most: int | None) -> None:
        """From now on a request, or all of a list together, may take at most `most` rounds; None is no limit."""
        self._call("rz_limit_rounds", COUNTS[0 if most is None else checked_limit("max_rounds", most, MOST_ROUNDS)])

    def _limit(self, limits: Limits) -> None:
        """Sets the limits that are given. The others stay."""
        if limits.answer is not None:
            self.limit_answers(limits.answer)
        if limits.work is not None:
            self.limit_work(limits.work)
        if limits.rounds is not None:
            self.limit_rounds(limits.rounds)

    @_alone
    def prime(self, loader: str, key: Any, rows: Any) -> bool:
        """Knows these rows of a key, unless something is known of it: rows, one row, None or an error. Returns whether they were added."""
        asked, primed = self._loader(loader), words(1)
        texts = _key_texts(asked, key)
        columns, counts, ends, data, _, _ = self._with_faults(asked, item_of(asked, _key_of(texts), rows))
        item = SIZES[columns], COUNTS[counts[0]], *texts_of(ends, data)
        self._call("rz_prime", SIZES[asked.number], *texts_of(*flat(texts)), *item, pointer_to(primed))
        return bool(primed[0])

    @_alone
    def clear(self, loader: str, key: Any) -> bool:
        """Forgets a key. Returns whether something was known of it."""
        asked, was_known = self._loader(loader), words(1)
        self._call("rz_clear", SIZES[asked.number], *texts_of(*flat(_key_texts(asked, key))), pointer_to(was_known))
        return bool(was_known[0])

    @_alone
    def clear_all(self, loader: str) -> None:
        """Forgets all keys of a loader."""
        self._call("rz_clear_all", SIZES[self._loader(loader).number])

    @_alone
    def log(self, loader: str) -> list[Batch]:
        """The batches that a loader was asked for since the client was made or restarted."""
        asked, sizes = self._loader(loader), array("Q", bytes(32))
        self._call("rz_log_sizes", SIZES[asked.number], pointer_to(sizes))
        batches, keys, texts, size = sizes
        rounds, stored, counts, lengths, ends = map(words, (batches, batches, batches, keys, texts))
        data = array("B", bytes(size))
        self._call("rz_log", SIZES[asked.number], *buffers(rounds, stored, counts, lengths, ends, data))
        lists = keys_of([asked] * batches, counts.tolist(), cut(ends.tolist(), data.tobytes()))
        return list(map(Batch, rounds, map(bool, stored), lists))

    @_alone
    def close(self) -> None:
        """Frees the client. It is refused by RZ_BUSY while the client answers; further calls are refused by RZ_BAD_HANDLE."""
        self._handle.close()

    def _loader(self, name: str) -> Loader:
        for loader in self._loaders:
            if loader.name == name:
                return loader
        raise ValueError(f"the bindings have no loader {name}")


_encode_json = json.JSONEncoder(allow_nan=False).encode


def _json_of(value: object) -> bytes:
    """JSON text. Raises TypeError or ValueError for what has none."""
    return (NATIVE and NATIVE.json_of(value)) or _encode_json(value).encode()


_scan_json: Callable[[str, int], tuple[Any, int]] = json.JSONDecoder().scan_once  # type: ignore[attr-defined]


def read_json(text: str) -> Any:
    """What JSON text that begins and ends without blanks says."""
    return _scan_json(text, 0)[0]


def _not_awaited(order: Order, returned: Any) -> NoReturn:
    """Refuses an awaitable that a batch function returned, where nothing awaits it."""
    if isinstance(returned, Coroutine):
        returned.close()
    raise TypeError(f"the function of loader {order.loader.name} returned an awaitable, which only answer_async awaits")


def _key_of(texts: list[str]) -> Any:
    return tuple(texts) if len(texts) == 2 else "".join(texts)


def _key_texts(loader: Loader, key: Any) -> list[str]:
    """The texts of a key: of a loader of all rows (None) none, of a pair two."""
    parts = [] if key is None else key if isinstance(key, (list, tuple)) else [key]
    if len(parts) != len(loader.columns):
        raise ValueError(f"loader {loader.name}: a key of {len(parts)} values for {len(loader.columns)} columns")
    return list(map(text_of, parts))
