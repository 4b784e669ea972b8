"""Loaders, what is asked of them, and the types of what a batch function returns."""

from __future__ import annotations

from collections.abc import Awaitable, Callable, Iterable, Mapping, Sequence
from dataclasses import dataclass
from datetime import date
from decimal import Decimal
from typing import Any, Literal, NamedTuple, Protocol, TypeAlias, Union, get_args
from uuid import UUID

# Keys of one batch: texts for a loader by one column, pairs of texts for one by two, and none for a loader of all rows.
Keys: TypeAlias = Union[list[str], list[tuple[str, str]]]
Value: TypeAlias = Union[str, int, float, bool, Decimal, date, UUID, None]


class Row(Protocol):
    """A row by name: a dict, a `sqlite3.Row`, or another object that has its columns as `keys()`. A named tuple is a row too, and so is one of
    SQLAlchemy."""

    def keys(self) -> Iterable[str]: ...

    def __getitem__(self, column: str, /) -> Any: ...


class Cursor(Protocol):
    """A cursor of the DB-API that has run a query."""

    @property
    def description(self) -> Any: ...

    def fetchall(self) -> Any: ...


Item: TypeAlias = Union[Row, Sequence[Row], Exception, None]
Table: TypeAlias = tuple[Sequence[str], Iterable[Sequence[Any]]]


@dataclass(frozen=True)
class Aligned:
    """What `aligned` makes."""

    items: Iterable[Item]


@dataclass(frozen=True)
class InAnyOrder:
    """What `in_any_order` makes."""

    rows: Iterable[Row] | Table | Cursor


def aligned(items: Iterable[Item]) -> Aligned:
    """An item for each key, in the order of the keys: rows, one row, None, or an error."""
    return Aligned(items)


def in_any_order(rows: Iterable[Row] | Table | Cursor) -> InAnyOrder:
    """Rows of all keys, each of which has its key in the columns of the loader. The library aligns them."""
    return InAnyOrder(rows)


# How a list is read that is neither: of all loaders by columns, or by their names. Where nobody says it, a list is read by its elements.
Form: TypeAlias = Literal["aligned", "in_any_order"]
Forms: TypeAlias = Union[Form, Mapping[str, Form], None]


def checked_forms(forms: Forms, names: Iterable[str]) -> Mapping[str, Form]:
    """How the lists of the loaders of these names are read."""
    by_name = forms if isinstance(forms, Mapping) else dict.fromkeys(names, forms) if forms is not None else {}
    for form in by_name.values():
        if form not in get_args(Form):
            raise ValueError(f"rows is 'aligned' or 'in_any_order', and not {form!r}")
    return by_name


Returned: TypeAlias = Union[Aligned, InAnyOrder, Iterable[Item], Table, Cursor]
BatchFunction: TypeAlias = Callable[[Any], Union[Returned, Awaitable[Returned]]]
Loaders: TypeAlias = Mapping[str, BatchFunction]
# the rows of a key that was loaded, by the names of their columns; or why it has none, as a `LoadFault`
Loaded: TypeAlias = Union["list[dict[str, str | None]]", Exception]


class Loader(NamedTuple):
    """What can be asked for: a table by none, one or two of its columns. `folds`: the case of A to Z makes no other key."""

    number: int
    name: str
    table: str
    columns: tuple[str, ...]
    folds: bool


class Order(NamedTuple):
    """A batch that is to be asked for, by its number in its round. A loader of all rows has no keys."""

    number: int
    loader: Loader
    keys: Keys


class Batch(NamedTuple):
    """A batch that a client asked for: in which round, from 1, and whether its replies were stored."""

    round: int
    stored: bool
    keys: Keys


class Ran(NamedTuple):
    """A batch that a round ran: the name of its loader, its keys, how long it took, and the text by which it failed as a whole, if it did."""

    loader: str
    keys: Keys
    milliseconds: float
    failed: str | None = None


class Round(NamedTuple):
    """A round of an answer, numbered from 1, with its batches."""

    round: int
    batches: list[Ran]


OnRound: TypeAlias = Callable[[Round], object]
