"""What a batch function returned, as the library takes it: rows in any order, or for each key how many rows it has; and all texts. And back: the rows
of loaded keys."""

from __future__ import annotations

from collections.abc import Callable, Iterable, Iterator, Mapping, Sequence
from datetime import date, datetime
from decimal import Decimal
from functools import lru_cache
from itertools import chain, islice
from operator import itemgetter
from string import ascii_lowercase, ascii_uppercase
from types import MappingProxyType, NoneType
from typing import TYPE_CHECKING, Any, NamedTuple, TypeAlias, Union
from uuid import UUID

from .errors import parted
from .library import BATCH_FAULT, KEY_FAULT, SAME_COLUMNS, LoadFault, cut, flat, numbers_of, packed
from .loaders import Aligned, Form, InAnyOrder, Keys, Loaded, Loader
from .native import NATIVE

if TYPE_CHECKING:
    from ._native import Rows


# reads dicts by the extension, if it is there and no more is to be said of them
_read_rows: Callable[[Any, Keys, Loader, Form | None, Callable[[Any], str]], Rows | None] = NATIVE.read_rows if NATIVE else lambda *_: None


class Unread(NamedTuple):
    """Why a column is left out: a value in it has no text. And the key of the row that has it, which a loader of all rows has not."""

    error: Exception
    key: Any = None


_NOTHING: Mapping[str, Any] = MappingProxyType({})


class Reply(NamedTuple):
    """The reply to a batch: how many columns, for each key the number of its rows, where each text ends, as words, and their bytes.

    `faults` are the errors of keys, each with its key. Their texts are those that come last, and aren't there before `with_faults` adds them.
    `unread` are the columns that are left out.
    """

    columns: int
    rows: list[int]
    ends: bytes
    data: bytes
    faults: Sequence[tuple[Any, Exception]] = ()
    unread: Mapping[str, Unread] = _NOTHING

    def with_faults(self, texts: list[str]) -> Reply:
        ends, data = _and_faults(self.ends, self.data, texts)
        return self._replace(ends=ends, data=data, faults=())


class Keyed(NamedTuple):
    """Rows in any order, which the library aligns with the keys: the names of their columns, how many rows there are, where each text ends, as words,
    and their bytes. `unread` are the columns that are left out, each with the number of a row whose value has no text, from 0, and the reason."""

    columns: Sequence[str]
    rows: int
    ends: bytes
    data: bytes
    unread: Mapping[str, tuple[int, Exception]]

    def with_faults(self, texts: list[str]) -> Keyed:
        ends, data = _and_faults(self.ends, self.data, texts)
        return self._replace(ends=ends, data=data)


def _and_faults(ends: bytes, data: bytes, texts: list[str]) -> tuple[bytes, bytes]:
    """The texts of a reply, and then those of the faults."""
    fault_ends, fault_data = flat(texts)
    return ends + packed([len(data) + end for end in numbers_of(fault_ends)]), data + fault_data


class Misfit(ValueError):
    """Rows in any order aren't those of the keys that were asked for."""


class _Shape(NamedTuple):
    """The columns of rows: their names, what takes their values from a row by name, and whether those of the loader are among them."""

    columns: tuple[str, ...]
    take: Callable[[Any], Iterable[Any]]
    has_keys: bool


# rows: their shape, and their values, row after row
_Table: TypeAlias = tuple[_Shape, list[Any]]


# what a batch function returned, as the extension reads it, or as it is read here
AnyReply: TypeAlias = Union["Rows", Reply, Keyed]


def reply_of(loader: Loader, keys: Keys, returned: Any, form: Form | None = None) -> AnyReply:
    """The reply that a batch function returned for these keys. `form` is how a bare list is read, if somebody says it. Raises TypeError or ValueError
    for what is none."""
    if type(returned) is list:
        read = _read_rows(returned, keys, loader, form, text_of)
    elif isinstance(returned, Aligned):
        read = _read_rows(returned.items, keys, loader, "aligned", text_of)
    elif isinstance(returned, InAnyOrder):
        read = _read_rows(returned.rows, keys, loader, "in_any_order", text_of)
    else:
        read = None
    return read or _texts_of_rows(loader, keys, returned, form)


def _texts_of_rows(loader: Loader, keys: Keys, returned: Any, form: Form | None) -> Reply | Keyed:
    """The reply as it is read here."""
    if isinstance(returned, Aligned):
        if not loader.columns:
            raise TypeError(f"loader {loader.name}: it has no keys that items are aligned with")
        return _aligned(loader, keys, _as_list(loader, returned.items))
    is_sorted = isinstance(returned, InAnyOrder)
    rows = returned.rows if is_sorted else returned
    table = None if type(rows) is list else _as_table(loader, rows)
    if table is None:
        items = rows if type(rows) is list else _as_list(loader, rows)
        if form == "aligned" and loader.columns and not is_sorted:
            return _aligned(loader, keys, items)
        table = _with_keys(loader, items, is_sorted or form == "in_any_order")
        if table is None:
            return _bare(loader, keys, items)
    return _keyed(loader, table)


def item_of(loader: Loader, key: Any, item: Any) -> Reply:
    """The reply of this key: its rows, one row, None, or the error that is its fault. Raises TypeError for a value that has no text."""
    table = _as_table(loader, item)
    if table is None:
        reply = _aligned(loader, [key], [item])
    else:
        shape, values = table
        counts = [len(values) // len(shape.columns)]
        reply = _flat_reply(loader, [key], counts, _texts_of(shape.columns, values))
    for unread in reply.unread.values():
        raise unread.error
    return reply


# ---- Values.


def _float_text(value: float) -> str:
    if value - value != 0:
        raise ValueError(f"{value} has no text")
    return str(int(value)) if value.is_integer() and abs(value) < 1e21 else float.__repr__(value)


def _decimal_text(value: Decimal) -> str:
    if not value.is_finite():
        raise ValueError(f"{value} has no text")
    return format(value, "f")


def _date_text(value: date) -> str:
    return value.isoformat()


_TEXTS: dict[type, Callable[[Any], str]] = {
    str: str.__str__,
    NoneType: lambda _: "",
    bool: lambda value: "true" if value else "false",
    int: int.__repr__,
    float: _float_text,
    Decimal: _decimal_text,
    datetime: _date_text,
    date: _date_text,
    UUID: UUID.__str__,
}
_STRINGS, _STRINGS_AND_NUMBERS = frozenset({str}), frozenset({str, int})


def text_of(value: Any) -> str:
    """The text of a value. That of None is empty, which is null for the library."""
    convert = _TEXTS.get(type(value))
    if convert is None:
        convert = next((it for kind, it in _TEXTS.items() if isinstance(value, kind)), None)
    if convert is None:
        raise TypeError(f"a value of type {type(value).__name__} has no text")
    return convert(value)


class _Texts(NamedTuple):
    """The texts of rows, row after row, in these columns. `unread` are the columns that are left out, each with the number of a row whose value has
    no text, from 0, and the reason."""

    columns: Sequence[str]
    texts: list[str]
    unread: Mapping[str, tuple[int, Exception]] = _NOTHING


def _texts_of(columns: Sequence[str], values: list[Any]) -> _Texts:
    """The texts of values, row after row."""
    kinds = set(map(type, values))
    if kinds <= _STRINGS:
        return _Texts(columns, values)
    if kinds <= _STRINGS_AND_NUMBERS:
        return _Texts(columns, list(map(str, values)))
    try:
        return _Texts(columns, [value if type(value) is str else _TEXTS[type(value)](value) for value in values])
    except (KeyError, ValueError):
        return _column_by_column(columns, values)


def _column_by_column(columns: Sequence[str], values: list[Any]) -> _Texts:
    """The texts of values, without the columns that have a value of no text."""
    read: dict[str, list[str]] = {}
    unread: dict[str, tuple[int, Exception]] = {}
    for place, column in enumerate(columns):
        texts: list[str] = []
        try:
            texts.extend(map(text_of, values[place :: len(columns)]))
            read[column] = texts
        except (TypeError, ValueError) as error:
            unread[column] = len(texts), error
    return _Texts(tuple(read), list(chain.from_iterable(zip(*read.values()))), unread)


# ---- Rows.

_DICTS, _LISTS, _DICT_OR_NONE = frozenset({dict}), frozenset({list}), frozenset({dict, NoneType})


def _as_table(loader: Loader, returned: Any) -> _Table | None:
    """What a cursor has, or the names of columns with rows; or none."""
    if hasattr(returned, "fetchall"):
        columns = _columns_of(loader, returned)
        return None if columns is None else _joined(loader, columns, returned.fetchall())
    return _joined(loader, returned[0], list(returned[1])) if _is_table(returned) else None


def _columns_of(loader: Loader, cursor: Any) -> list[str] | None:
    """The columns of a cursor of the DB-API, or of a result of SQLAlchemy; or none, where it has no rows of columns."""
    if not hasattr(cursor, "description"):
        return list(cursor.keys()) if hasattr(cursor, "keys") else None
    if cursor.description is None:
        raise TypeError(f"loader {loader.name}: the cursor has run no query")
    return [column[0] for column in cursor.description]


def _is_table(returned: Any) -> bool:
    """Whether this is the names of columns, and rows."""
    if type(returned) is not tuple or len(returned) != 2 or not isinstance(returned[0], (list, tuple)):
        return False
    return bool(returned[0]) and all(isinstance(name, str) for name in returned[0])


def _joined(loader: Loader, columns: Sequence[str], rows: list[Any]) -> _Table:
    """Such rows of values, or of a cursor that gives rows by name."""
    if rows and isinstance(rows[0], Mapping):
        return _fields(loader, rows)
    for kind in set(map(type, rows)) & {str, bytes}:
        raise TypeError(f"loader {loader.name}: a row of type {kind.__name__}")
    for length in set(map(len, rows)):
        if length != len(columns):
            raise ValueError(f"loader {loader.name}: a row of {length} values for {len(columns)} columns")
    return _shape(loader.columns, tuple(columns)), list(chain.from_iterable(rows))


def _as_list(loader: Loader, returned: Any) -> list[Any]:
    if isinstance(returned, Iterable) and not isinstance(returned, (str, bytes, Mapping)):
        return list(returned)
    raise TypeError(f"loader {loader.name}: its function returned {type(returned).__name__}, and no list")


def _is_row_type(kind: type) -> bool:
    return kind is dict or hasattr(kind, "keys") or _is_named_tuple(kind)


def _is_named_tuple(kind: type) -> bool:
    """Whether this is a named tuple, or a row of SQLAlchemy."""
    return hasattr(kind, "_fields") or hasattr(kind, "_mapping")


def _by_name(row: Any) -> Any:
    """A row that is asked by name."""
    if hasattr(row, "_mapping"):
        return row._mapping
    return dict(zip(row._fields, row)) if hasattr(row, "_fields") else row


def _with_keys(loader: Loader, items: list[Any], are_rows: bool) -> _Table | None:
    """Rows that all have the columns of the loader; or none, where there is an item for each key. `are_rows`: these are to be such rows."""
    if not items:
        return _NO_SHAPE, []
    kinds = set(map(type, items))
    if kinds == _DICTS or all(map(_is_row_type, kinds)):
        table = _fields(loader, items)
        if table[0].has_keys:
            return table
        if are_rows:
            raise ValueError(next(f"loader {loader.name}: row {n} has no column {it}" for n, it in _lacking(loader, items) if it is not None))
    elif are_rows:
        other = next(kind for kind in map(type, items) if not _is_row_type(kind))
        raise TypeError(f"loader {loader.name}: a row of type {other.__name__}")
    if not loader.columns:
        raise TypeError(f"loader {loader.name}: its function returned something else than rows")
    return None


def _lacking(loader: Loader, rows: Iterable[Any]) -> Iterator[tuple[int, str | None]]:
    """The number of each row, from 1, and the first column of the loader that it hasn't."""
    for number, row in enumerate(rows, 1):
        names = _by_name(row).keys()
        yield number, next((column for column in loader.columns if column not in names), None)


@lru_cache(1024)
def _shape(wanted: tuple[str, ...], columns: tuple[str, ...]) -> _Shape:
    take: Callable[[Any], Iterable[Any]] = itemgetter(*columns) if len(columns) > 1 else lambda row: (row[columns[0]],)
    return _Shape(columns, take, set(wanted) <= set(columns))


_NO_SHAPE = _Shape((), tuple, False)


def _fields(loader: Loader, rows: Sequence[Any]) -> _Table:
    """Rows by name. A row has None in a column that only others have."""
    if any(map(_is_named_tuple, set(map(type, rows)) - _DICTS)):
        rows = list(map(_by_name, rows))
    columns = tuple(rows[0].keys())
    if columns and (len(rows) == 1 or set(map(len, rows)) == {len(columns)}):
        shape = _shape(loader.columns, columns)
        try:
            return shape, list(chain.from_iterable(map(shape.take, rows)))
        except (KeyError, IndexError):
            pass
    names = dict.fromkeys(chain.from_iterable(row.keys() for row in rows))
    if not names:
        raise TypeError(f"loader {loader.name}: a row has no columns")
    shape = _shape(loader.columns, tuple(names))
    shape = shape._replace(has_keys=all(column in row.keys() for column in loader.columns for row in rows))
    return shape, list(chain.from_iterable((names | dict(row)).values() for row in rows))


# ---- Replies.

_FOLDING = str.maketrans(ascii_uppercase, ascii_lowercase)


def _compared(loader: Loader, key: Any) -> Any:
    """A key as the loader compares it."""
    if not loader.folds:
        return key
    return key.translate(_FOLDING) if isinstance(key, str) else tuple(part.translate(_FOLDING) for part in key)


def _keyed(loader: Loader, table: _Table) -> Reply | Keyed:
    """The reply of rows in any order, which have their keys in the columns of the loader. One of all rows has no keys."""
    (columns, _, _), values = table
    read, count = _texts_of(columns, values), len(values) // max(len(columns), 1)
    if not loader.columns:
        return _flat_reply(loader, [], [count], read)
    for column in loader.columns:
        if column in read.unread:
            row, why = read.unread[column]
            raise TypeError(f"loader {loader.name}, column {column}, row {row + 1}: {why}")
    return Keyed(read.columns, count, *_flat_texts(loader, read), read.unread)


def without_casts(loader: Loader, keys: Keys, reply: Keyed) -> tuple[Keyed, dict[int, Exception]]:
    """Rows that the library refused, but those of which the database cast the key, as 1 for 01; and the faults of the keys that it cast, by their
    places. Raises Misfit where a row has another key that wasn't asked for, or a column of the loader is missing."""
    for column in loader.columns:
        if column not in reply.columns:
            raise Misfit(f"loader {loader.name}: its rows have no column {column}")
    asked, found = [_compared(loader, key) for key in keys], _keys_of(loader, reply)
    compared = [_compared(loader, key) for key in found]
    wanted, having_rows = set(asked), set(compared)
    alike: dict[Any, list[int]] = {}
    for place, key in enumerate(keys):
        if asked[place] not in having_rows:
            alike.setdefault(_as_cast(key), []).append(place)
    casts: dict[Any, Any] = {}
    for number, (key, it) in enumerate(zip(found, compared), 1):
        if it not in wanted and _as_cast(key) not in alike:
            columns = f"column{'s' * (len(loader.columns) - 1)} {' and '.join(loader.columns)}"
            raise Misfit(f"loader {loader.name}: row {number} has the key {_quoted(key)} in {columns}, which wasn't asked for")
        if it not in wanted:
            casts[_as_cast(key)] = key
    faults = {place: _fault_of_cast(loader, key, keys[place]) for cast, key in casts.items() for place in alike[cast]}
    width, texts = len(reply.columns), cut(numbers_of(reply.ends), reply.data)
    kept = [text for place, text in enumerate(texts) if place < width or compared[place // width - 1] in wanted]
    ends, data = flat(kept)
    return reply._replace(rows=len(kept) // width - 1, ends=ends, data=data), dict(sorted(faults.items()))


def _fault_of_cast(loader: Loader, found: Any, asked: Any) -> Exception:
    return ValueError(f"loader {loader.name}: a row of the key {_quoted(found)} for the key {_quoted(asked)}")


def _as_cast(key: Any) -> Any:
    """What is the same for texts that a database may take for the same: a number, or a text without case and blanks around it."""
    if isinstance(key, tuple):
        return tuple(map(_as_cast, key))
    text = key.strip()
    try:
        number = Decimal(text)
    except ArithmeticError:
        return text.casefold()
    return number if number.is_finite() else text.casefold()


def unread_of(loader: Loader, keys: Keys, reply: Keyed) -> Mapping[str, Unread]:
    """The columns that are left out of rows that the library has taken for these keys."""
    if not reply.unread:
        return _NOTHING
    asked = {_compared(loader, key): key for key in keys}
    found = [asked.get(_compared(loader, key), key) for key in _keys_of(loader, reply)]
    told = reply.unread.items()
    return {column: _unread(loader, column, why, found[row], found[:row].count(found[row])) for column, (row, why) in told}


def _keys_of(loader: Loader, reply: Keyed) -> list[Any]:
    """The keys of rows, in the columns of the loader."""
    width, texts = len(reply.columns), cut(numbers_of(reply.ends), reply.data)
    parts = [texts[width + reply.columns.index(column) :: width] for column in loader.columns]
    return parts[0] if len(parts) == 1 else list[Any](zip(*parts))


def _quoted(key: Any) -> str:
    """What a message says of a key: a text, or a pair."""
    return ", ".join(map(repr, key)) if isinstance(key, tuple) else repr(key)


def _bare(loader: Loader, keys: Keys, items: list[Any]) -> Reply:
    """The reply of a list of which nobody says how it is read, and which isn't all rows with the columns of the loader."""
    if len(items) != len(keys):
        raise ValueError(f"loader {loader.name}: {len(items)} items for {len(keys)} keys, which aren't all rows with its columns")
    if why := _doubt(loader, keys, items):
        raise TypeError(f"loader {loader.name}: {why}: its function has to return aligned(items) or in_any_order(rows)")
    return _aligned(loader, keys, items)


def _doubt(loader: Loader, keys: Keys, items: list[Any]) -> str | None:
    """Why items are read as aligned only because of what was found: some rows among them have the columns of the loader, so that these would be sorted
    where there is nothing else."""
    kinds = {kind for kind in set(map(type, items)) if _is_row_type(kind)}
    rows = [(place, item) for place, item in enumerate(items) if type(item) in kinds]
    lacking = [column for _, column in _lacking(loader, [row for _, row in rows])]
    whole = [row for row, column in zip(rows, lacking) if column is None]
    for place, row in whole:
        found = _key_in(loader, place, _by_name(row))
        if _compared(loader, found) != _compared(loader, keys[place]):
            return f"row {place + 1} has the key {_quoted(found)}, and stands for the key {_quoted(keys[place])}"
    if not whole or len(whole) == len(rows):
        return None
    other, column = next((place, column) for (place, _), column in zip(rows, lacking) if column is not None)
    return f"row {other + 1} has no column {column}, which row {whole[0][0] + 1} has"


def _key_in(loader: Loader, place: int, row: Any) -> Any:
    """The key that a row has in the columns of the loader."""
    read = _texts_of(loader.columns, [row[column] for column in loader.columns])
    for column, (_, why) in read.unread.items():
        raise TypeError(f"loader {loader.name}, column {column}, row {place + 1}: {why}")
    return tuple(read.texts) if len(loader.columns) == 2 else read.texts[0]


def _aligned(loader: Loader, keys: Keys, items: list[Any]) -> Reply:
    """The reply of an item for each key: its rows, one row, None, or the error that is its fault."""
    if len(items) != len(keys):
        raise ValueError(f"loader {loader.name}: {len(items)} items for {len(keys)} keys")
    kinds, faults = set(map(type, items)), list[tuple[Any, Exception]]()
    if kinds <= _DICT_OR_NONE:
        rows, counts = [item for item in items if item is not None], [0 if item is None else 1 for item in items]
    elif kinds == _LISTS:
        rows, counts = list(chain.from_iterable(items)), [len(item) for item in items]
    else:
        rows, counts = _one_by_one(loader, items)
        faults = [(key, item) for key, item in zip(keys, items) if isinstance(item, Exception)]
    for kind in set(map(type, rows)):
        if not _is_row_type(kind):
            raise TypeError(f"loader {loader.name}: a row of type {kind.__name__}")
    shape, values = _fields(loader, rows) if rows else (_NO_SHAPE, [])
    return _flat_reply(loader, keys, counts, _texts_of(shape.columns, values), faults)


def _one_by_one(loader: Loader, items: list[Any]) -> tuple[list[Any], list[int]]:
    """All rows, and how many each key has."""
    rows: list[Any] = []
    counts: list[int] = []
    for item in items:
        if item is None:
            counts.append(0)
        elif _is_row_type(type(item)):
            counts.append(1)
            rows.append(item)
        elif isinstance(item, (list, tuple)):
            counts.append(len(item))
            rows.extend(item)
        elif isinstance(item, Exception):
            counts.append(KEY_FAULT)
        else:
            raise TypeError(f"loader {loader.name}: an item of type {type(item).__name__}")
    return rows, counts


def _flat_reply(loader: Loader, keys: Sequence[Any], counts: list[int], read: _Texts, faults: Sequence[tuple[Any, Exception]] = ()) -> Reply:
    unread = {column: _unread(loader, column, why, *_owner(keys, counts, row)) for column, (row, why) in read.unread.items()}
    if unread and not read.columns:
        raise next(iter(unread.values())).error
    return Reply(len(read.columns), counts, *_flat_texts(loader, read), faults, unread)


def _flat_texts(loader: Loader, read: _Texts) -> tuple[bytes, bytes]:
    try:
        return flat([*read.columns, *read.texts])
    except TypeError:
        raise TypeError(f"loader {loader.name}: the name of a column is no text") from None


def _owner(keys: Sequence[Any], counts: list[int], row: int) -> tuple[Any, int]:
    """The key that a row is of, of which the keys have these numbers, and the place of the row among those of the key."""
    for key, count in zip(keys, counts):
        if count != KEY_FAULT and row < count:
            return key, row
        row -= count if count != KEY_FAULT else 0
    return None, row


def _unread(loader: Loader, column: str, why: Exception, key: Any, row: int) -> Unread:
    """Why a column is left out, by the row of this place among those of the key, or among all rows of a loader that has no keys."""
    of_key = f" of the key {_quoted(key)}" if loader.columns else ""
    return Unread(TypeError(f"loader {loader.name}, column {column}, row {row + 1}{of_key}: {why}"), key)


# ---- The rows of loaded keys.


def outcomes_of(counts: list[int], widths: list[int], texts: list[str], faults: list[str]) -> list[Loaded]:
    """The rows of each key, or its fault, of what `rz_loaded` copies."""
    rows, reasons = _rows_of(widths, texts), map(parted, faults)
    return [list(islice(rows, count)) if count < BATCH_FAULT else _fault(count, *next(reasons)) for count in counts]


def _fault(count: int, text: str, extensions: dict[str, Any] | None) -> LoadFault:
    return LoadFault(text, count == BATCH_FAULT, extensions)


def _rows_of(widths: list[int], texts: list[str]) -> Iterator[dict[str, str | None]]:
    """The rows of all keys, each with the names of its columns or of those of the row before. An empty text is None."""
    names: list[str] = []
    start = 0
    for width in widths:
        if width != SAME_COLUMNS:
            names, start = texts[start : start + width], start + width
        end = start + len(names)
        yield {name: text or None for name, text in zip(names, texts[start:end])}
        start = end
