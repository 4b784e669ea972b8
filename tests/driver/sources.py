"""Worlds of files, and sources over their tables: batch functions that count how often they are asked, and go wrong as the words of a case
say."""

import csv
import io
import re
import sys
from collections import Counter
from collections.abc import Callable
from dataclasses import dataclass, field
from functools import cache, cached_property
from typing import Any

from .cases import TOP, Case, CaseError, plain

sys.path.insert(0, str(TOP / "clients/python"))

from rudzkvano import Client, Keys, LoadFault, Loader, Order, Progress, Refused, Round, Server  # noqa: E402, F401
from rudzkvano.library import COUNTS, SIZES, flat, pointer_to, texts_of, words_of  # noqa: E402, F401

Rows = list[dict[str, str]]
NO_LIGHT = "no light"
# what the package for Python says of a list of another length than the keys have
OF_THE_PACKAGE = re.compile(r"loader \w+: (\d+) items for (\d+) keys, which aren't all rows with its columns")


def wrong_count(items: int | str, keys: int | str) -> str:
    """What is said of such a list, by docs/EMBEDDING.md."""
    return f"the source answered {items} results for {keys} keys"


def in_one_voice(text: str) -> str:
    """A text in which the package for Python says it so too."""
    return OF_THE_PACKAGE.sub(lambda found: wrong_count(found[1], found[2]), text)


# ---- worlds


@dataclass(frozen=True)
class World:
    """A schema, bindings, and the texts of the tables by their names."""

    schema: str
    bindings: str
    tables: dict[str, str]

    @cached_property
    def rows(self) -> dict[str, Rows]:
        return {name: list(csv.DictReader(io.StringIO(text, newline=""))) for name, text in self.tables.items()}

    @cached_property
    def server(self) -> Server:
        return Server(self.schema, self.bindings)


def tables_of(bindings: str) -> list[str]:
    """The tables of bindings, in the order in which the loaders first name them."""
    lines = map(str.split, bindings.split("\n"))
    return list(dict.fromkeys(words[2] for words in lines if words[:1] == ["loader"]))


@cache
def _world(texts: tuple[str, ...]) -> World:
    schema, bindings, *tables = texts
    names = tables_of(bindings)
    if len(tables) != len(names):
        raise CaseError(f"{len(tables)} files for the tables {', '.join(names)}")
    return World(schema, bindings, dict(zip(names, map(plain, tables))))


def world_of(case: Case) -> World:
    """The world of a schema, of bindings, and of tables in the order in which the bindings first name them."""
    return _world(tuple(case.file_text(number) for number in range(len(case.over))))


# ---- manners


@dataclass(frozen=True)
class Manner:
    """At most how many keys a batch has; the key of which each source has a fault, and that with which each source fails the first time
    that it is asked for it; and what the sources of loaders do."""

    limit: int | None = None
    bad_key: str | None = None
    bad_once: str | None = None
    deeds: dict[str, str] = field(default_factory=dict)


def manner_of(words: str) -> Manner:
    """The manner of `batches of 3`, `fault of bad`, `failure of bad` and `userById fails`, which `, ` parts."""
    limit, bad_key, bad_once, deeds = None, None, None, dict[str, str]()
    for part in words.split(", ") if words else []:
        first, _, rest = part.partition(" ")
        if first == "batches":
            limit = int(rest.removeprefix("of "))
        elif first == "fault":
            bad_key = rest.removeprefix("of ")
        elif first == "failure":
            bad_once = rest.removeprefix("of ")
        elif re.fullmatch(r"fails|renames|gives \d+ items?", rest):
            deeds[first] = rest
        else:
            raise CaseError(f"no manner: {part}")
    return Manner(limit, bad_key, bad_once, deeds)


# ---- sources


def folded(text: str) -> str:
    """The text with A to Z made small."""
    return re.sub("[A-Z]+", lambda found: found[0].lower(), text)


def rows_by_key(loader: Loader, rows: Rows) -> Callable[[Any], Rows]:
    """What finds the rows of a key. An empty field is null, and equals no key."""
    same: Callable[[str], str] = folded if loader.folds else str
    found: dict[tuple[str, ...], Rows] = {}
    for row in rows:
        fields = tuple(same(row[column]) for column in loader.columns)
        if all(fields):
            found.setdefault(fields, []).append(row)
    return lambda key: found.get(tuple(map(same, [key] if isinstance(key, str) else key)), [])


class Sources:
    """The sources of a world for one session. `calls` has how often that of each loader was asked; `spoiled` says that one went wrong."""

    def __init__(self, world: World, manner: Manner) -> None:
        self._world, self._manner = world, manner
        self.calls: Counter[str] = Counter()
        self.spoiled = False
        self._fails_once = manner.bad_once is not None
        self._finders = {loader: rows_by_key(loader, world.rows[loader.table]) for loader in world.server.loaders}

    def items(self, loader: Loader, keys: Keys) -> list[Any]:
        """An item for each key, or all rows; unless the source goes wrong."""
        self.calls[loader.name] += 1
        deed = self._manner.deeds.get(loader.name, "")
        if deed == "fails" or (self._fails_once and self._manner.bad_once in keys):
            self._fails_once, self.spoiled = False, True
            raise RuntimeError(NO_LIGHT)
        if not loader.columns:
            return self._world.rows[loader.table]
        items = [self._item(loader, key) for key in keys]
        if deed == "renames":
            self.spoiled = True
            return [[{"name": str(self.calls[loader.name])}] for _ in keys]
        return self._resized(items, int(deed.split(" ")[1])) if deed else items

    def _item(self, loader: Loader, key: Any) -> Any:
        if key != self._manner.bad_key:
            return self._finders[loader](key)
        self.spoiled = True
        return LookupError(f"{key} key")

    def _resized(self, items: list[Any], count: int) -> list[Any]:
        """So many items: the first that there are, and then items without rows."""
        self.spoiled = self.spoiled or count != len(items)
        return [*items[:count], *([] for _ in range(count - len(items)))]

    def function(self, loader: Loader) -> Callable[[Keys], list[Any]]:
        """The source of a loader, as a batch function."""

        def ask(keys: Keys) -> list[Any]:
            items = self.items(loader, keys)
            if not items and keys:
                raise ValueError(wrong_count(0, len(keys)))  # for the package these are no rows for any key
            return items

        return ask

    def functions(self) -> dict[str, Callable[[Keys], list[Any]]]:
        return {loader.name: self.function(loader) for loader in self._world.server.loaders}

    def coroutines(self) -> dict[str, Callable[[Keys], Any]]:
        """The same, as functions that are awaited."""

        def awaited(function: Callable[[Keys], list[Any]]) -> Callable[[Keys], Any]:
            async def ask(keys: Keys) -> list[Any]:
                return function(keys)

            return ask

        return {name: awaited(function) for name, function in self.functions().items()}

    def reply(self, client: Client, order: Order) -> None:
        """Asks the source of an order, and has the client take the reply."""
        try:
            items = self.items(order.loader, order.keys)
        except RuntimeError as error:
            client.fail(order, str(error))
            return
        if order.loader.columns and len(items) != len(order.keys):
            refuse(client, order, items)
            client.fail(order, wrong_count(len(items), len(order.keys)))
        else:
            client.reply(order, items)


def refuse(client: Client, order: Order, items: list[Rows]) -> None:
    """Has the library refuse such items for another number of keys. The order waits as before."""
    rows = [row for item in items for row in item]
    columns = list(rows[0]) if rows else []
    counts = words_of([len(item) for item in items])
    texts = texts_of(*flat([*columns, *(text for row in rows for text in row.values())]))
    try:
        client._call("rz_take_rows", SIZES[order.number], SIZES[len(columns)], *counts, *texts)
    except Refused as refused:
        if refused.name == "RZ_BAD_COUNT" and client.next() == Progress.WAITING:
            return
        raise
    raise CaseError(f"{len(items)} items were taken for {len(order.keys)} keys")
