"""The worlds of examples/, for tests: their texts, and batch functions over their tables."""

import csv
import sqlite3
import sys
from collections.abc import Callable, Mapping
from pathlib import Path
from typing import Any

REPOSITORY = Path(__file__).resolve().parents[3]
EXAMPLES = REPOSITORY / "examples"
sys.path.insert(0, str(REPOSITORY / "clients/python"))

from rudzkvano import BatchFunction, Loader, Server  # noqa: E402

Rows = list[dict[str, str]]


def read(path: Path) -> str:
    with path.open(newline="", encoding="utf-8") as file:
        return file.read()


def read_rows(path: Path) -> Rows:
    with path.open(newline="", encoding="utf-8") as file:
        return list(csv.DictReader(file))


TABLES = {name: read_rows(EXAMPLES / f"{name}.csv") for name in ("users", "posts", "named", "likes")}
TABLES["votes"] = read_rows(EXAMPLES / "votes/votes.csv")


class World:
    """A schema with its bindings, and request lines with their stored answers."""

    def __init__(self, folder: Path) -> None:
        self.schema, self.bindings = read(folder / "schema.graphql"), read(folder / "bindings.txt")
        self.lines, self.answers = (read(folder / f"{name}.jsonl").removesuffix("\n").split("\n") for name in ("requests", "answers"))

    def server(self) -> Server:
        return Server(self.schema, self.bindings)


WORLDS = {"examples": World(EXAMPLES), "votes": World(EXAMPLES / "votes")}


def key_of(loader: Loader, row: Mapping[str, Any]) -> Any:
    return row[loader.columns[0]] if len(loader.columns) == 1 else tuple(row[column] for column in loader.columns)


def matching(loader: Loader, key: Any) -> Rows:
    return [row for row in TABLES[loader.table] if key_of(loader, row) == key]


def aligned(loader: Loader) -> BatchFunction:
    """For each key its rows."""
    if not loader.columns:
        return lambda keys: TABLES[loader.table]
    return lambda keys: [matching(loader, key) for key in keys]


def aligned_one_by_one(loader: Loader) -> BatchFunction:
    """For each key one row, None, or several."""
    if not loader.columns:
        return lambda keys: TABLES[loader.table]
    return lambda keys: [rows[0] if len(rows) == 1 else rows or None for rows in (matching(loader, key) for key in keys)]


def in_any_order(loader: Loader) -> BatchFunction:
    """The rows of the keys, in the order of the table, which is that of none of the keys."""
    return lambda keys: [row for row in TABLES[loader.table] if not loader.columns or key_of(loader, row) in keys]


def as_table(loader: Loader) -> BatchFunction:
    """The names of the columns, and tuples."""
    columns = list(TABLES[loader.table][0])
    found = in_any_order(loader)
    return lambda keys: (columns, (tuple(row.values()) for row in found(keys)))  # type: ignore[union-attr]


def noted(notes: list[Any], function: Callable[[Any], Any]) -> BatchFunction:
    """The same function, which notes the keys that it is asked for."""

    def ask(keys: Any) -> Any:
        notes.append(keys)
        return function(keys)

    return ask


class Database:
    """The tables in SQLite; an empty field is null."""

    def __init__(self) -> None:
        self._connection = sqlite3.connect(":memory:")
        self._connection.row_factory = sqlite3.Row
        for name, rows in TABLES.items():
            columns = list(rows[0])
            self._connection.execute(f'create table {name} ({", ".join(columns)})')
            places = ", ".join("?" for _ in columns)
            self._connection.executemany(f"insert into {name} values ({places})", [[field or None for field in row.values()] for row in rows])

    def query(self, loader: Loader, keys: Any) -> sqlite3.Cursor:
        columns = ", ".join(loader.columns)
        place = "(?, ?)" if len(loader.columns) == 2 else "?"
        values = [part for key in keys for part in ((key,) if isinstance(key, str) else key)]
        condition = f"where ({columns}) in (values {', '.join(place if place != '?' else '(?)' for _ in keys)})" if columns else ""
        return self._connection.execute(f"select * from {loader.table} {condition} order by rowid", values)

    def cursors(self, loader: Loader) -> BatchFunction:
        return lambda keys: self.query(loader, keys)

    def fetched(self, loader: Loader) -> BatchFunction:
        return lambda keys: self.query(loader, keys).fetchall()

    def close(self) -> None:
        self._connection.close()


def functions(server: Server, form: Callable[[Loader], BatchFunction] = aligned) -> dict[str, BatchFunction]:
    return {loader.name: form(loader) for loader in server.loaders}


class Friends:
    """The users 1 and 2, who are friends of each other and of themselves. Each level of friends has twice as many users as the one above: with the
    response, the lists and the ids there are 4 * 2**levels - 1 positions."""

    schema = "type Query { user(id: ID!): User } type User { id: ID! friends: [User!]! }"
    bindings = """bindings 1
    loader userById users by id
    loader friendsByUser friends by user
    field Query.user one userById arg id
    field User.friends many friendsByUser column id"""

    def server(self) -> Server:
        return Server(self.schema, self.bindings)

    def functions(self) -> dict[str, BatchFunction]:
        return {
            "userById": lambda ids: [{"id": id} for id in ids],
            "friendsByUser": lambda users: [{"user": user, "id": id} for user in users for id in (1, 2)],
        }

    def query(self, levels: int) -> str:
        return "{user(id:1)" + "{friends" * levels + "{id}" + "}" * levels + "}"

    def answer(self, levels: int) -> str:
        one, two = '{"id":"1"}', '{"id":"2"}'
        for _ in range(levels):
            one = two = f'{{"friends":[{one},{two}]}}'
        return f'{{"data":{{"user":{one}}}}}'


FRIENDS = Friends()
