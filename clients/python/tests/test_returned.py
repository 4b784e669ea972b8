"""What batch functions return: the texts of values, the forms of rows, and what is a fault."""

import sqlite3
import unittest
import uuid
from collections.abc import Mapping
from datetime import date, datetime, timedelta, timezone
from decimal import Decimal
from enum import Enum, IntEnum
from types import MappingProxyType
from typing import Any, NamedTuple

import worlds
from rudzkvano import PublicError, Server, aligned, in_any_order

SCHEMA = """type Query { item(id: ID!): Item  items(ids: [ID!]!): [Item]!  all: [Item!]!  of(name: String!): [Item!]!  pair(a: ID!, b: ID!): Item }
type Item { id: ID  text: String  other: String  count: Int  yes: Boolean }"""
BINDINGS = """bindings 2
loader itemById items by id
loader itemsByName items by name fold
loader allItems items
loader itemByBoth items by a b
field Query.item one itemById arg id
field Query.items each itemById arg ids
field Query.all many allItems all
field Query.of many itemsByName arg name
field Query.pair one itemByBoth arg a and arg b
"""


class Colour(str, Enum):
    RED = "red"


class Size(IntEnum):
    SMALL = 3


class Item(NamedTuple):
    id: Any
    text: Any


class Cursor:
    """A cursor of the DB-API."""

    def __init__(self, columns: list[str] | None, rows: list[Any]) -> None:
        self.description = None if columns is None else [(column, None, None, None, None, None, None) for column in columns]
        self.fetchall = lambda: rows


class AlchemyRow(tuple[Any, ...]):
    """Has the shape of a row of SQLAlchemy: a tuple, with the names of its columns as `_fields`, and itself by name as `_mapping`."""

    _columns: tuple[str, ...]

    def __new__(cls, **members: Any) -> "AlchemyRow":
        row = super().__new__(cls, members.values())
        row._columns = tuple(members)
        return row

    @property
    def _fields(self) -> tuple[str, ...]:
        return self._columns

    @property
    def _mapping(self) -> Mapping[str, Any]:
        return MappingProxyType(dict(zip(self._columns, self)))


class AlchemyResult:
    """Has the shape of a result of SQLAlchemy: `keys` and `fetchall`, without the `description` of the DB-API. `mappings` are its rows by name."""

    def __init__(self, columns: list[str], rows: list[Any]) -> None:
        self._columns, self._rows = columns, rows

    def keys(self) -> list[str]:
        return self._columns

    def fetchall(self) -> list[Any]:
        return self._rows

    def mappings(self) -> "AlchemyResult":
        return AlchemyResult(self.keys(), [row._mapping for row in self.fetchall()])

    def scalars(self) -> Any:
        return Scalars(row[0] for row in self.fetchall())

    def __iter__(self) -> Any:
        return iter(self.fetchall())


class Scalars(list[Any]):
    """The first values of such rows."""

    def fetchall(self) -> Any:
        return self


VALUES: list[tuple[Any, str | None]] = [
    ("Ada", "Ada"),
    ("é\U0001f600\n\"", "é\U0001f600\n\""),
    ("", None),
    (None, None),
    (7, "7"),
    (-(2**70), "-1180591620717411303424"),
    (True, "true"),
    (False, "false"),
    (1.5, "1.5"),
    (3.0, "3"),
    (-0.1, "-0.1"),
    (1e20, "100000000000000000000"),
    (Decimal("1.50"), "1.50"),
    (Decimal("1E+3"), "1000"),
    (date(2024, 2, 29), "2024-02-29"),
    (datetime(2024, 2, 29, 12, 30, 1), "2024-02-29T12:30:01"),
    (datetime(2024, 2, 29, 12, 30, 1, tzinfo=timezone(timedelta(hours=2))), "2024-02-29T12:30:01+02:00"),
    (uuid.UUID(int=5), "00000000-0000-0000-0000-000000000005"),
    (Colour.RED, "red"),
    (Size.SMALL, "3"),
]
NO_VALUES: list[tuple[Any, str]] = [
    (b"x", "a value of type bytes has no text"),
    ([1], "a value of type list has no text"),
    ({"a": 1}, "a value of type dict has no text"),
    (object(), "a value of type object has no text"),
    (memoryview(b"x"), "a value of type memoryview has no text"),
    (float("nan"), "nan has no text"),
    (float("inf"), "inf has no text"),
    (Decimal("nan"), "NaN has no text"),
    (Decimal("snan"), "sNaN has no text"),
    (Decimal("-inf"), "-Infinity has no text"),
]
ONE, TWO = {"id": 1, "text": "one"}, {"id": 2, "text": "two"}
ONE_OF_ALCHEMY, TWO_OF_ALCHEMY = AlchemyRow(id=1, text="one"), AlchemyRow(id=2, text="two")
ALCHEMY = AlchemyResult(["id", "text"], [TWO_OF_ALCHEMY, ONE_OF_ALCHEMY])
LOADER, BY_ID = "loader itemById", "in column id, which wasn't asked for"
NOT_ASKED = f"{LOADER}: row 1 has the key '3' {BY_ID}"
IN_DOUBT = "its function has to return aligned(items) or in_any_order(rows)"
# what itemById returns for the keys 1 and 2, and the texts of both, or the fault of the batch
RETURNED: list[tuple[Any, list[str | None] | str]] = [
    ([ONE, TWO], ["one", "two"]),
    ([TWO, ONE], ["one", "two"]),
    ((TWO, ONE), ["one", "two"]),
    ({2: TWO, 1: ONE}.values(), ["one", "two"]),
    (iter([TWO]), [None, "two"]),
    ([], [None, None]),
    ([None, None], [None, None]),
    ([None, TWO], [None, "two"]),
    ([[ONE], TWO], ["one", "two"]),
    ([[], (TWO,)], [None, "two"]),
    ([{"text": "one"}, {"text": "two"}], ["one", "two"]),
    ([{"text": "one"}, None], ["one", None]),
    ([{"text": "one"}, {"id": 2, "text": "two"}], f"{LOADER}: row 1 has no column id, which row 2 has: {IN_DOUBT}"),
    ([ONE, {"text": "two"}, None][:2], f"{LOADER}: row 2 has no column id, which row 1 has: {IN_DOUBT}"),
    ([TWO, None], f"{LOADER}: row 1 has the key '2', and stands for the key '1': {IN_DOUBT}"),
    ([ValueError("no"), ONE], f"{LOADER}: row 2 has the key '1', and stands for the key '2': {IN_DOUBT}"),
    ([None, {"id": [2], "text": "two"}], f"{LOADER}, column id, row 2: a value of type list has no text"),
    (aligned([TWO, None]), ["two", None]),
    (aligned([{"text": "one"}, {"id": 2, "text": "two"}]), ["one", "two"]),
    (aligned(iter([ONE_OF_ALCHEMY, [TWO]])), ["one", "two"]),
    (aligned([TWO, ONE]), ["two", "one"]),
    (aligned([]), f"{LOADER}: 0 items for 2 keys"),
    (aligned([ONE]), f"{LOADER}: 1 items for 2 keys"),
    (in_any_order([TWO]), [None, "two"]),
    (in_any_order([]), [None, None]),
    (in_any_order((["id", "text"], [(2, "two")])), [None, "two"]),
    (in_any_order(Cursor(["id", "text"], [(2, "two"), (1, "one")])), ["one", "two"]),
    (in_any_order([ONE, {"text": "two"}]), f"{LOADER}: row 2 has no column id"),
    (in_any_order([{"text": "one"}, {"text": "two"}]), f"{LOADER}: row 1 has no column id"),
    (in_any_order([ONE, None]), f"{LOADER}: a row of type NoneType"),
    (in_any_order([ONE, {"id": 3}]), f"{LOADER}: row 2 has the key '3' {BY_ID}"),
    ([{"text": "one"}, {"other": "two"}], ["one", None]),
    ([{"id": 2, "text": "two"}, {"text": "one", "id": 1}], ["one", "two"]),
    ([{"id": 2, "text": "two", "other": "x"}, ONE], ["one", "two"]),
    ([TWO, {"id": "2", "text": "second"}], [None, "two"]),
    ((["id", "text"], [[2, "two"], (1, "one")]), ["one", "two"]),
    ((("text", "id"), iter([("two", 2)])), [None, "two"]),
    ((["id", "text"], []), [None, None]),
    (([ONE], [TWO]), ["one", "two"]),
    (([], [TWO]), [None, "two"]),
    (Cursor(["id", "text"], [(2, "two"), (1, "one")]), ["one", "two"]),
    (Cursor(["id", "text"], [TWO, ONE]), ["one", "two"]),
    (Cursor(["id", "text"], []), [None, None]),
    ([TWO_OF_ALCHEMY, ONE_OF_ALCHEMY], ["one", "two"]),
    ([None, TWO_OF_ALCHEMY], [None, "two"]),
    ([[ONE_OF_ALCHEMY], []], ["one", None]),
    ([(ONE_OF_ALCHEMY,), TWO_OF_ALCHEMY], ["one", "two"]),
    ([AlchemyRow(text="one"), AlchemyRow(text="two")], ["one", "two"]),
    ([ONE_OF_ALCHEMY, TWO], ["one", "two"]),
    (ALCHEMY, ["one", "two"]),
    (ALCHEMY.mappings(), ["one", "two"]),
    (ALCHEMY.mappings().fetchall(), ["one", "two"]),
    (AlchemyResult(["id", "text"], []), [None, None]),
    (ALCHEMY.scalars(), "loader itemById: an item of type int"),
    ([Item(2, "two"), Item(1, "one")], ["one", "two"]),
    ([Item(1, "one"), None], ["one", None]),
    ([{"id": 3, "text": "three"}], NOT_ASKED),
    ([ONE, {"id": 3, "text": "three"}], f"{LOADER}: row 2 has the key '3' {BY_ID}"),
    ((["id", "text"], [(3, "three")]), NOT_ASKED),
    ([{"id": None, "text": "none"}], f"{LOADER}: row 1 has the key '' {BY_ID}"),
    ([ONE, None, TWO], "loader itemById: 3 items for 2 keys, which aren't all rows with its columns"),
    ([{"text": "one"}], "loader itemById: 1 items for 2 keys, which aren't all rows with its columns"),
    ((["text"], [("one",)]), "loader itemById: its rows have no column id"),
    ((["id", "text"], [(1,)]), "loader itemById: a row of 1 values for 2 columns"),
    ((["id", "text"], ["1x"]), "loader itemById: a row of type str"),
    ([1, 2], "loader itemById: an item of type int"),
    (["one", "two"], "loader itemById: an item of type str"),
    ([[1], [2]], "loader itemById: a row of type int"),
    ([{}, {}], "loader itemById: a row has no columns"),
    ([{1: "one"}, {1: "two"}], "loader itemById: the name of a column is no text"),
    (None, "loader itemById: its function returned NoneType, and no list"),
    (ONE, "loader itemById: its function returned dict, and no list"),
    ("12", "loader itemById: its function returned str, and no list"),
    (Cursor(None, []), "loader itemById: the cursor has run no query"),
    ([{"id": 1, "text": "\ud800"}], "'utf-8' codec can't encode character '\\ud800' in position 7: surrogates not allowed"),
]


class Returned(unittest.TestCase):
    def setUp(self) -> None:
        self.server = Server(SCHEMA, BINDINGS)
        self.addCleanup(self.server.close)

    def answer(self, query: str, **functions: Any) -> Any:
        return self.server.answer(query, functions)

    def test_loaders_are_told(self) -> None:
        told = [(it.name, it.table, it.columns, it.folds) for it in self.server.loaders]
        by_name, by_both = ("itemsByName", "items", ("name",), True), ("itemByBoth", "items", ("a", "b"), False)
        self.assertEqual(told, [("itemById", "items", ("id",), False), by_name, ("allItems", "items", (), False), by_both])

    def test_values(self) -> None:
        for value, text in VALUES:
            # an answer has the text beside a text, beside None, and beside its like
            for beside in ("beside", None, value):
                with self.subTest(value=value, beside=beside):
                    row = {"id": "1", "text": value, "other": beside}
                    found = self.answer("{item(id:1){text}}", itemById=lambda keys: [row])
                    self.assertEqual(found, {"data": {"item": {"text": text}}})
        for value, why in NO_VALUES:
            with self.subTest(value=value):
                found = self.answer("{item(id:1){text}}", itemById=lambda keys: [{"id": 1, "text": value}])
                self.assertEqual(found["errors"][0]["message"], f"loader itemById, column text, row 1 of the key '1': {why}")

    def test_numbers_and_booleans_are_values_of_their_types(self) -> None:
        row = {"id": 1, "count": 3.0, "yes": True}
        found = self.answer("{item(id:1){id count yes}}", itemById=lambda keys: [row])
        self.assertEqual(found, {"data": {"item": {"id": "1", "count": 3, "yes": True}}})

    def test_forms_of_rows(self) -> None:
        for returned, wanted in RETURNED:
            with self.subTest(returned=returned):
                found = self.answer("{items(ids:[1,2]){text}}", itemById=lambda keys: returned)
                if isinstance(wanted, str):
                    self.assertEqual({error["message"] for error in found["errors"]}, {wanted})
                else:
                    self.assertNotIn("errors", found)
                    self.assertEqual([item and item["text"] for item in found["data"]["items"]], wanted)

    def test_how_lists_are_read_is_said_once(self) -> None:
        cases: list[tuple[Any, Any, list[str | None] | str]] = [
            ("aligned", [TWO, ONE], ["two", "one"]),
            ("aligned", [], f"{LOADER}: 0 items for 2 keys"),
            ("aligned", in_any_order([TWO, ONE]), ["one", "two"]),
            ({"itemById": "in_any_order"}, [TWO], [None, "two"]),
            ({"itemById": "in_any_order"}, [TWO, {"text": "one"}], f"{LOADER}: row 2 has no column id"),
            ("in_any_order", [TWO, None], f"{LOADER}: a row of type NoneType"),
            ("in_any_order", aligned([TWO, None]), ["two", None]),
            ({"itemsByName": "aligned"}, [TWO, ONE], ["one", "two"]),
        ]
        for rows, returned, wanted in cases:
            with self.subTest(rows=rows, returned=returned):
                functions = {"itemById": lambda keys: returned, "allItems": lambda keys: [ONE]}
                found = self.server.answer("{items(ids:[1,2]){text} all{text}}", functions, rows=rows)
                self.assertEqual(found["data"]["all"] if found["data"] else [{"text": "one"}], [{"text": "one"}])
                if isinstance(wanted, str):
                    self.assertEqual({error["message"] for error in found["errors"]}, {wanted})
                else:
                    self.assertEqual([item and item["text"] for item in found["data"]["items"]], wanted)
        for wrong in ("sorted", {"items": "aligned"}, {"itemById": None}):
            with self.assertRaises(ValueError):
                self.server.answer("{all{text}}", {}, rows=wrong)
        found = self.answer("{all{text}}", allItems=lambda keys: aligned([[ONE]]))
        self.assertEqual(found["errors"][0]["message"], "loader allItems: it has no keys that items are aligned with")

    def test_a_column_that_is_not_used_may_have_any_value(self) -> None:
        for value, why in NO_VALUES:
            rows: list[Any] = [{"id": 2, "text": "two", "other": "x", "blob": None}, {"id": 1, "text": "one", "other": value, "blob": value}]
            table: Any = (["text", "other", "id"], [("two", "x", 2), ("one", value, 1)])
            for returned in (rows, aligned([rows[1], [rows[0]]]), table, Cursor(table[0], table[1])):
                with self.subTest(value=value, returned=returned):
                    found = self.answer("{items(ids:[1,2]){text}}", itemById=lambda keys: returned)
                    self.assertEqual(found, {"data": {"items": [{"text": "one"}, {"text": "two"}]}})
                    found = self.answer("{items(ids:[1,2]){text other}}", itemById=lambda keys: returned)
                    self.assertEqual({error["message"] for error in found["errors"]}, {f"{LOADER}, column other, row 1 of the key '1': {why}"})
                    self.assertEqual(found["data"]["items"], [{"text": "one", "other": None}, {"text": "two", "other": None}])
            found = self.answer("{items(ids:[1,2]){text}}", itemById=lambda keys: [rows[0], {"id": value, "text": "one"}])
            self.assertEqual({error["message"] for error in found["errors"]}, {f"{LOADER}, column id, row 2: {why}"})
        requests: list[Any] = [{"query": "{item(id:1){text}}"}, {"query": "{item(id:1){other}}"}]
        plain, wrong = self.server.answer(requests, {"itemById": lambda keys: [{"id": 1, "text": "one", "other": [1]}]})
        self.assertEqual((plain, wrong["data"]), ({"data": {"item": {"text": "one"}}}, {"item": {"other": None}}))
        self.assertEqual(wrong["errors"][0]["message"], f"{LOADER}, column other, row 1 of the key '1': a value of type list has no text")
        with self.server.client({"itemById": lambda keys: [{"id": 1, "text": "one", "other": [1]}]}) as client:
            self.assertEqual(client.load_many("itemById", [1]), [[{"id": "1", "text": "one"}]])
        found = self.answer("{all{text other}}", allItems=lambda keys: [ONE, {"text": "two", "other": b"x"}])
        self.assertEqual({error["message"] for error in found["errors"]}, {"loader allItems, column other, row 2: a value of type bytes has no text"})

    def test_what_a_database_casts(self) -> None:
        database = sqlite3.connect(":memory:")
        self.addCleanup(database.close)
        database.executescript("create table items (id integer, text); insert into items values (1, 'one'), (2, 'two')")

        def by_id(keys: Any) -> Any:
            return database.execute(f"select * from items where id in ({', '.join('?' * len(keys))})", keys)

        cases = [
            (["01", "2"], [None, "two"], ["loader itemById: a row of the key '1' for the key '01'"]),
            (["2", "1.0", "01"], ["two", None, None], [f"loader itemById: a row of the key '1' for the key '{key}'" for key in ("1.0", "01")]),
            (["1", "01"], ["one", None], []),
        ]
        for keys, texts, messages in cases:
            found = self.server.answer("query($ids:[ID!]!){items(ids:$ids){text}}", {"itemById": by_id}, {"ids": keys})
            self.assertEqual([item and item["text"] for item in found["data"]["items"]], texts)
            self.assertEqual([error["message"] for error in found.get("errors", [])], messages)
        row = {"id": 1, "name": "ada", "a": "1", "b": "X", "text": "one"}
        found = self.answer('{p:pair(a:"1",b:"x "){text} q:pair(a:1,b:"X"){text} r:pair(a:"01",b:"X"){text}}', itemByBoth=lambda keys: [row])
        self.assertEqual(found, {"data": {"p": None, "q": {"text": "one"}, "r": None}})
        found = self.answer('{p:pair(a:"01",b:"x "){text}}', itemByBoth=lambda keys: [row])
        self.assertEqual(found["errors"][0]["message"], "loader itemByBoth: a row of the key '1', 'X' for the key '01', 'x '")
        found = self.answer('{of(name:"ADA "){text}}', itemsByName=lambda keys: [row])
        self.assertEqual(found["errors"][0]["message"], "loader itemsByName: a row of the key 'ada' for the key 'ADA '")

    def test_rows_of_keys_that_were_cast_are_left_out(self) -> None:
        keys = [str(number) if number % 2 == 0 else f"{number:05}" for number in range(1000)]
        told: list[tuple[str, Any]] = []

        def on_error(error: Exception, _loader: str, keys: Any) -> PublicError:
            told.append((str(error), keys))
            return PublicError("cast")

        client = self.server.client({"itemById": lambda keys: [{"id": int(key), "text": [text]} for key in keys for text in "ab"]}, on_error=on_error)
        self.addCleanup(client.close)
        for number, (key, loaded) in enumerate(zip(keys, client.load_many("itemById", keys))):
            if number % 2 == 0:
                self.assertEqual(loaded, [{"id": key}] * 2)
            else:
                self.assertEqual(str(loaded), "cast")
        self.assertEqual(told, [(f"{LOADER}: a row of the key '{int(key)}' for the key '{key}'", [key]) for key in keys[1::2]])
        for key, value in (("1.20E2", 120), ("-0", 0), (" 1 ", 1)):
            (loaded,) = self.server.client({"itemById": lambda keys: [{"id": value}]}).load_many("itemById", [key])
            self.assertEqual(str(loaded), f"{LOADER}: a row of the key '{value}' for the key '{key}'")
        for key in ("1e", "-1", ".", ""):
            (loaded,) = self.server.client({"itemById": lambda keys: [{"id": 1}]}).load_many("itemById", [key])
            self.assertEqual(str(loaded), f"{LOADER}: row 1 has the key '1' {BY_ID}")

    def test_the_fault_of_a_key(self) -> None:
        for item in ([ONE], ONE):
            found = self.answer("{items(ids:[1,2,3]){text}}", itemById=lambda keys: [item, ValueError("no such item"), KeyError()])
            where = {"locations": [{"line": 1, "column": 2}]}
            gone = {"message": "no such item", **where, "path": ["items", 1]}
            unnamed = {"message": "KeyError", **where, "path": ["items", 2]}
            self.assertEqual(found, {"errors": [gone, unnamed], "data": {"items": [{"text": "one"}, None, None]}})

    def test_loaders_of_all_rows(self) -> None:
        tables = ([ONE, TWO], iter([ONE, TWO]), (["id", "text"], [(1, "one"), (2, "two")]), Cursor(["text"], [("one",), ("two",)]))
        for returned in tables:
            asked: list[Any] = []
            found = self.answer("{all{text}}", allItems=worlds.noted(asked, lambda keys: returned))
            self.assertEqual((found, asked), ({"data": {"all": [{"text": "one"}, {"text": "two"}]}}, [[]]))
        self.assertEqual(self.answer("{all{text}}", allItems=lambda keys: []), {"data": {"all": []}})
        for wrong in ([None], [[ONE]], [ONE, ValueError("x")]):
            message = self.answer("{all{text}}", allItems=lambda keys: wrong)["errors"][0]["message"]
            self.assertEqual(message, "loader allItems: its function returned something else than rows")

    def test_loaders_of_two_columns(self) -> None:
        rows = [{"a": 2, "b": "y", "text": "two"}, {"a": 1, "b": "x", "text": "one"}]
        asked: list[Any] = []
        query = '{p:pair(a:1,b:"x"){text} q:pair(a:2,b:"y"){text} r:pair(a:2,b:"x"){text}}'
        found = self.answer(query, itemByBoth=worlds.noted(asked, lambda keys: rows))
        self.assertEqual(found, {"data": {"p": {"text": "one"}, "q": {"text": "two"}, "r": None}})
        self.assertEqual(asked, [[("1", "x"), ("2", "y"), ("2", "x")]])

    def test_folding_loaders_group_without_case(self) -> None:
        rows = [{"name": "ADA", "text": "one"}, {"name": "bob", "text": "two"}, {"name": "Ada", "text": "three"}, {"name": "É", "text": "four"}]
        found = self.answer('{a:of(name:"ada"){text} b:of(name:"BOB"){text} c:of(name:"É"){text}}', itemsByName=lambda keys: rows)
        self.assertEqual(found, {"data": {"a": [{"text": "one"}, {"text": "three"}], "b": [{"text": "two"}], "c": [{"text": "four"}]}})

    def test_rows_of_folding_loaders_are_told_as_they_are(self) -> None:
        rows: list[Any] = [{"name": "bob", "id": 2}, {"name": "ADA", "id": 1, "text": "one"}, {"name": "Ada", "id": 3, "text": [3]}]
        query = '{a:of(name:"aDa"){id text} b:of(name:"Bob"){id}}'
        found = self.answer(query, itemsByName=lambda keys: rows)
        self.assertEqual(found["data"], {"a": [{"id": "1", "text": None}, {"id": "3", "text": None}], "b": [{"id": "2"}]})
        message = "loader itemsByName, column text, row 2 of the key 'aDa': a value of type list has no text"
        self.assertEqual([error["message"] for error in found["errors"]], [message] * 2)
        found = self.answer(query, itemsByName=lambda keys: [*rows, {"name": "Éva"}])
        not_asked = "loader itemsByName: row 4 has the key 'Éva' in column name, which wasn't asked for"
        self.assertEqual([error["message"] for error in found["errors"]], [not_asked] * 2)

    def test_rows_that_are_refused_leave_their_order(self) -> None:
        client = self.server.client({})
        self.addCleanup(client.close)
        client.begin_request("{items(ids:[1,2]){text}}")
        client.next()
        (order,) = client.orders()
        refused: list[tuple[Any, str]] = [([ONE, {"id": 3}], f"row 2 has the key '3' {BY_ID}"), ((["text"], [["x"]]), "its rows have no column id")]
        for returned, why in refused:
            with self.assertRaises(ValueError) as raised:
                client.reply(order, returned)
            self.assertEqual(str(raised.exception), f"{LOADER}: {why}")
        client.reply(order, [TWO, ONE])
        client.next()
        self.assertEqual(client.text(), '{"data":{"items":[{"text":"one"},{"text":"two"}]}}')

    def test_rows_of_sqlite(self) -> None:
        database = sqlite3.connect(":memory:")
        self.addCleanup(database.close)
        database.row_factory = sqlite3.Row
        query = "select 2 as id, 'two' as text, 2.0 as count union all select 1, null, null"
        for returned in (lambda keys: database.execute(query), lambda keys: database.execute(query).fetchall()):
            found = self.answer("{items(ids:[1,2]){text count}}", itemById=returned)
            self.assertEqual(found, {"data": {"items": [{"text": None, "count": None}, {"text": "two", "count": 2}]}})


if __name__ == "__main__":
    unittest.main()
