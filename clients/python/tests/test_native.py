"""The extension reads rows and writes JSON as the package does without it."""

import json
import random
import unittest
from datetime import date
from decimal import Decimal
from importlib import import_module
from typing import Any

import worlds
from rudzkvano.rows import _texts_of_rows, text_of

try:
    NATIVE: Any = import_module("rudzkvano._native")
except ImportError:
    NATIVE = None

NUMBERS = [0, -1, 2**63 - 1, -(2**63), 2**63]
TEXTS = ["", "1", "Ada", 'é"\\\n\x00', "\U0001f600", "\ud800"]


@unittest.skipIf(NATIVE is None, "the extension of the client for Python isn't built")
class Native(unittest.TestCase):
    def setUp(self) -> None:
        self.chance = random.Random(1)

    def field(self) -> Any:
        return self.chance.choice([*NUMBERS, *TEXTS[:-1], None, True, 1.5, Decimal("1.50"), date(2026, 11, 30)])

    def row(self, key: Any) -> dict[Any, Any]:
        row = {"id": key, "name": self.field(), "best": self.field()}
        if self.chance.random() < 0.03:
            row[self.chance.choice(["other", 1])] = self.field()
        if self.chance.random() < 0.03:
            row["name"] = self.chance.choice([b"no text", [], "\ud800", float("nan")])
        return row if self.chance.random() > 0.03 else dict(reversed(row.items()))

    def item(self, key: str, kind: str) -> Any:
        rows: list[Any] = [self.row(key) for _ in range(self.chance.randrange(3))]
        items = {"row": self.row(int(key)), "rows": rows, "none": None, "other": self.chance.choice([ValueError("no"), (), "text", {}])}
        return items[kind]

    def test_rows(self) -> None:
        loaders = {it.name: it for it in worlds.WORLDS["examples"].server().loaders}
        read = 0
        for _ in range(3000):
            loader = loaders[self.chance.choice(["userById", "allUsers", "postsByAuthor"])]
            keys = [str(key) for key in self.chance.sample(range(9), self.chance.randrange(4))]
            kinds = self.chance.choice(["row", "row none", "rows", "row rows none", "row rows none other"]).split()
            items = [self.item(key, self.chance.choice(kinds)) for key in keys]
            form = self.chance.choice([None, "aligned", "in_any_order"])
            rows = NATIVE.read_rows(items, keys, loader, form, text_of)
            if rows is not None:
                wanted = _texts_of_rows(loader, keys, items, form)
                self.assertEqual((rows.ends, rows.data), (wanted.ends, wanted.data), (items, keys))
                self.assertFalse(wanted.unread)
                read += 1
        self.assertGreater(read, 500)

    def value(self, depth: int) -> Any:
        kind = self.chance.randrange(8 if depth else 6)
        if kind < 6:
            return self.chance.choice([None, True, False, *NUMBERS, *TEXTS, 1.5])
        values = [self.value(depth - 1) for _ in range(self.chance.randrange(4))]
        return values if kind == 6 else {self.chance.choice(TEXTS): value for value in values}

    def test_json(self) -> None:
        written = 0
        for _ in range(3000):
            value = self.value(4)
            text = NATIVE.json_of(value)
            if text is not None:
                self.assertEqual(json.loads(text), value)
                written += 1
        self.assertGreater(written, 500)
        endless: list[Any] = []
        endless.append(endless)
        for other in (endless, {1: "2"}, (1, 2), {"a": {1}}, float("nan"), "\ud800"):
            self.assertIsNone(NATIVE.json_of(other))


if __name__ == "__main__":
    unittest.main()
