"""The batch function of each loader of bindings.txt: from keys to rows, by one statement."""

from __future__ import annotations

import re
import string
from collections.abc import Callable, Iterable, Sequence

from database import Database, Rows
from rudzkvano import Loader

Key = str | tuple[str, str]
BatchFunction = Callable[[Sequence[Key]], Rows]
# Tells which statement a batch ran; None where it ran none.
Tell = Callable[[str | None], None]

# {keys} becomes a placeholder for each key, and for a loader by two columns a pair of them.
STATEMENTS = {
    "customerById": "select id, name, email, city, joined from customers where id in ({keys})",
    "customerByEmail": "select id, name, email, city, joined from customers where email in ({keys})",
    "customersByCity": "select id, name, email, city, joined from customers where city in ({keys}) order by id",
    "orderById": "select id, customer_id, date, status from orders where id in ({keys})",
    "ordersByCustomer": "select id, customer_id, date, status from orders where customer_id in ({keys}) order by date, id",
    "linesByOrder": "select order_id, product_id, quantity, price from lines where order_id in ({keys}) order by product_id",
    "linesByProduct": "select order_id, product_id, quantity, price from lines where product_id in ({keys}) order by order_id",
    "productById": "select id, name, category, price from products where id in ({keys})",
    "productsByCategory": "select id, name, category, price from products where category in ({keys}) order by id",
    "allProducts": "select id, name, category, price from products order by id",
    "reviewsByCustomer": "select id, customer_id, product_id, date, stars, text from reviews where customer_id in ({keys}) order by id",
    "reviewsByProduct": "select id, customer_id, product_id, date, stars, text from reviews where product_id in ({keys}) order by id",
    "reviewByBoth": "select id, customer_id, product_id, date, stars, text from reviews where (customer_id, product_id) in (values {keys})",
}
# More keys are asked in several batches: SQLite takes at most 32,766 values in one statement.
MOST_KEYS = 10_000

# The numbers as the database writes them: 01 is another text than 1, so it is the key of no row.
NUMBER = re.compile("[1-9][0-9]{0,8}")
LOWER = str.maketrans(string.ascii_uppercase, string.ascii_lowercase)


def values_of(loader: Loader, keys: Sequence[Key]) -> list[tuple[object, ...]]:
    """The values to ask for, for each key one or two. Keys that no row can have are left out."""
    parts: Iterable[tuple[str, ...]] = ((key,) if isinstance(key, str) else key for key in keys)
    if loader.folds:
        return [tuple(part.translate(LOWER) for part in key) for key in parts]
    if all(column == "id" or column.endswith("_id") for column in loader.columns):
        return [tuple(map(int, key)) for key in parts if all(map(NUMBER.fullmatch, key))]
    return list(parts)


def batch_function(database: Database, loader: Loader, tell: Tell) -> BatchFunction:
    statement, width = STATEMENTS[loader.name], len(loader.columns)
    place = database.placeholder if width < 2 else f"({database.placeholder}, {database.placeholder})"

    def ask(keys: Sequence[Key]) -> Rows:
        values = values_of(loader, keys)
        if width > 0 and not values:
            tell(None)
            return list(loader.columns), []
        asked = statement.format(keys=", ".join([place] * len(values)))
        tell(asked)
        return database.ask(asked, [value for key in values for value in key])

    return ask


def batch_functions(database: Database, loaders: Iterable[Loader], tell: Tell = lambda _: None) -> dict[str, BatchFunction]:
    return {loader.name: batch_function(database, loader, tell) for loader in loaders}
