"""The database that the shop asks: SQLite or PostgreSQL, filled at the first start."""

from __future__ import annotations

import os
import sqlite3
from collections.abc import Callable, Sequence
from pathlib import Path
from threading import Semaphore
from typing import Any

import data

Rows = tuple[list[str], list[tuple[object, ...]]]


class Database:
    """Connections, each of which runs one statement at a time. They are kept for the next statement, whichever thread runs it.

    `placeholder` is what stands for a value in a statement, and `at_once` how many statements run at a time.
    """

    def __init__(self, connect: Callable[[], Any], placeholder: str, at_once: int) -> None:
        self._connect, self.placeholder = connect, placeholder
        self._idle: list[Any] = []
        self._turn = Semaphore(at_once)

    def ask(self, statement: str, values: Sequence[object]) -> Rows:
        """The names of the columns, and the rows."""
        with self._turn:
            return self._ask(statement, values)

    def _ask(self, statement: str, values: Sequence[object]) -> Rows:
        try:
            connection = self._idle.pop()
        except IndexError:
            connection = self._connect()
        try:
            cursor = connection.cursor()
            cursor.execute(statement, values)
            rows = [column[0] for column in cursor.description], cursor.fetchall()
        except Exception:
            connection.close()
            raise
        self._idle.append(connection)
        return rows

    def close(self) -> None:
        while self._idle:
            self._idle.pop().close()


def create_tables(cursor: Any) -> None:
    for table, columns in data.TABLES.items():
        cursor.execute(f"create table {table} ({columns})")


def create_indexes(cursor: Any) -> None:
    for table, columns in data.INDEXES.items():
        for column in columns:
            cursor.execute(f"create index {table}_by_{column} on {table} ({column})")
    cursor.execute("analyze")


def make_sqlite(path: Path) -> None:
    """Makes the file under another name first, so that it is never there in part."""
    made = path.with_name(f"{path.name}.{os.getpid()}")
    connection = sqlite3.connect(made)
    with connection:
        cursor = connection.cursor()
        create_tables(cursor)
        for table, rows in data.make_rows().items():
            cursor.executemany(f"insert into {table} values ({', '.join('?' * len(rows[0]))})", rows)
        create_indexes(cursor)
    connection.close()
    made.replace(path)


def sqlite(path: Path) -> Database:
    """The database in a file, which is made if it isn't there.

    Its statements run one at a time: Python's SQLite lets another thread go on at each row, so that many of them at once crawl.
    """
    if not path.exists():
        make_sqlite(path)
    address = f"{path.resolve().as_uri()}?mode=ro"
    return Database(lambda: sqlite3.connect(address, uri=True, check_same_thread=False), "?", 1)


def make_postgres(cursor: Any) -> None:
    """Makes the tables unless they are there. Of several processes that start at once, one makes them."""
    from psycopg2.extras import execute_values

    cursor.execute("select pg_advisory_xact_lock(41)")
    cursor.execute("select to_regclass('reviews') is not null")
    if cursor.fetchone()[0]:
        return
    create_tables(cursor)
    for table, rows in data.make_rows().items():
        execute_values(cursor, f"insert into {table} values %s", rows, page_size=1_000)
    create_indexes(cursor)


def postgres(dsn: str) -> Database:
    """A PostgreSQL database. It gets the shop's tables if it hasn't got them."""
    import psycopg2

    def connect() -> Any:
        connection = psycopg2.connect(dsn)
        connection.autocommit = True
        return connection

    with psycopg2.connect(dsn) as connection, connection.cursor() as cursor:
        make_postgres(cursor)
    connection.close()
    return Database(connect, "%s", 32)
