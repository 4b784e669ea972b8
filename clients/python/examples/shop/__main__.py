"""Runs the shop: a GraphQL server over SQLite or PostgreSQL, which makes its own data at the first start.

    python3 clients/python/examples/shop

Then http://127.0.0.1:8000/ has a query editor, and /graphql is GraphQL over HTTP.
"""

from __future__ import annotations

import sys
from argparse import ArgumentParser, Namespace
from pathlib import Path

HERE = Path(__file__).resolve().parent
# behind all others, so that an installed package comes first
sys.path.append(str(HERE.parents[1]))

from application import application  # noqa: E402
from database import postgres, sqlite  # noqa: E402
from http_server import ThreadingServer  # noqa: E402


def read_words() -> Namespace:
    parser = ArgumentParser("shop", description="A GraphQL server over SQLite or PostgreSQL, with 100,000 rows that it makes at its first start.")
    parser.add_argument("--host", default="127.0.0.1", help="the address to listen at (default: %(default)s)")
    parser.add_argument("--port", type=int, default=8000, help="the port to listen at, 0 for any that is free (default: %(default)s)")
    where = parser.add_mutually_exclusive_group()
    beside = "the SQLite file (default: shop.sqlite beside the program)"
    where.add_argument("--database", type=Path, metavar="FILE", default=HERE / "shop.sqlite", help=beside)
    where.add_argument("--postgres", metavar="DSN", help='a PostgreSQL database in place of the file, as "dbname=shop"; it needs psycopg2')
    return parser.parse_args()


def serve(words: Namespace) -> None:
    database = postgres(words.postgres) if words.postgres else sqlite(words.database)
    with ThreadingServer((words.host, words.port), application(database)) as server:
        print(f"http://{words.host}:{server.server_port}/", flush=True)
        try:
            server.serve_forever()
        except KeyboardInterrupt:
            pass
    database.close()


def main() -> None:
    words = read_words()
    try:
        serve(words)
    except (ImportError, OSError) as error:
        sys.exit(f"shop: {error}")


if __name__ == "__main__":
    main()
