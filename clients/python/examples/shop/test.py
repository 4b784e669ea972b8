"""Tests of the shop. What its queries answer is compared with joins that the database computes.

    python3 clients/python/examples/shop/test.py

With SHOP_POSTGRES="dbname=.." in the environment the same is tested over that PostgreSQL database. Where the gate or RUDZKVANO_QUERY_CLI has a
program query_cli, the examples are compared with what that answers and asks.
"""

from __future__ import annotations

import csv
import io
import json
import os
import sqlite3
import subprocess
import sys
import unittest
from concurrent.futures import ThreadPoolExecutor
from contextlib import closing
from datetime import date
from http.client import HTTPConnection
from pathlib import Path
from socket import SO_RCVBUF, SOL_SOCKET, create_connection
from tempfile import TemporaryDirectory
from threading import Thread
from time import monotonic, sleep
from typing import Any
from wsgiref.util import setup_testing_defaults
from wsgiref.validate import validator

HERE = Path(__file__).resolve().parent
sys.path.append(str(HERE.parents[1]))

import data  # noqa: E402
from application import BINDINGS, FILES, ROUNDS, SCHEMA, application, run  # noqa: E402
from database import Database, postgres, sqlite  # noqa: E402
from http_server import LONGEST_BODY, Limits, ThreadingServer  # noqa: E402

PROGRAM = Path(os.environ.get("RUDZKVANO_QUERY_CLI", HERE.parents[3] / "crates/query_cli/out/query_cli"))
EXAMPLES = {example["name"]: example for example in json.loads((HERE / "examples.json").read_text("utf-8"))}

# For each example the rows that its answer has, when each list in it is joined to what it stands in.
JOINS = {
    "An order with its lines": """
        select orders.date, orders.status, customers.name, customers.city, lines.quantity, lines.price, products.name
        from orders join customers on customers.id = orders.customer_id
        join lines on lines.order_id = orders.id join products on products.id = lines.product_id
        where orders.id = 7 order by products.id""",
    "What customers in Bergen ordered": """
        select customers.name, orders.date, lines.quantity, products.name, products.category
        from customers join orders on orders.customer_id = customers.id
        join lines on lines.order_id = orders.id join products on products.id = lines.product_id
        where customers.city = 'Bergen' order by customers.id, orders.date, orders.id, products.id""",
    "All products with their reviews": """
        select products.name, reviews.stars, reviews.text, customers.name
        from products join reviews on reviews.product_id = products.id join customers on customers.id = reviews.customer_id
        order by products.id, reviews.id""",
    "From a customer to others who bought the same": """
        select customers.name, products.name, others.name
        from customers join orders on orders.customer_id = customers.id
        join lines on lines.order_id = orders.id join products on products.id = lines.product_id
        join lines as sold on sold.product_id = products.id join orders as bought on bought.id = sold.order_id
        join customers as others on others.id = bought.customer_id
        where customers.email = 'hugo.garcia.1@example.org' order by orders.date, orders.id, products.id, bought.id""",
    "Reviews by customer and product": """
        select one.stars, one.text, customers.name, products.name, other.stars, other.text, others.name, things.name
        from reviews as one join customers on customers.id = one.customer_id join products on products.id = one.product_id
        cross join reviews as other join customers as others on others.id = other.customer_id join products as things on things.id = other.product_id
        where one.customer_id = 1984 and one.product_id = 773 and other.customer_id = 4481 and other.product_id = 27""",
    "Orders of a list of ids": """
        select cast(orders.id as varchar(5)), orders.status, customers.name, products.name
        from (select 1 as place, 3 as id union all select 2, 1 union all select 3, 3 union all select 4, 20001) as asked
        join orders on orders.id = asked.id join customers on customers.id = orders.customer_id
        join reviews on reviews.customer_id = customers.id join products on products.id = reviews.product_id
        order by asked.place, reviews.id""",
}

ANSWERED = [
    ("{order(id: 20001) {id} product(id: 0) {id} review(customer: 1, product: 1001) {id}}", {"order": None, "product": None, "review": None}),
    ('{customer(id: "01") {id} customerByEmail(email: "") {id}}', {"customer": None, "customerByEmail": None}),
    ('{a: customer(id: "x") {id} b: customer(id: "99999999999999999999") {id} c: customer(id: -1) {id}}', {"a": None, "b": None, "c": None}),
    ('{customersIn(city: "Nowhere") {id} productsIn(category: "music") {id}}', {"customersIn": [], "productsIn": []}),
    ("{orders(ids: []) {id}}", {"orders": []}),
]

FAULTS = [
    ("{\n  order(id: 7) {\n    colour\n  }\n}", {"message": "5.3.1 Field Selections: colour", "locations": [{"line": 3, "column": 5}]}),
    ("{order(id: 7) {id}", {"message": "unexpected end", "locations": [{"line": 1, "column": 19}]}),
    ("mutation {a}", {"message": "not served: mutation", "locations": [{"line": 1, "column": 1}]}),
    ("{products {lines {order {customer {name email city}}}}}", {"message": "answer too long"}),
    # 1,257,714 positions
    ("{products {lines {order {customer {orders {id date status}}}}}}", {"message": "too much work"}),
]


def joined(value: Any) -> list[tuple[Any, ...]]:
    """The rows of an answer: of an object each way to take a row of each member, of a list the rows of its items. What is null has none."""
    if value is None:
        return []
    if isinstance(value, list):
        return [row for item in value for row in joined(item)]
    if not isinstance(value, dict):
        return [(value,)]
    rows: list[tuple[Any, ...]] = [()]
    for member in value.values():
        rows = [row + more for row in rows for more in joined(member)]
    return rows


class Shop:
    """The application, asked without a network."""

    def __init__(self, database: Database) -> None:
        self.database, self.serve = database, validator(application(database))

    def ask(self, path: str, method: str = "GET", body: bytes = b"", accept: str = "") -> tuple[int, dict[str, str], bytes]:
        path, _, query = path.partition("?")
        environ: dict[str, Any] = {"REQUEST_METHOD": method, "SCRIPT_NAME": "", "PATH_INFO": path, "QUERY_STRING": query, "HTTP_ACCEPT": accept}
        environ |= {"CONTENT_TYPE": "application/json", "CONTENT_LENGTH": str(len(body)), "wsgi.input": io.BytesIO(body)}
        setup_testing_defaults(environ)
        status, headers, text = run(self.serve, environ)
        return int(status[:3]), dict(headers), text

    def answer(self, request: dict[str, Any], accept: str = "") -> Any:
        _, _, text = self.ask("/graphql", "POST", json.dumps(request).encode(), accept)
        return json.loads(text)

    def rounds(self, request: dict[str, Any]) -> Any:
        return self.answer(request, ROUNDS)["extensions"]["rounds"]

    def rows(self, statement: str) -> list[tuple[Any, ...]]:
        """What the database itself answers, with dates as texts."""
        return [tuple(value.isoformat() if isinstance(value, date) else value for value in row) for row in self.database.ask(statement, ())[1]]


class TestAnswers(unittest.TestCase):
    """What is answered, over SQLite."""

    folder: TemporaryDirectory[str]
    shop: Shop

    @classmethod
    def make_database(cls) -> Database:
        return sqlite(Path(cls.folder.name) / "shop.sqlite")

    @classmethod
    def setUpClass(cls) -> None:
        cls.folder = TemporaryDirectory()
        cls.addClassCleanup(cls.folder.cleanup)
        cls.shop = Shop(cls.make_database())
        cls.addClassCleanup(cls.shop.database.close)

    def test_data(self) -> None:
        wanted = {"customers": 5_000, "products": 1_000, "orders": 20_000}
        counts = {table: self.shop.rows(f"select count(*) from {table}")[0][0] for table in data.TABLES}
        self.assertEqual(counts, counts | wanted)
        self.assertEqual(sum(counts.values()), 100_000)
        for table, column, other in [
            ("orders", "customer_id", "customers"),
            ("lines", "order_id", "orders"),
            ("lines", "product_id", "products"),
            ("reviews", "customer_id", "customers"),
            ("reviews", "product_id", "products"),
        ]:
            lost = self.shop.rows(f"select count(*) from {table} where {column} not in (select id from {other})")
            self.assertEqual(lost, [(0,)], f"{table}.{column}")

    def test_examples(self) -> None:
        for name, statement in JOINS.items():
            with self.subTest(name):
                answer = self.shop.answer(EXAMPLES[name])
                self.assertEqual(list(answer), ["data"])
                rows = self.shop.rows(statement)
                self.assertGreater(len(rows), 0)
                self.assertEqual(joined(answer["data"]), rows)

    def test_the_example_with_a_fault(self) -> None:
        (name,) = EXAMPLES.keys() - JOINS.keys()
        query = EXAMPLES[name]["query"]
        before = query[: query.index("colour")]
        place = {"line": before.count("\n") + 1, "column": len(before) - before.rindex("\n")}
        self.assertEqual(self.shop.answer(EXAMPLES[name]), {"errors": [{"message": "5.3.1 Field Selections: colour", "locations": [place]}]})

    def test_keys_without_rows(self) -> None:
        for query, wanted in ANSWERED:
            with self.subTest(query):
                self.assertEqual(self.shop.answer({"query": query}), {"data": wanted})

    def test_faults(self) -> None:
        for query, wanted in FAULTS:
            with self.subTest(query):
                self.assertEqual(self.shop.answer({"query": query}), {"errors": [wanted]})

    def test_rounds(self) -> None:
        request = EXAMPLES["What customers in Bergen ordered"]
        rounds = self.shop.rounds(request)
        customers = "select id from customers where city = 'Bergen'"
        orders = f"select id from orders where customer_id in ({customers})"
        wanted = [
            ("customersByCity", {"Bergen"}),
            ("ordersByCustomer", {str(key) for (key,) in self.shop.rows(customers)}),
            ("linesByOrder", {str(key) for (key,) in self.shop.rows(orders)}),
            ("productById", {str(key) for (key,) in self.shop.rows(f"select product_id from lines where order_id in ({orders})")}),
        ]
        found = [[(batch["loader"], set(batch["keys"])) for batch in batches] for batches in rounds]
        self.assertEqual(found, [[batch] for batch in wanted])

    def test_statements(self) -> None:
        """A statement is the one that ran: with the keys as its values, it gives rows."""
        query = "{order(id: 7) {lines {product {name}}} review(customer: 1984, product: 773) {text} products {id}}"
        for batch in (batch for batches in self.shop.rounds({"query": query}) for batch in batches):
            values = [int(part) for key in batch["keys"] if key is not None for part in (key if isinstance(key, list) else [key])]
            self.assertGreater(len(self.shop.database.ask(batch["statement"], values)[1]), 0, batch)
        (batch,), *others = self.shop.rounds({"query": '{customer(id: "x") {id}}'})
        self.assertEqual((batch["keys"], batch.get("statement"), others), (["x"], None, []), "nothing is asked for a key that no row can have")

    def test_rounds_stand_behind_the_answer(self) -> None:
        for query, status in [("{order(id: 7) {date}}", 200), ("{order}", 400), ("{a: order(id: 7) {id} b: orders(ids: [7]) {id}}", 200)]:
            body = json.dumps({"query": query}).encode()
            plain, told = (self.shop.ask("/graphql", "POST", body, accept) for accept in ("application/graphql-response+json", f"{ROUNDS}, */*;q=0.1"))
            self.assertEqual((plain[0], told[0]), (status, status))
            self.assertEqual(told[1]["Content-Type"], ROUNDS)
            self.assertEqual(told[1]["Content-Length"], str(len(told[2])))
            self.assertTrue(told[2].startswith(plain[2][:-1] + b',"extensions":{"rounds":['))
            self.assertNotIn(b"extensions", plain[2])

    def test_threads(self) -> None:
        names = ["An order with its lines", "Reviews by customer and product", "Orders of a list of ids"]
        requests = [EXAMPLES[name] for name in names]
        wanted = [self.shop.answer(request) for request in requests]
        with ThreadPoolExecutor(16) as pool:
            answers = list(pool.map(self.shop.answer, requests * 20))
        self.assertEqual(answers, wanted * 20)


@unittest.skipUnless("SHOP_POSTGRES" in os.environ, "left out: SHOP_POSTGRES names no PostgreSQL database")
class TestAnswersOfPostgres(TestAnswers):
    """The same over PostgreSQL."""

    @classmethod
    def make_database(cls) -> Database:
        """Four that start at once: one of them makes the tables."""
        with ThreadPoolExecutor(4) as pool:
            database, *others = pool.map(postgres, [os.environ["SHOP_POSTGRES"]] * 4)
        for other in others:
            other.close()
        return database


@unittest.skipUnless(PROGRAM.is_file(), "left out: there is no program query_cli to compare with")
class TestAgainstTheProgram(unittest.TestCase):
    """The program `query_cli` over the same rows, in the order of the statements."""

    def setUp(self) -> None:
        folder = TemporaryDirectory()
        self.addCleanup(folder.cleanup)
        self.folder = Path(folder.name)
        self.shop = Shop(sqlite(self.folder / "shop.sqlite"))
        self.addCleanup(self.shop.database.close)

    def write_table(self, name: str) -> str:
        order = {"orders": "date, id", "lines": "order_id, product_id"}.get(name, "id")
        columns, rows = self.shop.database.ask(f"select * from {name} order by {order}", ())
        with open(self.folder / f"{name}.csv", "w", encoding="utf-8", newline="") as file:
            csv.writer(file).writerows([columns, *rows])
        return f"{name}={self.folder}/{name}.csv"

    def test_examples(self) -> None:
        requests, trace = self.folder / "requests.jsonl", self.folder / "trace.jsonl"
        requests.write_text("".join(json.dumps(example) + "\n" for example in EXAMPLES.values()), "utf-8")
        files = ["--schema", SCHEMA, "--bindings", BINDINGS, "--trace", trace, requests]
        words = [*map(str, files), *map(self.write_table, data.TABLES)]
        answers = subprocess.run([str(PROGRAM), *words], stdout=subprocess.PIPE, check=True).stdout.splitlines()
        traces = trace.read_text("utf-8").splitlines()
        for example, answer, line in zip(EXAMPLES.values(), answers, traces, strict=True):
            with self.subTest(example["name"]):
                self.assertEqual(self.shop.ask("/graphql", "POST", json.dumps(example).encode())[2], answer)
                rounds = [[{name: batch[name] for name in ("loader", "keys")} for batch in batches] for batches in self.shop.rounds(example)]
                self.assertEqual(rounds, json.loads(line)["rounds"])


class TestServing(unittest.TestCase):
    """What doesn't depend on the rows."""

    def setUp(self) -> None:
        folder = TemporaryDirectory()
        self.addCleanup(folder.cleanup)
        path = Path(folder.name) / "empty.sqlite"
        sqlite3.connect(path).close()
        path.touch()
        self.shop = Shop(sqlite(path))
        self.addCleanup(self.shop.database.close)

    def test_files(self) -> None:
        for path, (file, media_type) in FILES.items():
            for method, wanted in ("GET", file.read_bytes()), ("HEAD", b""):
                status, headers, text = self.shop.ask(path, method)
                self.assertEqual((status, headers["Content-Type"], text), (200, media_type, wanted))
                self.assertEqual(headers["Content-Length"], str(file.stat().st_size))
            self.assertEqual(self.shop.ask(path, "POST")[:2], (405, {"Allow": "GET, HEAD", "Content-Type": "text/plain", "Content-Length": "0"}))
        self.assertIn(b"<title>Rounds of batches</title>", self.shop.ask("/")[2])
        self.assertEqual(self.shop.ask("/nothing")[0], 404)
        self.assertEqual(self.shop.ask("/graphql", "PUT")[0], 405)

    def test_a_batch_that_fails(self) -> None:
        with self.assertLogs("rudzkvano") as logged:
            answer = self.shop.answer({"query": "{customer(id: 1) {id} orders(ids: [1, 2]) {id}}"}, ROUNDS)
        self.assertEqual([error["message"] for error in answer["errors"]], ["internal error"] * 3)
        self.assertEqual([f"no such table: {name}" in text for name, text in zip(("customers", "orders"), logged.output)], [True, True])
        (round,) = answer["extensions"]["rounds"]
        self.assertEqual([batch["failed"] for batch in round], ["no such table: customers", "no such table: orders"])

    def test_a_head_with_rounds(self) -> None:
        wanted = self.shop.ask("/graphql?query={a}", "GET", accept=ROUNDS)
        self.assertIn(b'"extensions":{"rounds":[]}', wanted[2])
        self.assertEqual(self.shop.ask("/graphql?query={a}", "HEAD", accept=ROUNDS), (wanted[0], wanted[1], b""))

    def test_a_long_body(self) -> None:
        body = json.dumps({"query": "{__typename}"}).encode()
        for size, status in ((LONGEST_BODY, 200), (LONGEST_BODY + 1, 413)):
            self.assertEqual(self.shop.ask("/graphql", "POST", body.ljust(size))[0], status)


GET, POST = b"GET /next HTTP/1.1\r\nHost: a\r\n\r\n", b"POST /a HTTP/1.1\r\nHost: a\r\n"
CHUNKED = POST + b"Transfer-Encoding: chunked\r\n"
# requests that are refused, with the status, and after each a request that isn't answered
REFUSED: list[tuple[bytes, int]] = [
    (POST + b"Content-Length: 4\r\nContent-Length: 4\r\n\r\nbody", 400),
    (POST + b"Content-Length: 4\r\ncontent-length: 0\r\n\r\nbody", 400),
    (POST + b"Content-Length: 4, 4\r\n\r\nbody", 400),
    (POST + b"Content-Length: 0\r\nTransfer-Encoding: chunked\r\n\r\n0\r\n\r\n", 400),
    (POST + b"Transfer-Encoding: gzip, chunked\r\n\r\n0\r\n\r\n", 501),
    (POST + b"Transfer-Encoding: identity\r\n\r\n", 501),
    (CHUNKED + b"Transfer-Encoding: chunked\r\n\r\n0\r\n\r\n", 400),
    (POST.replace(b"1.1", b"1.0") + b"Transfer-Encoding: chunked\r\n\r\n0\r\n\r\n", 400),
    (POST + b"Content-Length : 4\r\n\r\nbody", 400),
    (POST + b"Content-Length\r\n\r\n", 400),
    (POST + b"X: 1\r\n Content-Length: 4\r\n\r\n", 400),
    (POST + b": 1\r\n\r\n", 400),
    (POST + b"X: \x00\r\n\r\n", 400),
    (POST + b"X: 1\nContent-Length: 0\r\n\r\n", 400),
    (POST + b"X: 1\rContent-Length: 0\r\n\r\n", 400),
    (POST + b"\nX: 1\r\n\r\n", 400),
    (POST + b"Host: b\r\n\r\n", 400),
    (b"POST /a HTTP/1.1\r\nContent-Length: 0\r\n\r\n", 400),
    (b"POST /a\r\n", 400),
    (b"POST /a HTTP/2.0\r\nHost: a\r\n\r\n", 400),
    (b"POST  /a HTTP/1.1\r\nHost: a\r\n\r\n", 400),
    (b"POST /a b HTTP/1.1\r\nHost: a\r\n\r\n", 400),
    (b"\r\n", 400),
    (b"OPTIONS * HTTP/1.1\r\nHost: a\r\n\r\n", 400),
    (b"GET a HTTP/1.1\r\nHost: a\r\n\r\n", 400),
    (CHUNKED + b"\r\n4 \r\nbody\r\n0\r\n\r\n", 400),
    (CHUNKED + b"\r\n0x4\r\nbody\r\n0\r\n\r\n", 400),
    (CHUNKED + b"\r\n-4\r\nbody\r\n0\r\n\r\n", 400),
    (CHUNKED + b"\r\n4\nbody\r\n0\r\n\r\n", 400),
    (CHUNKED + b"\r\n3\r\nbody\r\n0\r\n\r\n", 400),
    (CHUNKED + b"\r\n4\r\nbody0\r\n\r\n", 400),
    (CHUNKED + b"\r\n4;" + b"x" * 300 + b"\r\nbody\r\n0\r\n\r\n", 400),
    (CHUNKED + b"\r\n0\r\nno trailer\r\n\r\n", 400),
    (CHUNKED + b"\r\n%x\r\n" % (LONGEST_BODY + 1), 413),
    (CHUNKED + b"\r\n" + b"200000\r\n" + b" " * 0x200000 + b"\r\n200001\r\n", 413),
    (POST + b"Content-Length: %d\r\n\r\n" % (LONGEST_BODY + 1), 413),
    (POST + b"Content-Length: " + b"9" * 19 + b"\r\n\r\n", 413),
    (POST + b"Content-Length: -1\r\n\r\n", 400),
    (POST + b"Content-Length: 0x4\r\n\r\n", 400),
    (POST + b"Content-Length: \r\n\r\n", 400),
    (POST + b"Content-Length: " + b"9" * 5000 + b"\r\n\r\n", 400),
    (POST + b"X: " + b"x" * 70_000, 431),
    (POST + b"X: " + b"x" * 70_000 + b"\r\n\r\n", 431),
    (POST + b"X: y\r\n" * 20_000, 431),
    (b"GET /" + b"x" * 70_000, 431),
]
# requests that are answered, and what the application says of them
ANSWERED_REQUESTS: list[tuple[bytes, bytes]] = [
    (POST + b"Content-Length: 4\r\n\r\nbody", b"POST /a body"),
    (POST + b"content-length:4 \t\r\nX:\r\n\r\nbody", b"POST /a body"),
    (POST + b"Content-Length: " + b"0" * 5000 + b"4\r\n\r\nbody", b"POST /a body"),
    (POST + b"\r\n", b"POST /a "),
    (CHUNKED + b"\r\n2\r\nbo\r\n02;x=y\r\ndy\r\n0\r\n\r\n", b"POST /a body"),
    (CHUNKED.replace(b"chunked", b"Chunked") + b"\r\nA\r\n0123456789\r\n000\r\nX: y\r\n\r\n", b"POST /a 0123456789"),
    (CHUNKED + b"\r\n" + b"1\r\nx\r\n" * 1000 + b"0\r\n\r\n", b"POST /a " + b"x" * 1000),
    (b"GET http://a:80/b?c HTTP/1.1\r\nHost: a\r\n\r\n", b"GET /b "),
]


class TestHttp(unittest.TestCase):
    """The server of the standard library, over a network."""

    def setUp(self) -> None:
        self.environs: list[Any] = []
        self.serve(Limits())

    def serve(self, limits: Limits) -> None:
        """Starts a server with these limits."""
        self.server = ThreadingServer(("127.0.0.1", 0), validator(self.echo), limits)
        Thread(target=self.server.serve_forever, args=[0.01], daemon=True).start()
        self.addCleanup(self.server.server_close)
        self.addCleanup(self.server.shutdown)
        self.connection = HTTPConnection("127.0.0.1", self.server.server_port, timeout=10)
        self.addCleanup(self.connection.close)

    def echo(self, environ: Any, start_response: Any) -> list[bytes]:
        """Says by which method it was asked, and for what."""
        self.environs.append(environ)
        text = f"{environ['REQUEST_METHOD']} {environ['PATH_INFO']} ".encode() + environ["wsgi.input"].read(int(environ["CONTENT_LENGTH"] or 0))
        start_response("200 OK", [("Content-Type", "text/plain"), ("Content-Length", str(len(text)))])
        return [] if environ["REQUEST_METHOD"] == "HEAD" else [text]

    def ask(self, method: str, path: str, body: Any = None, headers: dict[str, str] = {}) -> tuple[int, bytes]:
        self.connection.request(method, path, body, headers)
        response = self.connection.getresponse()
        return response.status, response.read()

    def connect(self) -> Any:
        return closing(create_connection(("127.0.0.1", self.server.server_port), timeout=10))

    def all_of(self, request: bytes) -> bytes:
        """What comes back until the connection ends."""
        with self.connect() as socket:
            socket.sendall(request)
            return bytes().join(iter(lambda: bytes(socket.recv(65_536)), b""))

    def test_a_connection_stays_open(self) -> None:
        self.assertEqual(self.ask("GET", "/a"), (200, b"GET /a "))
        socket = self.connection.sock
        self.assertEqual(self.ask("POST", "/b", b"body"), (200, b"POST /b body"))
        self.assertEqual(self.ask("HEAD", "/c"), (200, b""))
        self.assertEqual(self.ask("PUT", "/d", iter([b"mo", b"re"])), (200, b"PUT /d more"))
        self.assertIs(self.connection.sock, socket)

    def test_a_body_that_waits(self) -> None:
        with self.connect() as socket:
            socket.sendall(b"POST /a HTTP/1.1\r\nHost: a\r\nExpect: 100-continue\r\nContent-Length: 4\r\n\r\n")
            self.assertEqual(socket.recv(100), b"HTTP/1.1 100 Continue\r\n\r\n")
            socket.sendall(b"body")
            self.assertTrue(socket.recv(1_000).endswith(b"POST /a body"))

    def test_requests_that_follow_each_other(self) -> None:
        last = b"GET /last HTTP/1.1\r\nHost: a\r\nConnection: x, Close\r\n\r\n"
        for request, wanted in ANSWERED_REQUESTS:
            with self.subTest(request[:100]):
                found = self.all_of(request + GET + last + GET)
                bodies = [part.split(b"\r\n\r\n", 1)[1] for part in found.split(b"HTTP/1.1 200 OK")[1:]]
                self.assertEqual(bodies, [wanted, b"GET /next ", b"GET /last "])
        found = self.all_of(GET.replace(b"1.1", b"1.0") + GET)
        self.assertEqual(found.count(b"GET /next"), 1)

    def test_what_can_be_read_as_two_requests_is_refused(self) -> None:
        for request, status in REFUSED:
            with self.subTest(request[:100]):
                found = self.all_of(request + GET)
                self.assertTrue(found.startswith(b"HTTP/1.1 %d " % status), found[:100])
                self.assertEqual((found.count(b"HTTP/1.1 "), self.environs), (1, []))

    def test_headers_are_told(self) -> None:
        headers = b"Host: a\r\nX: 1\r\nX-Y: 2\r\nX_Y: 3\r\nx: \xe9\r\nCookie: a\r\nCookie: b\r\nConnection: close\r\n"
        self.all_of(b"GET /%C3%A9?a=%20b HTTP/1.1\r\n" + headers + b"\r\n")
        (environ,) = self.environs
        told = {name: environ[name] for name in ("PATH_INFO", "QUERY_STRING", "HTTP_HOST", "HTTP_X", "HTTP_X_Y", "HTTP_COOKIE")}
        wanted = {"PATH_INFO": "/Ã©", "QUERY_STRING": "a=%20b", "HTTP_HOST": "a", "HTTP_X": "1, é", "HTTP_X_Y": "2", "HTTP_COOKIE": "a; b"}
        self.assertEqual((told, environ["wsgi.multithread"]), (wanted, True))

    def test_connections_are_limited(self) -> None:
        self.serve(Limits(connections=2))
        with self.connect() as first, self.connect() as second:
            for socket in (first, second):
                socket.sendall(GET)
                self.assertTrue(socket.recv(1_000).startswith(b"HTTP/1.1 200"))
            with self.connect() as third:
                self.assertTrue(third.recv(1_000).startswith(b"HTTP/1.1 503"))
        for _ in range(100):
            if self.all_of(GET.replace(b"Host", b"Connection: close\r\nHost")).startswith(b"HTTP/1.1 200"):
                break
            sleep(0.05)
        else:
            self.fail("a connection isn't taken after two have ended")

    def test_slow_connections_end(self) -> None:
        """However often they send a byte."""
        self.serve(Limits(first=0.3, idle=0.3, head=0.3, body=0.3))
        slow = [
            (b"", b""),
            (GET, b""),
            (b"", b"G"),
            (b"GET /", b"x"),
            (POST, b"X"),
            (POST + b"Content-Length: 1000\r\n\r\n", b"x"),
            (CHUNKED + b"\r\n", b"0"),
        ]
        for start, byte in slow:
            with self.subTest(start=start, byte=byte), self.connect() as socket:
                socket.sendall(start)
                socket.settimeout(0.05)
                begun, found = monotonic(), b""
                while monotonic() - begun < 5:
                    try:
                        if byte:
                            socket.sendall(byte)
                        received = socket.recv(1_000)
                    except TimeoutError:
                        continue
                    except ConnectionError:
                        break
                    found += received
                    if not received:
                        break
                self.assertLess(monotonic() - begun, 4)
                self.assertEqual((b" 200 " in found, b" 408 " in found), (start == GET, byte != b""))

    def test_a_caller_that_does_not_read(self) -> None:
        self.serve(Limits(response=0.3))
        body = b"x" * LONGEST_BODY
        with self.connect() as socket:
            socket.setsockopt(SOL_SOCKET, SO_RCVBUF, 4096)
            request = POST + b"Content-Length: %d\r\n\r\n" % len(body) + body
            socket.settimeout(0.5)
            try:
                for _ in range(10):
                    socket.sendall(request)
                self.fail("the server takes requests of one who doesn't read")
            except OSError:
                pass


if __name__ == "__main__":
    unittest.main()
