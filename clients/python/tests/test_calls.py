"""The calls of servers and clients: options, what is known, what is refused, threads and tasks."""

import asyncio
import os
import random
import re
import shutil
import subprocess
import sys
import tempfile
import threading
import unittest
from concurrent.futures import ThreadPoolExecutor
from decimal import Decimal
from pathlib import Path
from typing import Any

import worlds
from rudzkvano import Client, Library, LoadFault, Progress, PublicError, Refused, SchemaFault, Server, WrongLibrary
from rudzkvano.library import HEADER_VERSION

ADA = {"data": {"user": {"name": "Ada"}}}
USER, BEST = "{user(id:1){name}}", "{users{best{name}} user(id:3){name}}"
MISSING_NAME = "query($i:ID!){user(id:$i){name}}"
# the escapes of schema_faults.txt
ESCAPES = {"n": "\n", "r": "\r", "t": "\t"}


def failed(message: str) -> dict[str, Any]:
    return {"errors": [{"message": message, "locations": [{"line": 1, "column": 2}], "path": ["user"]}], "data": {"user": None}}


class Calls(unittest.TestCase):
    def setUp(self) -> None:
        self.server = worlds.WORLDS["examples"].server()
        self.addCleanup(self.server.close)
        self.functions = worlds.functions(self.server)

    def refused(self, name: str, call: Any, *arguments: Any) -> None:
        with self.assertRaises(Refused) as raised:
            call(*arguments)
        self.assertEqual((raised.exception.name, raised.exception.code < 0), (name, True))
        self.assertTrue(raised.exception.text)


class Refusals(Calls):
    def test_a_refused_schema(self) -> None:
        world = worlds.WORLDS["examples"]
        faults = [
            ("type Query { a: Nope }", world.bindings, (3, 1, 17, False), 'S3 at schema:1:17: there is no type "Nope"'),
            ("type Query {\n  a: [[Int]]\n}", world.bindings, (7, 2, 7, False), "S7 at schema:2:7: a list of lists isn't served"),
            (world.schema, "bindings 1\nno", (8, 2, 0, True), 'S8 at bindings:2:0: a line begins with "loader" or "field", and not "no"'),
        ]
        for schema, bindings, wanted, text in faults:
            with self.subTest(text), self.assertRaises(SchemaFault) as raised:
                Server(schema, bindings)
            fault = raised.exception
            self.assertEqual((fault.number, fault.line, fault.column, fault.in_bindings), wanted)
            self.assertEqual((str(fault), fault.name), (text, "RZ_BAD_SCHEMA"))
            self.assertEqual(fault.reason, text.partition(": ")[2])

    def test_the_reason_of_a_refused_schema(self) -> None:
        lines = (Path(__file__).parents[2] / "schema_faults.txt").read_text("utf-8").splitlines()
        for line in lines:
            message, schema, bindings = (re.sub(r"\\(.)", lambda it: ESCAPES.get(it[1], it[1]), text) for text in line.split("\t"))
            with self.subTest(message):
                try:
                    Server(schema, bindings).close()
                    found = ""
                except SchemaFault as fault:
                    found = str(fault)
                    self.assertEqual(fault.reason, found.partition(": ")[2])
                self.assertEqual(found, message)

    def test_names_of_loaders(self) -> None:
        calls: list[Any] = [
            lambda: self.server.answer(USER, {"userByID": list}),
            lambda: self.server.client({"userByID": list}),
            lambda: self.server.answer(USER, {}, max_batch={"userByID": 1}),
            lambda: self.server.client({}).clear_all("userByID"),
        ]
        for call in calls:
            with self.assertRaisesRegex(ValueError, "^the bindings have no loader userByID$"):
                call()
        self.assertEqual(self.server.answer(USER, {}), failed("no function for loader userById"))

    def test_arguments(self) -> None:
        for limit in (0, -1, 65536):
            with self.assertRaises(ValueError):
                self.server.answer(USER, self.functions, max_batch=limit)
        no_limits: list[Any] = [0, -1, float("nan"), float("inf"), 1.5]
        with self.assertRaisesRegex(ValueError, "^max_rounds is 4294967296, and not 1 to 4,294,967,295$"):
            self.server.answer(USER, self.functions, max_rounds=2**32)
        for limit in no_limits:
            with self.assertRaisesRegex(ValueError, "^max_batch of loader [A-Za-z]* is .*, and not 1 to 65,535$"):
                self.server.answer(USER, self.functions, max_batch=limit)
            with self.assertRaisesRegex(ValueError, "^max_answer is .*, and not 1 to [0-9,]*$"):
                self.server.answer(USER, self.functions, max_answer=limit)
            with self.assertRaisesRegex(ValueError, "^max_work is .*, and not 1 to [0-9,]*$"):
                self.server.answer(USER, self.functions, max_work=limit)
            with self.assertRaisesRegex(ValueError, "^max_rounds is .*, and not 1 to [0-9,]*$"):
                self.server.answer(USER, self.functions, max_rounds=limit)
            with self.assertRaises(ValueError):
                self.server.client({}).limit_answers(limit)
        for key in (float("nan"), float("-inf"), Decimal("nan")):
            with self.assertRaisesRegex(ValueError, "has no text$"):
                self.server.client({}).clear("userById", key)
        with self.assertRaises(TypeError):
            self.server.answer(USER, self.functions, max_batches=1)  # type: ignore[call-arg]
        with self.assertRaises(TypeError):
            self.server.answer({"query": USER}, self.functions, {"i": 1})
        with self.assertRaises(ValueError):
            self.server.answer(USER, self.functions, {"i": float("nan")})

    def test_what_is_closed(self) -> None:
        with self.server.client(self.functions) as client:
            self.server.close()
            self.server.close()
            self.assertEqual(client.answer(USER), ADA)
            self.refused("RZ_BAD_HANDLE", self.server.answer, USER, self.functions)
        client.close()
        self.refused("RZ_BAD_HANDLE", client.answer, USER)

    def test_rounds_by_hand(self) -> None:
        with self.server.client({}) as client:
            self.refused("RZ_IDLE", client.next)
            client.begin_request(USER)
            self.refused("RZ_BUSY", client.answer, USER)
            self.assertEqual(client.next(), Progress.ROUND)
            (order,) = client.orders()
            self.assertEqual((order.loader.name, order.keys), ("userById", ["1"]))
            self.assertEqual(client.next(), Progress.WAITING)
            client.reply(order, [{"id": 1, "name": "Ada"}])
            self.refused("RZ_REPLIED", client.fail, order, "late")
            self.assertEqual(client.next(), Progress.DONE)
            self.assertEqual((client.text(), client.rounds()), ('{"data":{"user":{"name":"Ada"}}}', 1))
            self.refused("RZ_NO_ORDER", client.reply, order, [])

    def test_where_the_library_is(self) -> None:
        self.assertEqual(Library().version()[0], 2)
        program = "import rudzkvano; print(rudzkvano.Library().version()[0])"
        path = str(worlds.REPOSITORY / "clients/python")
        for variables in ({"RUDZKVANO_LIBRARY": "/nowhere/lib.so"}, {"RUDZKVANO_LIBRARY": str(Path(path) / "no.so")}):
            run = subprocess.run([sys.executable, "-c", program], env={**os.environ, **variables, "PYTHONPATH": path}, capture_output=True, text=True)
            self.assertIn(variables["RUDZKVANO_LIBRARY"], run.stderr)

    def test_the_version_is_that_of_the_header(self) -> None:
        header = worlds.read(worlds.REPOSITORY / "clients/c/rudzkvano.h")
        self.assertEqual(re.findall(r"define RZ_VERSION (\d+)u", header), [str(HEADER_VERSION)])
        self.assertGreaterEqual(Library().version(), (HEADER_VERSION >> 16, HEADER_VERSION >> 8 & 255, HEADER_VERSION & 255))

    @unittest.skipUnless(shutil.which("cc"), "there is no C compiler, so libraries of other versions aren't tried")
    def test_a_library_of_another_version(self) -> None:
        needs = "of the library, and this package needs 2.1.0 or a later 2.x"
        cases = [
            ("unsigned rz_version(void) { return 65536; }", f"is version 1.0.0 {needs}"),
            ("unsigned rz_version(void) { return 131071; }", f"is version 1.255.255 {needs}"),
            ("unsigned rz_version(void) { return 131072; }", f"is version 2.0.0 {needs}"),
            ("unsigned rz_version(void) { return 196608; }", f"is version 3.0.0 {needs}"),
            ("int other;", "is no library of Rudzkvano"),
        ]
        with tempfile.TemporaryDirectory() as folder:
            for number, (text, why) in enumerate(cases):
                path = f"{folder}/{number}.so"
                subprocess.run(["cc", "-shared", "-fPIC", "-x", "c", "-", "-o", path], input=text.encode(), check=True)
                with self.assertRaises(WrongLibrary) as raised:
                    Library(path)
                self.assertEqual(str(raised.exception), f"{path} {why}")

    def test_clients_of_all_limits(self) -> None:
        asked: list[Any] = []
        functions = {"userById": worlds.noted(asked, self.functions["userById"])}
        for limit in range(1, 100):
            self.assertEqual(self.server.answer(USER, functions, max_batch=limit), ADA)
        self.assertEqual(len(asked), 99)


class Faults(Calls):
    def test_a_batch_that_fails(self) -> None:
        def fails(keys: Any) -> Any:
            raise OSError("the database is gone")

        self.assertEqual(self.server.answer(USER, {"userById": fails}), failed("the database is gone"))
        found = self.server.answer("{user(id:1){name} users{id}}", {**self.functions, "userById": fails})
        self.assertEqual(found["data"], {"user": None, "users": [{"id": str(id)} for id in (1, 2, 3, 4)]})
        self.assertEqual([error["message"] for error in found["errors"]], ["the database is gone"])

        def says_nothing(keys: Any) -> Any:
            raise RuntimeError

        self.assertEqual(self.server.answer(USER, {"userById": says_nothing}), failed("RuntimeError"))

    def test_a_coroutine_that_nobody_awaits(self) -> None:
        async def ask(keys: Any) -> Any:
            return []

        with self.assertRaisesRegex(TypeError, "^the function of loader userById returned an awaitable, which only answer_async awaits$"):
            self.server.answer(USER, {"userById": ask})
        self.assertEqual(self.server.answer(USER, self.functions), ADA)

    def test_what_is_no_exception_ends_the_call(self) -> None:
        def interrupted(keys: Any) -> Any:
            raise KeyboardInterrupt

        def wrong(round: Any) -> None:
            raise ZeroDivisionError

        with self.server.client({"userById": interrupted}) as client:
            self.assertRaises(KeyboardInterrupt, client.answer, USER)
            self.assertRaises(KeyboardInterrupt, client.answer, USER)
        with self.assertRaises(ZeroDivisionError):
            self.server.answer(USER, self.functions, on_round=wrong)
        self.assertEqual(self.server.answer(USER, self.functions), ADA)

    def test_texts_that_are_not_unicode_are_answered(self) -> None:
        self.assertEqual(self.server.answer('{user(id:"\ud800"){name}}', {}), {"errors": [{"message": "not a request"}]})
        self.assertEqual(self.server.answer(USER, {}, None, "\ud800"), {"errors": [{"message": "not a request"}]})
        self.assertEqual(self.server.answer(USER, {}, None, ""), self.server.answer({"query": USER, "operationName": ""}, {}))


class Errors(Calls):
    """What is told of errors: to the hook `on_error`, and to callers."""

    def asks(self, error: Exception) -> Any:
        """A function that fails for the key 9, and has an error for 8."""

        def ask(keys: Any) -> Any:
            if "9" in keys:
                raise error
            return [error if key == "8" else {"id": key, "name": "Ada"} for key in keys]

        return {"userById": ask}

    def told(self, response: Any) -> list[Any]:
        return [(error["message"], error.get("extensions"), error["path"]) for error in response.get("errors", [])]

    def both(self, query: Any, functions: Any, **options: Any) -> Any:
        """The response, which is the same where it is awaited."""
        found = self.server.answer(query, functions, **options)
        self.assertEqual(asyncio.run(self.server.answer_async(query, functions, **options)), found)
        return found

    def test_without_a_hook_all_messages_are_told(self) -> None:
        query = "{a:user(id:9){name} b:user(id:8){name}}"
        for error, message, extensions in [
            (OSError("down"), "down", None),
            (PublicError("no", {"é": [1]}), "no", {"é": [1]}),
            (PublicError("no"), "no", None),
        ]:
            found = self.both(query, self.asks(error), max_batch=1)
            self.assertEqual(self.told(found), [(message, extensions, ["a"]), (message, extensions, ["b"])])

    def test_the_hook_gets_errors_and_says_what_is_told(self) -> None:
        down, public = OSError("down"), PublicError("gone", {"code": 1})
        answers: list[tuple[Exception, Any, tuple[str, Any]]] = [
            (down, None, ("internal error", None)),
            (down, "sorry", ("sorry", None)),
            (down, "", ("", None)),
            (down, public, ("gone", {"code": 1})),
            (down, "\ud800", ("?", None)),
            (public, None, ("gone", {"code": 1})),
            (public, "sorry", ("sorry", None)),
        ]
        for error, answer, (message, extensions) in answers:
            calls: list[Any] = []

            def hook(error: Exception, loader: str, keys: Any) -> Any:
                calls.append((error, loader, keys))
                return answer

            with self.subTest(error=error, answer=answer):
                found = self.both("{a:user(id:9){name} b:user(id:8){name}}", self.asks(error), max_batch=1, on_error=hook)
                self.assertEqual(self.told(found), [(message, extensions, ["a"]), (message, extensions, ["b"])])
                self.assertEqual(calls, [(error, "userById", ["9"]), (error, "userById", ["8"])] * 2)

    def test_the_hook_gets_what_this_package_refuses(self) -> None:
        calls: list[Any] = []
        functions: list[Any] = [{}, {"userById": lambda keys: 5}, {"userById": lambda keys: [{"id": 1, "name": [1]}]}]
        for each in functions:
            found = self.server.answer(USER, each, on_error=lambda *given: calls.append(given))
            self.assertEqual([message for message, _, _ in self.told(found)], ["internal error"])
        wanted = ["no function for loader userById", "loader userById: its function returned int, and no list"]
        wanted.append("loader userById, column name, row 1 of the key '1': a value of type list has no text")
        self.assertEqual([(str(error), loader, keys) for error, loader, keys in calls], [(it, "userById", ["1"]) for it in wanted])

    def test_extensions_stand_in_their_own_errors(self) -> None:
        def asks(keys: Any) -> Any:
            return [PublicError("no", {"key": key}) if key in "123" else {"id": key, "name": f'"no","key":{key}'} for key in keys]

        queries: list[Any] = [
            {"query": "{usersByIds(ids:[1,4,2]){name}}"},
            {"query": "{user(id:4){name}}"},
            {"query": "{user(id:3){name}}"},
            {"query": "{"},
        ]
        many, right, one, wrong = self.both(queries, {"userById": asks})
        self.assertEqual(self.told(many), [("no", {"key": "1"}, ["usersByIds", 0]), ("no", {"key": "2"}, ["usersByIds", 2])])
        self.assertEqual(many["data"], {"usersByIds": [None, {"name": '"no","key":4'}, None]})
        self.assertEqual((right, self.told(one)), ({"data": {"user": {"name": '"no","key":4'}}}, [("no", {"key": "3"}, ["user"])]))
        self.assertEqual(wrong["errors"][0]["message"], "unexpected end")

    def test_extensions_are_known_with_their_faults(self) -> None:
        with self.server.client(self.asks(PublicError("no", {"code": 1})), max_batch=1) as client:
            for _ in range(2):
                self.assertEqual(self.told(client.answer("{user(id:8){name}}")), [("no", {"code": 1}, ["user"])])
            faults = client.load_many("userById", [8, 9])
            wanted = [("no", "no", False, {"code": 1}), ("no", "no", True, {"code": 1})]
            self.assertEqual([(str(it), it.text, it.of_batch, it.extensions) for it in faults if isinstance(it, LoadFault)], wanted)
            self.assertTrue(client.prime("userById", 7, PublicError("seven", {"code": 7})))
            self.assertEqual(self.told(client.answer("{user(id:7){name}}")), [("seven", {"code": 7}, ["user"])])
            self.assertEqual(client.answer(USER), ADA)

    def test_an_error_of_the_hook_goes_on(self) -> None:
        def hook(error: Exception, loader: str, keys: Any) -> Any:
            raise ZeroDivisionError

        for query in ("{user(id:9){name}}", "{user(id:8){name}}"):
            with self.assertRaises(ZeroDivisionError):
                self.server.answer(query, self.asks(OSError("down")), on_error=hook)
        self.assertEqual(self.server.answer(USER, self.functions, on_error=hook), ADA)

    def test_rounds_tell_the_error_itself(self) -> None:
        rounds: list[Any] = []
        self.server.answer("{user(id:9){name}}", self.asks(PublicError("down", {"code": 1})), on_round=rounds.append, on_error=lambda *_: "sorry")
        self.assertEqual([ran.failed for ran in rounds[0].batches], ["down"])


class Options(Calls):
    def test_limits(self) -> None:
        asked: list[Any] = []
        functions = {**self.functions, "userById": worlds.noted(asked, self.functions["userById"])}
        query, wanted = "{usersByIds(ids:[1,2,3]){name}}", {"data": {"usersByIds": [{"name": "Ada"}, {"name": "Bob"}, {"name": "Cy"}]}}
        all_at_once, one_by_one = [["1", "2", "3"]], [["1"], ["2"], ["3"]]
        cases: list[tuple[Any, list[list[str]]]] = [(None, all_at_once), (2, [["1", "2"], ["3"]])]
        cases += [({"userById": 1}, one_by_one), ({"allUsers": 1}, all_at_once)]
        for limit, batches in cases:
            asked.clear()
            self.assertEqual(self.server.answer(query, functions, max_batch=limit), wanted)
            self.assertEqual(sorted(asked), batches)
        too_long = {"errors": [{"message": "answer too long"}]}
        self.assertEqual(self.server.answer(USER, self.functions, max_answer=32), ADA)
        self.assertEqual(self.server.answer(USER, self.functions, max_answer=31), too_long)
        self.assertEqual(self.server.answer(USER, self.functions), ADA)

    def test_work_is_limited(self) -> None:
        too_much = {"errors": [{"message": "too much work"}]}
        # the positions are the response, the user and the name, and at first the response and a user that waits
        cases: list[tuple[int | None, Any, int]] = [(3, ADA, 1), (2, too_much, 1), (1, too_much, 0), (None, ADA, 1)]
        for limit, wanted, count in cases:
            asked: list[Any] = []
            functions = {"userById": worlds.noted(asked, self.functions["userById"])}
            self.assertEqual(self.server.answer(USER, functions, max_work=limit), wanted)
            self.assertEqual(len(asked), count)
        requests: list[Any] = [{"query": USER}, {"query": "{nosuch}"}, {"query": USER}]
        wrong = {"errors": [{"message": "5.3.1 Field Selections: nosuch", "locations": [{"line": 1, "column": 2}]}]}
        self.assertEqual(self.server.answer(requests, self.functions, max_work=6), [ADA, wrong, ADA])
        self.assertEqual(self.server.answer(requests, self.functions, max_work=5), [too_much, wrong, too_much])

    def test_rounds_are_limited(self) -> None:
        query, bob, too_many = "{user(id:1){best{name}}}", {"data": {"user": {"best": {"name": "Bob"}}}}, {"errors": [{"message": "too many rounds"}]}
        cases: list[tuple[int | None, Any, int]] = [(2, bob, 2), (1, too_many, 1), (None, bob, 2)]
        for limit, wanted, count in cases:
            asked: list[Any] = []
            functions = {"userById": worlds.noted(asked, self.functions["userById"])}
            self.assertEqual(self.server.answer(query, functions, max_rounds=limit), wanted)
            self.assertEqual(asked, [["1"], ["2"]][:count])
        with self.server.client(self.functions, max_rounds=1) as client:
            self.assertEqual([client.answer(query), client.answer(query)], [too_many, bob], "what the first round brought stays known")
            client.restart()
            self.assertEqual(client.answer(query), too_many)
            client.limit_rounds(None)
            client.limit_work(1)
            self.assertEqual(client.answer(query), {"errors": [{"message": "too much work"}]})

    def test_a_short_query_with_a_long_answer(self) -> None:
        asked: list[Any] = []
        functions = {name: worlds.noted(asked, function) for name, function in worlds.FRIENDS.functions().items()}
        too_much = '{"errors":[{"message":"too much work"}]}'
        with worlds.FRIENDS.server() as server:
            # as many levels as a query may have: with `user` and `id` these are 128 fields on a path
            self.assertEqual(server.answer_text(worlds.FRIENDS.query(126), functions, max_work=1_000_000), too_much)
            self.assertEqual(asked, [["1"], ["1"], ["2"]], "nothing is asked once all friends are known")
            for levels in (0, 1, 5):
                query, work = worlds.FRIENDS.query(levels), 4 * 2**levels - 1
                self.assertEqual(server.answer_text(query, functions, max_work=work), worlds.FRIENDS.answer(levels))
                self.assertEqual(server.answer_text(query, functions, max_work=work - 1), too_much)

    def test_rounds_are_told(self) -> None:
        calls: list[Any] = [self.server.answer, lambda *given, **options: asyncio.run(self.server.answer_async(*given, **options))]
        for call in calls:
            rounds: list[Any] = []
            call(BEST, {"allUsers": self.functions["allUsers"]}, on_round=rounds.append)
            self.assertEqual([it.round for it in rounds], [1, 2])
            told = [[(ran.loader, ran.keys, ran.failed) for ran in it.batches] for it in rounds]
            none = "no function for loader userById"
            self.assertEqual(told, [[("userById", ["3"], none), ("allUsers", [], None)], [("userById", ["2", "1"], none)]])
            self.assertTrue(all(0 <= ran.milliseconds < 10_000 for it in rounds for ran in it.batches))


class Known(Calls):
    def test_a_client_remembers(self) -> None:
        with self.server.client(self.functions) as client:
            for _ in range(2):
                self.assertEqual(client.answer(USER), ADA)
            self.assertEqual([(it.round, it.stored, it.keys) for it in client.log("userById")], [(1, True, ["1"])])
            self.assertEqual((client.clear("userById", 1), client.clear("userById", "1")), (True, False))
            self.assertEqual(client.answer(USER), ADA)
            self.assertEqual([it.round for it in client.log("userById")], [1, 2])
            client.clear_all("userById")
            client.restart()
            self.assertEqual(client.log("userById"), [])

    def test_items_are_primed(self) -> None:
        row = {"id": 9, "name": "Eve"}
        eve = {"data": {"user": {"name": "Eve"}}}
        cases: list[tuple[Any, Any]] = [(row, eve), ([row], eve), ((row,), eve), (None, {"data": {"user": None}}), (OSError("gone"), failed("gone"))]
        for item, wanted in cases:
            with self.subTest(item), self.server.client({}) as client:
                self.assertEqual((client.prime("userById", 9, item), client.prime("userById", "9", row)), (True, False))
                self.assertEqual(client.answer("{user(id:9){name}}"), wanted)
        with self.server.client({}) as client:
            self.assertTrue(client.prime("allUsers", None, [row]))
            self.assertEqual(client.answer("{users{name}}"), {"data": {"users": [{"name": "Eve"}]}})
            self.assertTrue(client.clear("allUsers", None))
            with self.assertRaisesRegex(TypeError, "^loader userById, column name, row 1 of the key '1': a value of type bytes has no text$"):
                client.prime("userById", 1, {"name": b"x"})
            for key in (None, (), ("1", "2")):
                with self.assertRaisesRegex(ValueError, "^loader userById: a key of [02] values for 1 columns$"):
                    client.prime("userById", key, row)

    def test_keys_of_two_columns(self) -> None:
        with worlds.WORLDS["votes"].server() as server, server.client({}) as client:
            self.assertTrue(client.prime("voteByBoth", (2, 12), {"stars": 4}))
            self.assertEqual(client.answer("{vote(user:2,post:12){stars}}"), {"data": {"vote": {"stars": 4}}})
            client.answer("{vote(user:1,post:12){stars}}")
            self.assertEqual([it.keys for it in client.log("voteByBoth")], [[("1", "12")]])
            self.assertTrue(client.clear("voteByBoth", ["2", "12"]))

    def test_one_request_at_a_time(self) -> None:
        def asks_again(keys: Any) -> Any:
            for call in (lambda: client.answer(USER), lambda: client.clear_all("userById"), client.close, client.restart):
                self.refused("RZ_BUSY", call)
            return [{"id": 1, "name": "Ada"}]

        with self.server.client({"userById": asks_again}) as client:
            self.assertEqual(client.answer(USER), ADA)


class Loads(Calls):
    """Keys that are loaded, over what is known."""

    def asked(self, client: Client) -> list[tuple[int, Any]]:
        return [(it.round, it.keys) for it in client.log("userById")]

    def test_keys_are_loaded(self) -> None:
        rounds: list[Any] = []
        with self.server.client(self.functions, on_round=rounds.append) as client:
            client.prime("userById", 1, {"id": 1, "name": "Eve", "best": None})
            eve, bob, same = client.load_many("userById", ["1", 2, "2"])
            self.assertEqual(eve, [{"id": "1", "name": "Eve", "best": None}])
            self.assertEqual((bob, [row["name"] for row in same]), (same, ["Bob"]))
            self.assertEqual((self.asked(client), len(rounds), client.rounds()), ([(1, ["2"])], 1, 0))
            self.assertEqual(client.load_many("userById", [2]), [bob])
            self.assertEqual((client.load_many("userById", []), client.load_many("userById", [99])), ([], [[]]))
            self.assertEqual(self.asked(client), [(1, ["2"]), (2, ["99"])])
            self.assertEqual(client.answer("{user(id:2){name}}"), {"data": {"user": {"name": "Bob"}}})
            self.assertEqual([len(rows) for rows in client.load_many("allUsers", [None])], [len(client.answer("{users{id}}")["data"]["users"])])

    def test_keys_of_two_columns(self) -> None:
        with worlds.WORLDS["votes"].server() as server, server.client({}) as client:
            client.prime("voteByBoth", (2, 12), {"stars": 4})
            found, fault = client.load_many("voteByBoth", [(2, 12), (1, 12)])
            self.assertEqual((found, str(fault)), ([{"stars": "4"}], "no function for loader voteByBoth"))

    def test_faults(self) -> None:
        def asks(keys: Any) -> Any:
            if "4" in keys:
                raise OSError("down")
            return [ValueError("gone") if key == "3" else {"id": key} for key in keys]

        with self.server.client({"userById": asks}, max_batch=1) as client:
            rows, gone, down = client.load_many("userById", [1, 3, 4])
            self.assertEqual((rows, [type(gone), type(down)]), ([{"id": "1"}], [LoadFault] * 2))
            self.assertEqual([(it.text, it.of_batch) for it in (gone, down)], [("gone", False), ("down", True)])
            client.load_many("userById", [3, 4])
            self.assertEqual(self.asked(client), [(1, ["1"]), (1, ["3"]), (1, ["4"]), (2, ["4"])])

    def test_coroutines(self) -> None:
        async def asks(keys: Any) -> Any:
            await asyncio.sleep(0)
            return self.functions["userById"](keys)

        async def run() -> Any:
            with self.server.client({"userById": asks}) as client:
                return await client.load_many_async("userById", [2, 1])

        self.assertEqual([rows[0]["name"] for rows in asyncio.run(run())], ["Bob", "Ada"])

    def test_what_is_refused(self) -> None:
        def asks_again(keys: Any) -> Any:
            self.refused("RZ_BUSY", client.load_many, "userById", [1])
            return [{"id": key} for key in keys]

        with self.server.client({"userById": asks_again}) as client:
            self.refused("RZ_IDLE", client.outcomes)
            for key in (None, (), ("1", "2")):
                with self.assertRaisesRegex(ValueError, "^loader userById: a key of [02] values for 1 columns$"):
                    client.load_many("userById", [1, key])
            with self.assertRaisesRegex(ValueError, "^the bindings have no loader userByID$"):
                client.load_many("userByID", [1])
            self.assertEqual(client.load_many("userById", [1]), [[{"id": "1"}]])

    def test_a_load_by_hand(self) -> None:
        with self.server.client({}) as client:
            client.begin_load("userById", [7, 8])
            self.refused("RZ_BUSY", client.begin_load, "userById", [9])
            self.assertEqual(client.next(), Progress.ROUND)
            (order,) = client.orders()
            self.assertEqual(order.keys, ["7", "8"])
            self.refused("RZ_IDLE", client.outcomes)
            client.reply(order, [{"id": 7}, None])
            self.assertEqual(client.next(), Progress.DONE)
            self.assertEqual(client.outcomes(), [[{"id": "7"}], []])
            client.begin_load("userById", [9])
            client.next()
            client.cancel()
            self.refused("RZ_IDLE", client.outcomes)


class Threads(Calls):
    def test_threads_share_a_server(self) -> None:
        def answer(number: int) -> Any:
            return self.server.answer(MISSING_NAME, self.functions, {"i": number % 3 + 1})["data"]["user"]["name"]

        with ThreadPoolExecutor(16) as pool:
            found = list(pool.map(answer, range(2000)))
        self.assertEqual(found, [("Ada", "Bob", "Cy")[number % 3] for number in range(2000)])

    def test_a_client_in_another_thread(self) -> None:
        entered, leave = threading.Event(), threading.Event()

        def waits(keys: Any) -> Any:
            entered.set()
            leave.wait(10)
            return [{"id": 1, "name": "Ada"}]

        with self.server.client({"userById": waits}) as client, ThreadPoolExecutor(1) as pool:
            answer = pool.submit(client.answer, USER)
            entered.wait(10)
            self.refused("RZ_BUSY", client.answer, USER)
            leave.set()
            self.assertEqual(answer.result(10), ADA)


    def test_a_client_in_one_thread_after_another(self) -> None:
        with self.server.client(self.functions) as client:
            for number in range(20):
                with ThreadPoolExecutor(1) as pool:
                    found = pool.submit(client.answer, MISSING_NAME, {"i": number % 3 + 1}).result(10)
                self.assertEqual(found["data"]["user"]["name"], ("Ada", "Bob", "Cy")[number % 3])
            self.server.close()
            with ThreadPoolExecutor(1) as pool:
                self.assertEqual(pool.submit(client.answer, USER).result(10), ADA, "it goes on after its server, in a new thread")


class Tasks(Calls):
    def late(self, seconds: float = 0.02) -> dict[str, Any]:
        """The functions as coroutines that answer late, in any order."""
        chance = random.Random(2)

        def coroutine(function: Any) -> Any:
            async def ask(keys: Any) -> Any:
                await asyncio.sleep(chance.random() * seconds)
                return function(keys)

            return ask

        return {name: coroutine(function) for name, function in self.functions.items()}

    def test_200_requests_at_the_same_time(self) -> None:
        world = worlds.WORLDS["examples"]
        functions = self.late()

        async def answers() -> list[str]:
            return await asyncio.gather(*(self.server.answer_text_async(world.lines[at % 28].encode(), functions) for at in range(200)))

        self.assertEqual(asyncio.run(answers()), [world.answers[at % 28] for at in range(200)])

    def test_batches_of_a_round_run_at_the_same_time(self) -> None:
        both = threading.Barrier(2)

        async def meets(keys: Any) -> Any:
            await asyncio.to_thread(both.wait, 10)
            return [{"id": 1, "name": "Ada"}]

        found = asyncio.run(self.server.answer_async("{user(id:1){name} users{name}}", {"userById": meets, "allUsers": meets}))
        self.assertEqual(found, {"data": {"user": {"name": "Ada"}, "users": [{"name": "Ada"}]}})

    def test_a_task_that_is_cancelled(self) -> None:
        asked: list[Any] = []
        cancelled: list[Any] = []

        async def waits(keys: Any) -> Any:
            asked.append(keys)
            try:
                await asyncio.sleep(60)
            except asyncio.CancelledError:
                cancelled.append(keys)
                raise

        for query in (USER, "{user(id:1){best{name}} users{name}}"):

            async def run() -> None:
                client = self.server.client({"userById": waits, "allUsers": waits})
                task = asyncio.ensure_future(client.answer_async(query))
                await asyncio.sleep(0.01)
                task.cancel()
                with self.assertRaises(asyncio.CancelledError):
                    await task
                await asyncio.sleep(0.01)
                self.assertEqual(cancelled, asked)
                client.prime("userById", 1, {"name": "Ada"})
                self.assertEqual(await client.answer_async(USER), ADA)

            asyncio.run(run())

    def test_what_goes_on_after_it_was_cancelled(self) -> None:
        """A batch that answers though it was cancelled, and one whose own work was cancelled, leave the next requests as they are."""

        async def stays(keys: Any) -> Any:
            try:
                await asyncio.sleep(60)
            except asyncio.CancelledError:
                await asyncio.sleep(0.02)
            return [{"id": 1, "name": "Eve"}]

        async def is_cancelled(keys: Any) -> Any:
            raise asyncio.CancelledError

        async def run() -> None:
            with self.assertRaises(asyncio.CancelledError):
                await self.server.answer_async("{user(id:1){name} users{name}}", {"userById": stays, "allUsers": is_cancelled})
            functions = self.late(0.05)
            for _ in range(5):
                self.assertEqual(await self.server.answer_async(USER, functions), ADA)

        asyncio.run(run())

    def test_coroutines_fail_and_answer(self) -> None:
        async def fails(keys: Any) -> Any:
            raise OSError("the database is gone")

        found = asyncio.run(self.server.answer_async("{user(id:1){name} users{id}}", {**self.functions, "userById": fails}))
        self.assertEqual([error["message"] for error in found["errors"]], ["the database is gone"])
        self.assertEqual(asyncio.run(self.server.answer_async(USER, self.functions)), ADA)


if __name__ == "__main__":
    unittest.main()
