"""Introspection by graphql-core, over the schemas that the library reads."""

import asyncio
import json
import unittest
from typing import Any

import worlds
from rudzkvano import Server, wsgi

try:
    import graphql
except ImportError:
    graphql = None  # type: ignore[assignment]

SCHEMA_QUERY = "{__schema{queryType{name}}}"
SCHEMA_ANSWER = {"data": {"__schema": {"queryType": {"name": "Query"}}}}
USER = "{user(id:1){name}}"
NAMED = "query A($name:String!){__type(name:$name){...F}} fragment F on __Type{name kind} query B{user(id:1){name}}"
# what asks for introspection alone, and the answer
ANSWERED: list[tuple[Any, Any]] = [
    (SCHEMA_QUERY, SCHEMA_ANSWER),
    ({"query": SCHEMA_QUERY, "operationName": None, "variables": None}, SCHEMA_ANSWER),
    (json.dumps({"query": SCHEMA_QUERY}).encode(), SCHEMA_ANSWER),
    (json.dumps({"query": SCHEMA_QUERY}).replace("_", "\\u005f").encode(), SCHEMA_ANSWER),
    ("{__typename __schema{queryType{name}}}", {"data": {"__typename": "Query", **SCHEMA_ANSWER["data"]}}),
    ("{...on Query{...F}} fragment F on Query{...F ...G} fragment G on Query{__schema{queryType{name}}}", None),
    ("{...on Query{...F}} fragment F on Query{__schema{queryType{name}}}", SCHEMA_ANSWER),
    ({"query": NAMED, "operationName": "A", "variables": {"name": "User"}}, {"data": {"__type": {"name": "User", "kind": "OBJECT"}}}),
    ('{__type(name:"Nope"){name}}', {"data": {"__type": None}}),
]
# what the library answers, with and without introspection
AS_BEFORE: list[Any] = [
    USER,
    "{__typename}",
    "{__schema{queryType{name}} user(id:1){name}}",
    "{__schema",
    "mutation{__schema{queryType{name}}}",
    '{user(id:"__schema"){name}}',
    {"query": NAMED, "operationName": "B"},
    {"query": NAMED},
    {"query": NAMED, "operationName": "C"},
    {"query": SCHEMA_QUERY, "variables": []},
    {"query": SCHEMA_QUERY, "operationName": 1},
    [{"query": SCHEMA_QUERY}],
    b'{"query":"{__schema',
    "{__schema" + "{a" * 20_000 + "}" * 20_001,
]


@unittest.skipUnless(graphql, "graphql-core isn't there, so introspection isn't tested")
class Introspection(unittest.TestCase):
    def setUp(self) -> None:
        self.world = worlds.WORLDS["examples"]
        self.server = self.world.server()
        self.addCleanup(self.server.close)
        self.functions = worlds.functions(self.server)

    def test_the_schema_of_clients(self) -> None:
        for world in worlds.WORLDS.values():
            with world.server() as server:
                response = server.answer(graphql.get_introspection_query(), {}, introspection=graphql)
                self.assertEqual(list(response), ["data"])
                built = graphql.build_client_schema(response["data"])
                self.assertEqual(graphql.print_schema(built), graphql.print_schema(graphql.build_schema(world.schema)))

    def test_answers(self) -> None:
        for query, wanted in ANSWERED:
            with self.subTest(query=query):
                found = self.server.answer(query, self.functions, introspection=graphql)
                self.assertEqual(found, asyncio.run(self.server.answer_async(query, self.functions, introspection=graphql)))
                if wanted is None:
                    self.assertEqual(list(found), ["errors"])
                else:
                    self.assertEqual(found, wanted)
                with self.server.client({}, introspection=graphql) as client:
                    self.assertEqual(client.answer(query), found)
                self.assertNotEqual(self.server.answer(query, self.functions), found)

    def test_other_requests_are_answered_as_before(self) -> None:
        for query in AS_BEFORE:
            with self.subTest(query=str(query)[:100]):
                found = self.server.answer_text(query, self.functions, introspection=graphql)
                self.assertEqual(found, self.server.answer_text(query, self.functions))

    def test_faults_and_limits(self) -> None:
        for query in ("{__schema{nothing}}", "query($a:Int!){__schema{queryType{name}}}", "{__type{name}}"):
            self.assertEqual(list(self.server.answer(query, {}, introspection=graphql)), ["errors"])
        too_long = {"errors": [{"message": "answer too long"}]}
        size = len(self.server.answer_text(SCHEMA_QUERY, {}, introspection=graphql))
        self.assertEqual(self.server.answer(SCHEMA_QUERY, {}, introspection=graphql, max_answer=size), SCHEMA_ANSWER)
        self.assertEqual(self.server.answer(SCHEMA_QUERY, {}, introspection=graphql, max_answer=size - 1), too_long)

    def test_over_http(self) -> None:
        application = wsgi.application(self.server, self.functions, introspection=graphql)
        for query, status in ((SCHEMA_QUERY, 200), ("{__schema{nothing}}", 400), (USER, 200)):
            started: list[Any] = []
            environ: Any = {"REQUEST_METHOD": "GET", "QUERY_STRING": f"query={query}"}
            application(environ, lambda *start: started.append(start))  # type: ignore[arg-type]
            self.assertEqual(int(started[0][0][:3]), status)

    def test_one_schema_for_all_requests(self) -> None:
        built = []

        class Module:
            GraphQLError = graphql.GraphQLError
            parse, validate, execute_sync = map(staticmethod, (graphql.parse, graphql.validate, graphql.execute_sync))

            @staticmethod
            def build_schema(source: str) -> Any:
                built.append(source)
                return graphql.build_schema(source)

        with Server(self.world.schema, self.world.bindings) as server:
            for _ in range(3):
                self.assertEqual(server.answer(SCHEMA_QUERY, {}, introspection=Module), SCHEMA_ANSWER)
        self.assertEqual(built, [self.world.schema])


if __name__ == "__main__":
    unittest.main()
