"""The lines of examples/ and examples/votes/, answered to the byte as stored, whichever way batch functions return rows."""

import asyncio
import json
import random
import unittest
from collections.abc import Callable
from typing import Any

import worlds
from rudzkvano import BatchFunction, Loader

Form = Callable[[Loader], BatchFunction]


def late(form: Form) -> Form:
    """The same as coroutines that answer late, in any order."""
    chance = random.Random(1)

    def coroutine(loader: Loader) -> BatchFunction:
        function = form(loader)

        async def ask(keys: Any) -> Any:
            await asyncio.sleep(chance.random() / 500)
            return function(keys)

        return ask

    return coroutine


class Examples(unittest.TestCase):
    def setUp(self) -> None:
        self.database = worlds.Database()
        self.addCleanup(self.database.close)
        self.forms: list[Form] = [worlds.aligned, worlds.aligned_one_by_one, worlds.in_any_order, worlds.as_table]
        self.forms += [self.database.cursors, self.database.fetched]

    def test_lines_are_answered_as_stored(self) -> None:
        for name, world in worlds.WORLDS.items():
            for form in self.forms:
                with self.subTest(world=name, form=form.__name__), world.server() as server:
                    functions = worlds.functions(server, form)
                    self.assertEqual([server.answer_text(line.encode(), functions) for line in world.lines], world.answers)

    def test_lines_are_answered_by_coroutines_as_stored(self) -> None:
        for name, world in worlds.WORLDS.items():
            with self.subTest(world=name), world.server() as server:
                functions = worlds.functions(server, late(worlds.in_any_order))

                async def answers() -> list[str]:
                    return await asyncio.gather(*(server.answer_text_async(line.encode(), functions) for line in world.lines))

                self.assertEqual(asyncio.run(answers()), world.answers)

    def test_requests_are_answered_by_their_parts(self) -> None:
        for name, world in worlds.WORLDS.items():
            with self.subTest(world=name), world.server() as server:
                functions = worlds.functions(server)
                for line, answer in zip(world.lines, world.answers):
                    request = json.loads(line or "0")
                    if not isinstance(request, dict):
                        continue
                    parts: Any = request["query"], functions, request.get("variables"), request.get("operationName")
                    self.assertEqual(server.answer_text(*parts), answer)
                    self.assertEqual(server.answer(*parts), json.loads(answer))
                    self.assertEqual(asyncio.run(server.answer_async(request, functions)), json.loads(answer))

    def test_a_list_of_requests_shares_its_rounds(self) -> None:
        rounds: list[Any] = []
        with worlds.WORLDS["examples"].server() as server:
            requests: list[dict[str, Any]] = [{"query": "{user(id:1){name}}"}, {"query": "query($i:ID!){user(id:$i){name}}", "variables": {"i": 2}}]
            answers = server.answer(requests, worlds.functions(server), on_round=rounds.append)
        self.assertEqual(answers, [{"data": {"user": {"name": "Ada"}}}, {"data": {"user": {"name": "Bob"}}}])
        self.assertEqual([[(ran.loader, ran.keys) for ran in it.batches] for it in rounds], [[("userById", ["1", "2"])]])

    def test_the_example_of_the_package(self) -> None:
        users = {"1": {"id": 1, "name": "Ada"}}
        with worlds.WORLDS["examples"].server() as server:
            response = server.answer("{user(id:1){name}}", {"userById": lambda ids: [users.get(id) for id in ids]})
        self.assertEqual(response, {"data": {"user": {"name": "Ada"}}})


if __name__ == "__main__":
    unittest.main()
