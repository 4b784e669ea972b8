"""Random request lines, answered to the byte as query_cli answers them; or as the C host over tables in memory does, where query_cli isn't
built. `RUDZKVANO_QUERY_CLI` may say where that is, and `RUDZKVANO_LINES` how many lines there are."""

import asyncio
import os
import random
import subprocess
import sys
import tempfile
import unittest
from pathlib import Path
from typing import Any

import worlds
from rudzkvano import BatchFunction, Loader

LINES, SEED = os.environ.get("RUDZKVANO_LINES", "2000"), "17"
QUERY_CLI = Path(os.environ.get("RUDZKVANO_QUERY_CLI") or worlds.REPOSITORY / "crates/query_cli/out/query_cli")
TABLES_HOST = worlds.REPOSITORY / "crates/rudzkvano_c/out/hosts/tables_host"


def answers_of_another(lines: bytes) -> list[str]:
    with tempfile.TemporaryDirectory() as folder:
        path = Path(folder) / "lines.jsonl"
        path.write_bytes(lines)
        schema, bindings = (str(worlds.EXAMPLES / name) for name in ("schema.graphql", "bindings.txt"))
        head: list[Any] = [QUERY_CLI, "--schema", schema, "--bindings", bindings] if QUERY_CLI.is_file() else [TABLES_HOST, schema, bindings]
        tables = [f"{name}={worlds.EXAMPLES / name}.csv" for name in ("users", "posts", "named", "likes")]
        found = subprocess.run([*head, path, *tables], stdout=subprocess.PIPE, check=True)
    return found.stdout.decode().removesuffix("\n").split("\n")


class RandomLines(unittest.TestCase):
    def setUp(self) -> None:
        if not QUERY_CLI.is_file() and not TABLES_HOST.is_file():
            self.skipTest("neither query_cli nor tables_host is built, so random lines aren't compared")
        script = worlds.REPOSITORY / "clients/python/random_lines.py"
        lines = subprocess.run([sys.executable, "-B", script, LINES, SEED], stdout=subprocess.PIPE, check=True).stdout
        self.lines, self.wanted = lines.removesuffix(b"\n").split(b"\n"), answers_of_another(lines)
        database = worlds.Database()
        self.addCleanup(database.close)
        chance = random.Random(SEED)
        forms = [worlds.aligned, worlds.aligned_one_by_one, worlds.in_any_order, worlds.as_table, database.cursors, database.fetched]

        def form(loader: Loader) -> BatchFunction:
            """Any form, batch by batch."""
            functions = [form(loader) for form in forms]
            return lambda keys: chance.choice(functions)(keys)

        self.server = worlds.WORLDS["examples"].server()
        self.addCleanup(self.server.close)
        self.functions = worlds.functions(self.server, form)

    def test_lines(self) -> None:
        found = [self.server.answer_text(line, self.functions) for line in self.lines]
        self.assertEqual(found, self.wanted)

    def test_lines_by_coroutines(self) -> None:
        def coroutine(function: Any) -> Any:
            async def ask(keys: Any) -> Any:
                await asyncio.sleep(0)
                return function(keys)

            return ask

        functions = {name: coroutine(function) for name, function in self.functions.items()}

        async def answers() -> list[str]:
            return [await self.server.answer_text_async(line, functions, max_batch=2) for line in self.lines]

        self.assertEqual(asyncio.run(answers()), self.wanted)


if __name__ == "__main__":
    unittest.main()
