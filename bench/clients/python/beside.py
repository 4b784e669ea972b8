#!/usr/bin/env python3
"""Answers the same requests by this client and by graphql-core with an asyncio DataLoader: in one process, by the same batch functions over the
same tables. All answers have to be the same.

    beside.py [--scale S] [--repeats N] [NAME..]

Prints for each workload the milliseconds of processor time of the least of N runs, and how many times as long graphql-core took: as it is, and
with its documents parsed and found valid once. The answers of both are objects; `text` is this client with the texts of answers."""

import argparse
import asyncio
import gc
import sys
import time
from collections.abc import Awaitable, Callable
from pathlib import Path
from typing import Any

sys.path.insert(0, str(Path(__file__).resolve().parents[3] / "clients/python"))
from core import Core  # noqa: E402
from rudzkvano import Server  # noqa: E402
from workloads import BINDINGS, SCHEMA, Request, Tables, workloads  # noqa: E402

Answer = Callable[[str, Any], Awaitable[Any]]


def milliseconds(answers: list[Answer], requests: list[Request], repeats: int) -> list[float]:
    """The least processor time of each over `repeats` runs, which take turns. Nothing waits, so on an idle machine it is the time that passes."""

    async def run(answer: Answer) -> None:
        for query, variables in requests:
            await answer(query, variables)

    least = [float("inf")] * len(answers)
    for _ in range(repeats):
        for place, answer in enumerate(answers):
            gc.collect()
            start = time.process_time()
            asyncio.run(run(answer))
            least[place] = min(least[place], (time.process_time() - start) * 1000)
    return least


def compared(tables: Tables, one: Answer, other: Answer, requests: list[Request]) -> tuple[int, int]:
    """How many batches both asked for. Their answers have to be the same."""

    async def run() -> tuple[int, int]:
        counts = [0, 0]
        for query, variables in requests:
            answers = []
            for place, answer in enumerate((one, other)):
                tables.batches = 0
                answers.append(await answer(query, variables))
                counts[place] += tables.batches
            if answers[0] != answers[1]:
                sys.exit(f"the answers differ: {query[:200]}\n{str(answers[0])[:400]}\n{str(answers[1])[:400]}")
        return counts[0], counts[1]

    return asyncio.run(run())


def main() -> None:
    arguments = argparse.ArgumentParser()
    arguments.add_argument("--scale", type=float, default=1)
    arguments.add_argument("--repeats", type=int, default=3)
    arguments.add_argument("names", nargs="*")
    given = arguments.parse_args()
    server = Server(SCHEMA, BINDINGS)
    print("workload    ours ms  text ms   core ms  times  documents kept ms  times   batches: ours  core")
    for name, tables, requests in workloads(given.scale):
        if given.names and name not in given.names:
            continue
        functions = tables.functions()

        async def ours(query: str, variables: Any) -> Any:
            return await server.answer_async(query, functions, variables)

        async def text(query: str, variables: Any) -> Any:
            return await server.answer_text_async(query, functions, variables)

        core, kept = (Core(SCHEMA, functions, keeps).answer for keeps in (False, True))
        batches = compared(tables, ours, core, requests)
        took = milliseconds([ours, text, core, kept], requests, given.repeats)
        told = f"{name:10} {took[0]:8.1f} {took[1]:8.1f} {took[2]:9.1f} {took[2] / took[0]:6.1f} {took[3]:18.1f} {took[3] / took[0]:6.1f}"
        print(told, f"{batches[0]:15} {batches[1]:5}", flush=True)


main()
