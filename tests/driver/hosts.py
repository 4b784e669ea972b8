"""Requests over worlds of files, answered by what ships: by `query_cli`, in turn and with workers, and over the C library by the package
for Python, in rounds by hand, by batch functions and by coroutines. The ways have to tell the same, and each source has to be asked once
for each batch. docs/TESTING.md, "Requests and sessions", says what can be asked."""

import asyncio
import json
import os
import re
import subprocess
from collections import Counter
from collections.abc import Callable, Sequence
from dataclasses import dataclass
from itertools import chain
from pathlib import Path
from tempfile import TemporaryDirectory
from typing import Any

from . import sessions
from .cases import TOP, Case, CaseError, asks
from .rounds import Asked, Rounds, batches_text, checked, counts_text, key_text, run_rounds
from .sources import Manner, Sources, World, in_one_voice, manner_of, world_of

PROGRAM = Path(os.environ.get("RUDZKVANO_PROGRAM", TOP / "crates/query_cli/out/query_cli")).resolve()
WORKERS = "3"
MOST_SECONDS = 60


@dataclass(frozen=True)
class Told:
    """What a way tells of a request line: its answer, the number of its rounds, and their batches."""

    text: str
    rounds: int
    asked: tuple[Asked, ...]

    def all_rounds(self) -> str:
        return f"{self.rounds} {'round' if self.rounds == 1 else 'rounds'}: {batches_text(self.asked)}"

    def counts(self, world: World) -> str:
        return counts_text(Counter(it.loader for it in self.asked), (loader.name for loader in world.server.loaders))

    def missing(self) -> str:
        """What was asked in the first round, or the answer where nothing was."""
        first = [f"{it.loader} [{it.keys}]" for it in self.asked if it.round == 1]
        return f"waits for {' '.join(first)}" if first else self.text


# ---- request lines


@dataclass(frozen=True)
class Request:
    """A query, and the JSON text of its variables, if it has any."""

    query: str
    variables: str | None

    def line(self) -> str:
        given = "" if self.variables is None else f',"variables":{self.variables}'
        return f'{{"query":{json.dumps(self.query)}{given}}}'

    def parts(self) -> tuple[str, Any]:
        return self.query, None if self.variables is None else json.loads(self.variables)


def request_of(text: str) -> Request:
    """A request, behind which the values of its variables may stand, as `with {"i":1}`."""
    query, given, variables = text.partition(" with ")
    return Request(query, variables if given else None)


def array_line(requests: Sequence[Request]) -> str:
    return f"[{','.join(request.line() for request in requests)}]"


# ---- by the program


def _trace_rounds(line: str) -> list[tuple[Asked, ...]]:
    rounds = enumerate(json.loads(line)["rounds"], 1)
    return [tuple(Asked(number, it["loader"], " ".join(map(key_text, it["keys"]))) for it in batches) for number, batches in rounds]


def by_program(world: World, limit: int | None, lines: Sequence[str], *options: str) -> list[Told]:
    """What a run of the program writes for request lines, and traces of them."""
    with TemporaryDirectory() as place:
        folder = Path(place)
        texts = {"schema": world.schema, "bindings": world.bindings, "lines": "\n".join(lines) + "\n"}
        for file, text in {**texts, **{f"{name}.csv": text for name, text in world.tables.items()}}.items():
            (folder / file).write_bytes(text.encode())
        words: list[str | Path] = [PROGRAM, "--explain", "--schema", "schema", "--bindings", "bindings", "--trace", "trace", *options]
        words += [] if limit is None else ["--max-batch", str(limit)]
        words += ["lines", *(f"{name}={name}.csv" for name in world.tables)]
        run = subprocess.run(words, cwd=folder, capture_output=True, timeout=MOST_SECONDS, check=False)
        if run.returncode or run.stderr:
            raise CaseError(f"status {run.returncode}: {run.stderr.decode()}")
        traced = (folder / "trace").read_text(encoding="utf-8").splitlines()
        rounds = [_trace_rounds(line) for line in traced]
    answers = run.stdout.decode().removesuffix("\n").split("\n")
    return [Told(text, len(its), tuple(chain.from_iterable(its))) for text, its in zip(answers, rounds, strict=True)]


# ---- over the C library


def by_hand(world: World, manner: Manner, sources: Sources, line: str) -> Told:
    """The answer to a request line, in rounds by hand."""
    with world.server.client({}, max_batch=manner.limit) as client:
        client.begin(line)
        asked = run_rounds(client, sources)
        told = Told(client.text(), client.rounds(), tuple(asked))
        checked(told.asked, world, client, sources)
        return told


def by_functions(world: World, manner: Manner, sources: Sources, *parts: Any) -> Told:
    """The answer by batch functions. Where no batch fails, all is known then: it is given again, and nothing is asked."""
    rounds = Rounds(world)
    with world.server.client(sources.functions(), max_batch=manner.limit, on_round=rounds.add) as client:
        text = client.answer_text(*parts)
        told = Told(in_one_voice(text), client.rounds(), tuple(rounds.asked))
        checked(told.asked, world, client, sources)
        if not rounds.failed:
            again = client.answer_text(*parts)
            if again != text or client.rounds():
                raise CaseError(f"over what is known, in {client.rounds()} rounds: {again}")
        return told


def by_coroutines(world: World, manner: Manner, sources: Sources, *parts: Any) -> Told:
    """The answer by batch functions that are awaited."""
    rounds = Rounds(world)

    async def answered() -> Told:
        with world.server.client(sources.coroutines(), max_batch=manner.limit, on_round=rounds.add) as client:
            text = await client.answer_text_async(*parts)
            told = Told(in_one_voice(text), client.rounds(), tuple(rounds.asked))
            checked(told.asked, world, client, sources)
            return told

    return asyncio.run(answered())


def answer_told(world: World, manner: Manner, line: str, *parts: Any) -> Told:
    """What is told of a request line, which is also given in the parts that the package takes: the same in each way. The program has no
    source that goes wrong."""
    sources = Sources(world, manner)
    told = by_hand(world, manner, sources, line)
    others = {
        "by functions": by_functions(world, manner, Sources(world, manner), *parts),
        "by coroutines": by_coroutines(world, manner, Sources(world, manner), *parts),
    }
    if not sources.spoiled:
        others["by the program"] = by_program(world, manner.limit, [line])[0]
        others["by the program with workers"] = by_program(world, manner.limit, [line], "--workers", WORKERS)[0]
    for way, other in others.items():
        if other != told:
            raise CaseError(f"by hand {told}, {way} {other}")
    return told


# ---- what is told of a text


def told_of_request(world: World, manner: Manner, question: str, text: str) -> str:
    """What is told of a request over a world, or why it is refused."""
    request = request_of(text)
    told = answer_told(world, manner, request.line(), *request.parts())
    if "data" not in json.loads(told.text):
        return told.text
    if question == "what is missing":
        return told.missing()
    rounds = told.all_rounds()
    parts = {"answer": [told.text], "answer and rounds": [told.text, rounds], "rounds and calls": [rounds, told.counts(world)]}
    return "\n".join(parts.get(question, [told.text, rounds, told.counts(world)]))


def values_of(array: str) -> list[str]:
    """The texts of the values of a JSON array, as they stand."""
    found: list[str] = []
    start = 1
    while start < len(array):
        _, end = json.JSONDecoder().raw_decode(array, start)
        found.append(array[start:end])
        start = end + 1
    return found


def told_together(world: World, manner: Manner, _: str, text: str) -> str:
    """The answers to queries, each on a line, in rounds that they share; how many rounds there were, and their batches."""
    requests = [request_of(line) for line in text.split("\n")]
    told = answer_told(world, manner, array_line(requests), [json.loads(request.line()) for request in requests])
    return "\n".join([*values_of(told.text), told.all_rounds()])


def told_of_lines(world: World, manner: Manner, _: str, text: str) -> str:
    """The answers to queries, each on a line, in one run of the program, each with how often each source was asked; and how many there
    were. By itself each is answered the same."""
    requests = [request_of(line) for line in text.split("\n")]
    told = by_program(world, manner.limit, [request.line() for request in requests])
    for request, one in zip(requests, told, strict=True):
        other = answer_told(world, manner, request.line(), *request.parts())
        if other != one:
            raise CaseError(f"in a run of its own {other}, among others {one}")
    return "\n".join([*(f"{it.text} {it.counts(world)}".rstrip() for it in told), f"{len(requests)} lines, {len(told)} answers"])


def numbered(text: str, count: int) -> str:
    """The text in which each piece between `«` and `»` stands `count` times, with its number from 0 in place of `#`."""
    return re.sub("«([^»]*)»", lambda found: "".join(found[1].replace("#", str(number)) for number in range(count)), text)


Teller = Callable[[World, Manner, str, str], str]
TELLERS: dict[str, Teller] = {"together": told_together, "lines": told_of_lines, "session": sessions.told_of_calls}


@asks(r"(\d+ numbered )?(answer|answer and rounds|rounds and calls|everything|what is missing|together|lines|session)(, .+)?")
def told_of(case: Case) -> str:
    """What is told of a text over a world; of a text with numbered pieces, whether it is what the text behind `gives` says."""
    question, _, words = case.asked.partition(", ")
    count, is_numbered, question = question.rpartition(" numbered ")
    tell = TELLERS.get(question, told_of_request)
    world, manner = world_of(case), manner_of(words)
    if not is_numbered:
        return tell(world, manner, question, case.text)
    asked, _, wanted = (numbered(text, int(count)) for text in case.text.partition(" gives "))
    told = tell(world, manner, question, asked)
    return "yes" if told == wanted else told
