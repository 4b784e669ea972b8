"""The rounds of a client over the C library: their batches, as they are told, and what its logs and its sources have of them."""

from collections import Counter
from collections.abc import Iterable, Sequence
from typing import Any, NamedTuple

from .cases import CaseError
from .sources import Client, Loader, Progress, Round, Sources, World


class Asked(NamedTuple):
    """A batch: its round, its loader, and its keys as they are told."""

    round: int
    loader: str
    keys: str

    def text(self) -> str:
        return f"{self.round} {self.loader} [{self.keys}]"


def batches_text(asked: Iterable[Asked]) -> str:
    return "; ".join(map(Asked.text, asked)) or "nothing"


def counts_text(counts: Counter[str], loaders: Iterable[str]) -> str:
    """How often each of these loaders was asked, if it was."""
    return ", ".join(f"{name} {counts[name]}" for name in loaders if counts[name])


def key_text(key: Any) -> str:
    return "all" if key is None else key if isinstance(key, str) else f"({key[0]},{key[1]})"


def keys_text(loader: Loader, keys: Sequence[Any]) -> str:
    return " ".join(map(key_text, keys if loader.columns else [None]))


def log_of(world: World, client: Client) -> list[tuple[Asked, bool]]:
    """The batches of a client's logs, round by round, and in a round in order of the loaders; and whether their replies were stored."""
    found = [
        (Asked(batch.round, loader.name, keys_text(loader, batch.keys)), batch.stored)
        for loader in world.server.loaders
        for batch in client.log(loader.name)
    ]
    return sorted(found, key=lambda it: it[0].round)


def checked(asked: Sequence[Asked], world: World, client: Client, sources: Sources) -> None:
    """Looks for these batches, and no others, in the logs of a client; and whether each source was asked once for each."""
    logged = log_of(world, client)
    if logged != [(batch, True) for batch in asked]:
        raise CaseError(f"logged {logged}, told {asked}")
    for loader in world.server.loaders:
        batches = sum(it.loader == loader.name for it in asked)
        if sources.calls[loader.name] != batches:
            raise CaseError(f"{loader.name} was asked {sources.calls[loader.name]} times for {batches} batches")


def run_rounds(client: Client, sources: Sources) -> list[Asked]:
    """Runs the rounds of what was begun, the last order of each first, and returns their batches."""
    asked: list[Asked] = []
    number = 0
    while client.next() == Progress.ROUND:
        number += 1
        orders = client.orders()
        asked += [Asked(number, order.loader.name, keys_text(order.loader, order.keys)) for order in orders]
        for order in reversed(orders):
            sources.reply(client, order)
    return asked


class Rounds:
    """The batches that `on_round` is told of, and whether one failed."""

    def __init__(self, world: World) -> None:
        self._loaders = {loader.name: loader for loader in world.server.loaders}
        self.asked: list[Asked] = []
        self.failed = False

    def add(self, told: Round) -> None:
        self.asked += [Asked(told.round, it.loader, keys_text(self._loaders[it.loader], it.keys)) for it in told.batches]
        self.failed = self.failed or any(it.failed is not None for it in told.batches)
