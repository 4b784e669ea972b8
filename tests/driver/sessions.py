"""The calls of a session, each on a line, as the package for Python and the C library below it have them."""

from array import array
from collections import Counter
from collections.abc import Callable, Sequence
from typing import Any

from .cases import CaseError
from .rounds import Asked, counts_text, log_of, run_rounds
from .sources import COUNTS, SIZES, Client, Loader, LoadFault, Manner, Progress, Refused, Sources, World, flat, in_one_voice
from .sources import pointer_to, texts_of, words_of

# calls that tell of a session, and leave it as it is
TELLING = ("asked", "calls", "known", "batches")


def outcome_text(loaded: Any) -> str:
    """The name of a key's first row, or its fault; `-` where there is none."""
    if isinstance(loaded, LoadFault):
        return loaded.text
    return (loaded[0].get("name") if loaded else None) or "-"


def came_text(came: bool) -> str:
    return "yes" if came else "no"


def keys_in(words: str) -> list[str]:
    """The keys that spaces part; an empty text has none."""
    return words.split(" ") if words else []


class Calls:
    """The calls of one session. Its batches are run by hand, or else by the package's client."""

    def __init__(self, world: World, manner: Manner, by_hand: bool) -> None:
        self._world, self._manner, self._by_hand = world, manner, by_hand
        self._sources = Sources(world, manner)
        self._client = world.server.client({} if by_hand else self._sources.functions(), max_batch=manner.limit)
        self._by_name = {loader.name: loader for loader in world.server.loaders}
        self._made: list[str] = []
        self._primed: list[tuple[Loader, str]] = []
        self._before_restart: Counter[str] = Counter()

    def tell(self, line: str) -> str:
        """Makes a call, and gives what it tells."""
        call, _, rest = line.partition(" ")
        with_session = {
            "answer": lambda: self._answer(rest),
            "abandon": lambda: self._abandon(rest),
            "restart": self._restart,
            "known": self._known,
            "asked": self._asked,
            "calls": self._counts,
        }
        told = with_session[call]() if call in with_session else self._tell_of_loader(call, rest)
        if call not in TELLING:
            self._made.append(line)
        return told

    def _tell_of_loader(self, call: str, rest: str) -> str:
        """Makes a call on a loader, which is named or has a number."""
        name, _, rest = rest.partition(" ")
        if name in self._by_name or int(name) < len(self._by_name):
            loader = self._by_name.get(name) or self._world.server.loaders[int(name)]
            return self._call_loader(call, loader, rest)
        try:
            call_number(self._client, call, int(name), rest)
        except Refused as refused:
            return refused.name
        raise CaseError(f"{call} of loader {name} was not refused")

    def _call_loader(self, call: str, loader: Loader, rest: str) -> str:
        if call == "load":
            return outcome_text(self._load(loader, [rest])[0])
        if call == "load_many":
            return ", ".join(map(outcome_text, self._load(loader, keys_in(rest)))) or "nothing"
        if call == "prime":
            return self._prime(loader, *rest.split(" "))
        if call == "clear":
            return self._clear(loader, rest)
        if call == "batches":
            return str(len(self._client.log(loader.name)))
        raise CaseError(f"no such call: {call}")

    # ---- loads and answers

    def _load(self, loader: Loader, keys: Sequence[str]) -> list[Any]:
        if not self._by_hand:
            return self._client.load_many(loader.name, keys)
        self._client.begin_load(loader.name, keys)
        run_rounds(self._client, self._sources)
        return self._client.outcomes()

    def _answer(self, query: str) -> str:
        if self._by_hand:
            self._client.begin_request(query)
            run_rounds(self._client, self._sources)
            text = self._client.text()
        else:
            text = self._client.answer_text(query)
        return f"{self._client.rounds()} {text}"

    def _abandon(self, query: str) -> str:
        """Begins an answer, and gives it up while its first round is out: its state before that round, and behind it."""
        self._client.begin_request(query)
        try:
            raise CaseError(f"answered before the first round: {self._client.text()}")
        except Refused as refused:
            if refused.name != "RZ_IDLE":
                raise
        if self._client.next() == Progress.DONE:
            return "ready, finished"
        self._client.cancel()
        return "ready, out"

    # ---- what is known

    def _prime(self, loader: Loader, key: str, name: str) -> str:
        self._primed.append((loader, key))
        return came_text(self._client.prime(loader.name, key, {"id": key, "name": name}))

    def _clear(self, loader: Loader, key: str) -> str:
        if key != "all":
            return came_text(self._client.clear(loader.name, key))
        self._client.clear_all(loader.name)
        return "yes"

    def _restart(self) -> str:
        self._counts()
        self._before_restart = Counter(self._sources.calls)
        self._client.restart()
        return "yes"

    def _known(self) -> str:
        """Of how many keys something is known: of those that tell it when they are cleared, in another session after the same calls."""
        other = Calls(self._world, self._manner, self._by_hand)
        for line in self._made:
            other.tell(line)
        keys: list[tuple[Loader, Any]] = [*other._primed]
        for loader in self._by_name.values():
            keys += [(loader, key) for batch in other._client.log(loader.name) for key in batch.keys or [None]]
        known = sum(other._client.clear(loader.name, key) for loader, key in keys)
        other._client.close()
        return str(known)

    # ---- what was asked

    def _asked(self) -> str:
        batches = log_of(self._world, self._client)
        return "; ".join(f"{batch.text()}{'' if stored else ' lost'}" for batch, stored in batches) or "nothing"

    def _counts(self) -> str:
        """How often each source was asked, which has to be once for each batch whose replies were stored."""
        stored = Counter(batch.loader for batch, stored in log_of(self._world, self._client) if stored)
        if stored + self._before_restart != self._sources.calls:
            raise CaseError(f"asked {self._sources.calls}, stored {stored} and {self._before_restart}")
        return counts_text(self._sources.calls, self._by_name)

    def close(self) -> None:
        self._counts()
        self._client.close()


def call_number(client: Client, call: str, loader: int, rest: str) -> None:
    """Makes a call on the loader of a number, which the package doesn't take."""
    told = array("Q", bytes(32))
    key, _, name = rest.partition(" ")
    keys = keys_in(key)
    number, shapes, key_texts, row = SIZES[loader], words_of([1] * len(keys)), texts_of(*flat(keys)), texts_of(*flat(["name", name]))
    made: dict[str, Callable[[], int]] = {
        "load": lambda: client._call("rz_begin_load", number, *shapes, *key_texts),
        "prime": lambda: client._call("rz_prime", number, *key_texts, SIZES[1], COUNTS[1], *row, pointer_to(told)),
        "clear": lambda: client._call("rz_clear", number, *key_texts, pointer_to(told)),
        "clear all": lambda: client._call("rz_clear_all", number),
        "batches": lambda: client._call("rz_log_sizes", number, pointer_to(told)),
    }
    made[{"load_many": "load", "clear": "clear all" if key == "all" else "clear"}.get(call, call)]()


def told_of_calls(world: World, manner: Manner, _: str, text: str) -> str:
    """What each call of a new session tells, on a line of its own: the same by hand and by the package's client."""
    told = []
    for by_hand in (True, False):
        calls = Calls(world, manner, by_hand)
        told.append(in_one_voice("\n".join(map(calls.tell, text.split("\n")))))
        calls.close()
    if told[0] != told[1]:
        raise CaseError(f"by hand {told[0]!r}, by the client {told[1]!r}")
    return told[0]
