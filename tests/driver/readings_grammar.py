"""A plain slow recogniser of words: it goes by a grammar, in which `NAME = PART ..` is one way to write a name."""

from collections.abc import Iterator
from dataclasses import dataclass, field
from functools import cache

from .cases import plain


@dataclass
class Grammar:
    """`ways`: for each name how it may be written. `words`: those that stand in place of another."""

    ways: dict[str, list[list[str]]] = field(default_factory=dict)
    words: list[str] = field(default_factory=list)


@cache
def grammar_of(text: str) -> Grammar:
    grammar = Grammar()
    for line in text.splitlines():
        if line.startswith("words "):
            grammar.words = line.split(" ")[1:]
        elif " = " in line and not line.startswith("#"):
            name, parts = line.split(" = ", 1)
            grammar.ways.setdefault(name, []).append(plain(parts).split())
    return grammar


def ends(grammar: Grammar, words: list[str]) -> tuple[bool, int]:
    """Whether words are a document, and where the first one stands that can't, which is behind them all if they end too early."""
    known: dict[tuple[str, int], set[int]] = {}
    furthest = 0

    def ends_of(name: str, begin: int) -> set[int]:
        """Where what is written so may end."""
        nonlocal furthest
        if name not in grammar.ways:
            furthest = max(furthest, begin)
            return {begin + 1} if words[begin : begin + 1] == [name] else set()
        if (name, begin) not in known:
            known[name, begin] = set()
            for parts in grammar.ways[name]:
                known[name, begin] |= ends_of_parts(parts, begin)
        return known[name, begin]

    def ends_of_parts(parts: list[str], begin: int) -> set[int]:
        found = {begin}
        for part in parts:
            found = {end for at in found for end in ends_of(part, at)}
        return found

    return len(words) in ends_of("Document", 0), furthest


def fault(grammar: Grammar, words: list[str]) -> str | None:
    """`unexpected token` or `unexpected end` with its place, if words that spaces part are no document. It is told of the first word that
    can't stand, and of the `@` before it if that is a name."""
    is_document, at = ends(grammar, words)
    if is_document:
        return None
    message = "unexpected token" if at < len(words) else "unexpected end"
    if at < len(words) and words[at - 1 : at] == ["@"] and words[at][0].isalpha():
        at -= 1
    return f"{message} at 1:{1 + sum(len(word) + 1 for word in words[:at])}"


def variants(grammar: Grammar, words: list[str]) -> Iterator[list[str]]:
    """Words, each front of them, and they with each word of the grammar in place of each."""
    for at in range(len(words)):
        yield words[:at]
        yield from ([*words[:at], word, *words[at + 1 :]] for word in grammar.words)
    yield words
