"""Limits, which are whole numbers."""

from __future__ import annotations

import sys
from operator import index
from typing import NamedTuple

# the greatest limit on rounds
MOST_ROUNDS = 4_294_967_295


class Limits(NamedTuple):
    """Limits of answers: on their bytes, their work and their rounds."""

    answer: int | None = None
    work: int | None = None
    rounds: int | None = None


def checked_limit(what: str, limit: int, most: int = sys.maxsize) -> int:
    """A limit from 1 to `most`. Raises ValueError for what is none, as a negative number or NaN."""
    try:
        number = index(limit)
    except TypeError:
        number = 0
    if 1 <= number <= most:
        return number
    raise ValueError(f"{what} is {limit}, and not 1 to {most:,}")
