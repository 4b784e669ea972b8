"""Request lines: read plainly with `json` of Python, by docs/USING.md, "Request lines"; and lines near one that ask something else."""

import json
import re
from collections.abc import Iterator
from dataclasses import dataclass
from typing import Any, NoReturn

MOST_LEVELS = 127
MOST_VALUES = 16
LONE = re.compile("[\ud800-\udfff]")
IN_PLACE = [b'"', b"}", b"[", b",", b"0", b" ", b"\\", b"\xff"]


@dataclass(frozen=True)
class Number:
    """A number as it is written."""

    text: str


@dataclass(frozen=True)
class Request:
    query: str
    operation_name: str | None
    variables: Any


Value = Any
Line = Request | list[Request | None] | None  # `None` is no request


def number_of(text: str) -> Number:
    if float(text) in (float("inf"), float("-inf")):
        raise ValueError("beyond the range of a float")
    return Number(text)


def no_number(name: str) -> NoReturn:
    raise ValueError(f"{name} is no JSON")


class Members(list[tuple[str, Any]]):
    """The members of an object, in order; of those with the same name the last one counts."""


def checked(value: Value, level: int = 0) -> Value:
    """A value that hasn't too many levels, and no lone surrogate in a string."""
    inner: list[Value] = []
    if isinstance(value, Members):
        inner = [part for member in value for part in member]
    elif isinstance(value, list):
        inner = value
    elif isinstance(value, str) and LONE.search(value):
        raise ValueError("a lone surrogate")
    if isinstance(value, list) and level == MOST_LEVELS:
        raise ValueError("too many levels")
    for each in inner:
        checked(each, level + 1)
    return value


def value_of(line: bytes) -> Value:
    """The JSON value of a line."""
    text = line.decode()
    return checked(json.loads(text, parse_int=number_of, parse_float=number_of, parse_constant=no_number, object_pairs_hook=Members))


def request_of(value: Value) -> Request | None:
    """The request that a value is. Variables that aren't given are `None`, as those that are null."""
    if not isinstance(value, Members):
        return None
    members = dict(value)
    query, name = members.get("query"), members.get("operationName")
    if not isinstance(query, str) or not isinstance(name, str | None):
        return None
    return Request(query, name, members.get("variables"))


def read_line(line: bytes) -> Line:
    """What a line asks."""
    try:
        value = value_of(line)
    except (ValueError, RecursionError):
        return None
    if isinstance(value, list) and not isinstance(value, Members):
        return [request_of(each) for each in value] if 1 <= len(value) <= MOST_VALUES else None
    return request_of(value)


def text_of(value: Value) -> str:
    """JSON of a value, whose numbers are those that were read."""
    if isinstance(value, Members):
        return "{" + ",".join(f"{json.dumps(name)}:{text_of(member)}" for name, member in dict(value).items()) + "}"
    if isinstance(value, list):
        return "[" + ",".join(text_of(each) for each in value) + "]"
    return value.text if isinstance(value, Number) else json.dumps(value)


def request_text(request: Request | None) -> str:
    if request is None:
        return "0"
    parts = [("query", request.query), ("operationName", request.operation_name), ("variables", request.variables)]
    return text_of(Members(parts))


def written(line: Line) -> bytes:
    """A line that asks the same, written plainly."""
    if isinstance(line, list):
        return f"[{','.join(request_text(each) for each in line)}]".encode()
    return request_text(line).encode()


def fronts_of(line: bytes) -> Iterator[bytes]:
    return (line[:end] for end in range(len(line)))


def changes_of(line: bytes) -> Iterator[bytes]:
    """The line with each byte left out, and with others in place of it."""
    for at in range(len(line)):
        for other in (b"", *IN_PLACE):
            yield line[:at] + other + line[at + 1 :]
