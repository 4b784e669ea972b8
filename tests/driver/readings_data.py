"""Plain slow readings of what is told of keys, tables, answers, and the lines of bindings and of requests."""

import csv
import io
import json
from collections.abc import Iterator
from itertools import product

MOST_KEYS = 65_535


# ---- keys cut in batches


def cut(text: str) -> str:
    """What a loader makes of keys that are cut at number 5 in rounds 6 and 7: the orders of round 7, and the log, in which it is stored. As
    `0 1 2 by 2`: each key goes into the last batch, until that is full."""
    keys, limit = text.split("by ")
    most = MOST_KEYS if limit == "none" else int(limit)
    if not 1 <= most <= MOST_KEYS:
        return "bad limit"
    batches: list[str] = []
    for number, key in enumerate(keys.split()):
        if number % most == 0:
            batches.append("")
        batches[-1] += f"{key} "
    return "users Exact|" + "".join(f"{head}: {batch};" for head in ("5", "6", "7 stored") for batch in batches)


# ---- rows of keys


def folded(text: str) -> str:
    return "".join(chr(ord(character) + 32) if "A" <= character <= "Z" else character for character in text)


def filtered(table: str, text: str) -> str:
    """What a column of a table has in the rows of each key, and then of all, each behind a bar; as `name fold: id of Ada|Bob`, or by two
    columns as `a,b exact: id of (1,2)`. An empty field equals no key."""
    head, asked = text.split(": ", 1)
    by, mode = head.rsplit(" ", 1)
    column, keys = asked.split(" of ", 1)
    names, *rows = csv.reader(io.StringIO(table, newline=""))
    columns = by.split(",")
    if not set(columns) <= set(names):
        return "NoSuchColumn"
    same = folded if mode == "fold" else str
    found = ""
    for key in keys.split("|"):
        parts = key[1:-1].split(",") if key.startswith("(") and key.endswith(")") and "," in key else [key]
        found += "|"
        for row in rows:
            fields = [row[names.index(name)] for name in columns]
            if all(fields) and list(map(same, fields)) == list(map(same, parts)):
                found += row[names.index(column)] + ";"
    return found + "|"


def filtered_rows(text: str) -> str:
    """The same over rows that are numbered from 0 and have half their number beside it; as `5: half exact: n of 2`."""
    count, asked = text.split(": ", 1)
    return filtered("n,half\n" + "".join(f"{number},{number // 2}\n" for number in range(int(count))), asked)


# ---- texts of answers

ESCAPES = {'"': '\\"', "\\": "\\\\", "\b": "\\b", "\t": "\\t", "\n": "\\n", "\f": "\\f", "\r": "\\r"}


def string(text: str) -> str:
    """A string of an answer, by docs/USING.md."""
    return '"' + "".join(ESCAPES.get(each, f"\\u{ord(each):04x}" if each < " " else each) for each in text) + '"'


def refusal(text: str) -> str | None:
    """The text of a refusal without a place; nothing of other answers."""
    message = text.removeprefix("refused ")
    return None if message == text or message.startswith("at ") else f'{{"errors":[{{"message":{string(message)}}}]}}'


# ---- lines of bindings


def texts_of(parts: list[str], most: int) -> Iterator[str]:
    """All texts of at most so many parts."""
    for count in range(most + 1):
        yield from ("".join(chosen) for chosen in product(parts, repeat=count))


def loaders_of(text: str) -> list[tuple[str, str]] | int:
    """The loaders of all rows that lines of bindings say, each its name and its table, or the number of the first bad line, from 1. A name
    may stand once."""
    *lines, last = text.split("\n")
    found: list[tuple[str, str]] = []
    for number, line in enumerate([*(line.removesuffix("\r") for line in lines), last], 1):
        if not line or line.startswith("#"):
            continue
        words = [word for word in line.split(" ") if word]
        if len(words) != 3 or words[0] != "loader" or words[1] in dict(found):
            return number
        found.append((words[1], words[2]))
    return found


# ---- lines of requests

NO_REQUEST = '{"errors":[{"message":"not a request"}]}'


def answer_of(line: str) -> str:
    """The answer to a line that is no request, or an array of values that are none."""
    try:
        values = json.loads(line)
    except ValueError:
        return NO_REQUEST
    return f"[{','.join([NO_REQUEST] * len(values))}]" if isinstance(values, list) and 1 <= len(values) <= 16 else NO_REQUEST


def answers_of(text: str) -> str:
    """The answers to the lines of a text. The last line may have no line feed."""
    *lines, last = text.split("\n")
    return "".join(f"{answer_of(line)}\n" for line in (lines + [last] if last else lines))
