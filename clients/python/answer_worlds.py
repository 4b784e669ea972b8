"""Answers the lines of a world over its CSV tables, as `query_cli` does, by rounds that it runs itself, and compares the answers with the stored
ones, to the byte.

    python3 answer_worlds.py LIBRARY EXAMPLES
"""

import csv
import json
import sys
from collections.abc import Callable, Mapping

from rudzkvano import Client, Library, Order, Progress, Refused, SchemaFault, Server

Table = tuple[list[str], list[list[str]]]
Tables = Mapping[str, Table]


def folded(text: str) -> str:
    return "".join(chr(ord(character) + 32) if "A" <= character <= "Z" else character for character in text)


def rows_of(tables: Tables, order: Order) -> Table:
    """The rows that an order asks for, with the names of their columns. An empty field is null, and equals no key."""
    loader = order.loader
    columns, rows = tables[loader.table]
    if not loader.columns:
        return columns, rows
    same: Callable[[str], str] = folded if loader.folds else lambda text: text
    places = [columns.index(column) for column in loader.columns]
    keys = {tuple(map(same, (key,) if isinstance(key, str) else key)) for key in order.keys}
    found = [(tuple(same(row[place]) for place in places), row) for row in rows]
    return columns, [row for key, row in found if all(key) and key in keys]


def answer(client: Client, tables: Tables) -> str:
    """The answer to what was begun."""
    while client.next() == Progress.ROUND:
        for order in client.orders():
            client.reply(order, rows_of(tables, order))
    return client.text()


def read_text(path: str) -> str:
    with open(path, newline="", encoding="utf-8") as file:
        return file.read()


def read_table(path: str) -> Table:
    with open(path, newline="", encoding="utf-8") as file:
        columns, *rows = csv.reader(file)
        return columns, rows


def answers_of(client: Client, line: str, tables: Tables) -> set[str]:
    """The answer to a line; and, where it is a request, the one from its parts."""
    client.restart()
    client.begin(line)
    answers = {answer(client, tables)}
    try:
        request = json.loads(line)
    except ValueError:
        return answers
    if isinstance(request, dict) and isinstance(request.get("query"), str):
        client.restart()
        client.begin_request(request["query"], request.get("operationName"), request.get("variables"))
        answers.add(answer(client, tables))
    return answers


def answer_world(library: Library, folder: str, tables: Tables) -> None:
    schema, bindings = read_text(f"{folder}/schema.graphql"), read_text(f"{folder}/bindings.txt")
    lines, wanted = (read_text(f"{folder}/{name}.jsonl").removesuffix("\n").split("\n") for name in ("requests", "answers"))
    with Server(schema, bindings, library) as server, server.client({}) as client:
        for number, (line, stored) in enumerate(zip(lines, wanted, strict=True), 1):
            found = answers_of(client, line, tables)
            if found != {stored}:
                sys.exit(f"{folder}: line {number} is answered {found}\n wanted: {stored}")
    print(f"{len(lines)} lines of {folder.rsplit('/', 1)[-1]} answered as stored")


def call_each(library: Library, folder: str, tables: Tables) -> None:
    """The calls that no line makes."""
    schema, bindings = read_text(f"{folder}/schema.graphql"), read_text(f"{folder}/bindings.txt")
    query = "{user(id:1){name}}"
    with Server(schema, bindings, library) as server, server.client({}, max_batch=1) as client:
        assert client.prime("userById", 1, {"id": 1, "name": "Eve"})
        assert not client.prime("userById", "1", ValueError("gone"))
        client.begin_request(query)
        assert answer(client, tables) == '{"data":{"user":{"name":"Eve"}}}' and client.rounds() == 0
        assert client.clear("userById", "1") and not client.clear("userById", "1")
        client.begin(json.dumps({"query": query}))
        assert client.next() == Progress.ROUND and client.next() == Progress.WAITING
        assert [(order.loader.name, order.keys) for order in client.orders()] == [("userById", ["1"])]
        client.cancel()
        client.begin_request(query)
        assert client.next() == Progress.ROUND
        client.fail(client.orders()[0], "gone")
        assert client.next() == Progress.DONE and '"gone"' in client.text()
        client.clear_all("userById")
        client.limit_answers(5)
        client.begin_request(query)
        assert "answer too long" in answer(client, tables)
        assert [(batch.stored, batch.keys) for batch in client.log("userById")] == [(False, ["1"]), (True, ["1"]), (True, ["1"])]
        try:
            client.next()
        except Refused as refused:
            assert refused.name == "RZ_IDLE"
    try:
        Server("type Query { a: Nope }", bindings, library)
    except SchemaFault as fault:
        assert (fault.number, fault.line, fault.column) == (3, 1, 17)
    print("each call answered as wanted, by version", *library.version())


def limit_each(library: Library, folder: str, tables: Tables) -> None:
    """The limits on work and on rounds."""
    schema, bindings = read_text(f"{folder}/schema.graphql"), read_text(f"{folder}/bindings.txt")
    query = "{user(id:1){best{name}}}"
    with Server(schema, bindings, library) as server, server.client({}) as client:
        for limit, refusal in ((client.limit_work, "too much work"), (client.limit_rounds, "too many rounds")):
            limit(1)
            client.begin_request(query)
            assert answer(client, tables) == f'{{"errors":[{{"message":"{refusal}"}}]}}'
            limit(None)
        client.begin_request(query)
        assert answer(client, tables) == '{"data":{"user":{"best":{"name":"Bob"}}}}'


def main(path: str, examples: str) -> None:
    library = Library(path)
    tables = {name: read_table(f"{examples}/{name}.csv") for name in ("users", "posts", "named", "likes")}
    answer_world(library, examples, tables)
    answer_world(library, f"{examples}/votes", {**tables, "votes": read_table(f"{examples}/votes/votes.csv")})
    call_each(library, examples, tables)
    limit_each(library, examples, tables)


if __name__ == "__main__":
    main(*sys.argv[1:])
