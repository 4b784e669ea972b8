#!/usr/bin/env python3
"""Compares the built program with graphql-core on random requests over examples/: compare.py PROGRAM [REQUESTS] [SEED].

A request is valid or not, and its variables coerce or not, for both or for neither; where it is executed, the data are the
same JSON text with the same order of members, and each error of graphql-core has an error of the program at its path. The
program's errors may be more, since graphql-core stops at the first error below a parent that becomes null. The last line
counts; each difference is printed before it, shortest first.
"""
import csv
import json
import os
import random
import subprocess
import sys

from graphql import GraphQLError, build_schema, execute, parse, validate

EXAMPLES = os.path.join(os.path.dirname(os.path.abspath(__file__)), "..", "..", "examples")
NAMES = ("users", "posts", "likes", "named")
FIELDS = {
    "Query": {
        "user": ("User", {"id": "ID!"}),
        "usersByIds": ("User", {"ids": "[ID!]!"}),
        "users": ("User", {}),
        "named": ("Named", {"id": "ID!"}),
    },
    "Named": {"name": (None, {})},
    "User": {"id": (None, {}), "name": (None, {}), "best": ("User", {}), "posts": ("Post", {}), "liked": ("Post", {})},
    "Bot": {"id": (None, {}), "name": (None, {}), "model": (None, {})},
    "Post": {"id": (None, {}), "author": ("User", {}), "title": (None, {})},
}


class Request:
    """A random document with its variables; about a third may break a rule."""

    def __init__(self, draw):
        self.draw, self.fragments, self.variables = draw, {}, {}
        self.breaks = draw.random() < 0.35

    def chance(self, share):
        return self.draw.random() < share

    def broken(self, share):
        return self.breaks and self.chance(share)

    def constant(self, of_type):
        if of_type.startswith("["):
            return "[" + ",".join(self.constant("ID!") for _ in range(self.draw.randrange(4))) + "]"
        if of_type == "Boolean!":
            return self.draw.choice(["true", "false"])
        return self.draw.choice(["1", "2", "3", "4", "9", '"1"', '"2"', '"12"', '"x"'])

    def value(self, of_type):
        if self.chance(0.15):
            name = f"v{self.draw.randrange(4)}"
            self.variables.setdefault(name, (of_type, None if self.chance(0.6) else self.constant(of_type)))
            return "$" + name
        if self.broken(0.05):
            return self.draw.choice(["null", "true", "{a:1}", "[[1]]", "1.5", "ENUM"])
        return self.constant(of_type)

    def directives(self):
        if self.chance(0.8):
            return ""
        if self.broken(0.15):
            return self.draw.choice([" @skip", " @nope", " @include(if:1)", " @skip(if:true) @skip(if:false)"])
        return f" @{self.draw.choice(['skip', 'include'])}(if:{self.value('Boolean!')})"

    def others(self, parent):
        """Types that a fragment inside this parent may be for."""
        return ["User", "Bot", "Named"] if parent in ("Named", "User", "Bot") else ["Post", "User"] if self.breaks else []

    def spread(self, parent, depth):
        name = f"F{self.draw.randrange(5)}"
        if name not in self.fragments:
            self.fragments[name] = None
            of_type = self.draw.choice([parent, parent, *self.others(parent)])
            self.fragments[name] = (of_type, self.selections(of_type, depth - 1))
            return "..." + name + self.directives()
        if self.fragments[name] and (self.fragments[name][0] == parent or self.breaks):
            return "..." + name + self.directives()
        return self.field(parent, depth)

    def selection(self, parent, depth):
        share = self.draw.random()
        if share < 0.62 or depth <= 0:
            return self.field(parent, depth)
        if share < 0.72:
            return self.draw.choice(["", "a:"]) + "__typename"
        if share < 0.86:
            of_type = self.draw.choice([parent, parent, None, *self.others(parent)])
            condition = f" on {of_type}" if of_type else ""
            return "..." + condition + self.directives() + "{" + self.selections(of_type or parent, depth - 1) + "}"
        return self.spread(parent, depth)

    def selections(self, parent, depth):
        return " ".join(self.selection(parent, depth) for _ in range(self.draw.choice([1, 1, 2, 2, 3, 4])))

    def field(self, parent, depth):
        names = [name for name, (of_type, _) in FIELDS[parent].items() if of_type is None or depth > 0]
        name = self.draw.choice(names or ["__typename"])
        if self.broken(0.03):
            name = self.draw.choice(["nope", "title", "model", "users"])
        of_type, arguments = FIELDS[parent].get(name, (None, {}))
        given = [f"{it}:{self.value(kind)}" for it, kind in arguments.items() if not self.broken(0.05)]
        given += ["extra:1"] * self.broken(0.02)
        below = "{" + self.selections(of_type, depth - 1) + "}" if of_type and not self.broken(0.03) else ""
        below = below or "{id}" * self.broken(0.02)
        alias = self.draw.choice(["", "", "", self.draw.choice("abc") + ":"])
        return alias + name + (f"({','.join(given)})" if given else "") + self.directives() + below

    def given(self, of_type):
        if self.broken(0.1):
            return self.draw.choice([None, True, {"a": 1}, [[1]], 1.5])
        if of_type.startswith("["):
            return [self.draw.choice([1, "2", "9"]) for _ in range(self.draw.randrange(4))]
        return self.chance(0.5) if of_type == "Boolean!" else self.draw.choice([1, 2, "3", "9", "x"])

    def written(self):
        """The document and its variables."""
        body = self.selections("Query", self.draw.randrange(1, 5))
        if self.variables and self.broken(0.1):
            self.variables.popitem()
        if self.broken(0.05):
            self.variables["w"] = ("ID", None)
        kinds = ["ID", "User", "Nope", "[ID]", "Boolean"]
        definitions = [
            f"${name}:{self.draw.choice(kinds) if self.broken(0.05) else kind}" + (f"={default}" if default else "")
            for name, (kind, default) in self.variables.items()
        ]
        head = "query Q" + f"({','.join(definitions)})" * bool(definitions) if definitions or self.chance(0.3) else ""
        parts = [f" fragment {name} on {it[0]}{{{it[1]}}}" for name, it in self.fragments.items() if it]
        parts += [" fragment Z on User{id}"] * self.broken(0.05)
        values = {name: self.given(kind) for name, (kind, default) in self.variables.items() if not default or self.chance(0.5)}
        return head + "{" + body + "}" + "".join(parts), values


class World:
    """The tables of examples/, resolved field by field, one key at a time."""

    def __init__(self):
        self.schema = build_schema(read("schema.graphql"))
        self.tables = {name: list(csv.DictReader(read(f"{name}.csv").splitlines())) for name in NAMES}

    def rows(self, table, column, key):
        return [row for row in self.tables[table] if row[column] == key]

    def one(self, table, key):
        rows = self.rows(table, "id", key) if key else []
        if len(rows) > 1:
            raise GraphQLError("several rows")
        return rows[0] if rows else None

    def resolve(self, row, info, **arguments):
        name = info.field_name
        found = {
            ("Query", "user"): lambda: self.one("users", arguments["id"]),
            ("Query", "usersByIds"): lambda: [self.one("users", it) for it in arguments["ids"]],
            ("Query", "users"): lambda: self.tables["users"],
            ("Query", "named"): lambda: self.one("named", arguments["id"]),
            ("User", "best"): lambda: self.one("users", self.cell(row, "best")),
            ("User", "posts"): lambda: self.rows("posts", "author", row["id"]),
            ("User", "liked"): lambda: [self.one("posts", it["post"]) for it in self.rows("likes", "user", row["id"])],
            ("Post", "author"): lambda: self.one("users", self.cell(row, "author")),
        }.get((info.parent_type.name, name))
        return found() if found else self.cell(row, name)

    def cell(self, row, column):
        if column not in row:
            raise GraphQLError("no column")
        return row[column] or None

    def type_of(self, row, _info, _type):
        if row["__typename"] not in ("User", "Bot"):
            raise GraphQLError("no such type")
        return row["__typename"]


def read(name):
    with open(os.path.join(EXAMPLES, name), encoding="utf-8") as file:
        return file.read()


def answers_of(program, requests):
    lines = "".join(json.dumps({"query": query, "variables": values}) + "\n" for query, values in requests)
    words = [program, "--schema", f"{EXAMPLES}/schema.graphql", "--bindings", f"{EXAMPLES}/bindings.txt", "/dev/stdin"]
    words += [f"{name}={EXAMPLES}/{name}.csv" for name in NAMES]
    return subprocess.run(words, input=lines, capture_output=True, text=True, check=True).stdout.splitlines()


def difference(world, query, values, answer):
    """What differs, or the kind of case where nothing does."""
    try:
        document = parse(query)
        faults = validate(world.schema, document, max_errors=1)
    except GraphQLError as fault:
        faults = [fault]
    if faults:
        return "invalid" if "data" not in answer else f"DIFFERS: accepted, and theirs says: {faults[0].message}"
    theirs = execute(world.schema, document, variable_values=values, field_resolver=world.resolve, type_resolver=world.type_of)
    if "data" not in answer:
        refused = theirs.data is None and any(it.path is None for it in theirs.errors or [])
        return "variables refused" if refused else "DIFFERS: refused"
    paths = [it["path"] for it in answer.get("errors", [])]
    told = all(it.path in paths for it in theirs.errors or [])
    if json.dumps(answer["data"]) != json.dumps(theirs.data) or bool(paths) != bool(theirs.errors) or not told:
        return f"DIFFERS: theirs is {json.dumps(theirs.data)} {theirs.errors}"
    return "executed with errors" if paths else "executed"


def main():
    program, count, seed = os.path.abspath(sys.argv[1]), *(int(it) for it in [*sys.argv[2:], "5000", "1"][:2])
    draw, world = random.Random(seed), World()
    requests = [Request(draw).written() for _ in range(count)]
    kinds, differing = {}, []
    for (query, values), line in zip(requests, answers_of(program, requests), strict=True):
        kind = difference(world, query, values, json.loads(line))
        kinds[kind.partition(":")[0]] = kinds.get(kind.partition(":")[0], 0) + 1
        if kind.startswith("DIFFERS"):
            differing.append((len(query), query, values, line, kind))
    for _, query, values, line, kind in sorted(differing, key=lambda it: it[0])[:20]:
        print(f"{query}\n  with {json.dumps(values)}\n  answered {line}\n  {kind}")
    print(", ".join(f"{number} {kind}" for kind, number in sorted(kinds.items())))


if __name__ == "__main__":
    main()
