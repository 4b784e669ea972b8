#!/usr/bin/env python3
"""Writes documents that are hard to validate, one request line a file.

    bench/documents/make_hostile.py FOLDER

The schema is that of a small world of users, bots and posts: `user(id: ID!): User`, `named(id: ID!): Named`, where the
interface `Named { name }` is implemented by `User { id name best: User posts: [Post!]! liked: [Post]! }` and by
`Bot { id name model }`, and `Post { id author: User! title }`. Each document is valid, unless its name ends in `_clash`.
"""
import json
import os
import sys

MIB = 1 << 20


def fields(count):
    """So many fields in one set, each with a response key of its own."""
    return "{user(id:1){" + " ".join(f"k{i}:name" for i in range(count)) + "}}"


def one_key(count):
    """So many fields in one set that share a response key."""
    return "{user(id:1){" + "name " * count + "}}"


def one_key_deep(count):
    """So many fields of one response key, each with its own set."""
    return "{user(id:1){" + "best{name} " * count + "}}"


def doubling(count):
    """Each fragment spreads the next twice: 2^count paths."""
    text = ["{user(id:1){...F0}}"]
    for i in range(count):
        inside = "name" if i + 1 == count else f"...F{i + 1} ...F{i + 1}"
        text.append(f" fragment F{i} on User{{{inside}}}")
    return "".join(text)


def tripling_in_fields(count):
    """Each fragment spreads the next three times, inside fields of one response key."""
    text = ["{user(id:1){...F0}}"]
    for i in range(count):
        inside = "name" if i + 1 == count else f"best{{...F{i + 1}}} " * 3
        text.append(f" fragment F{i} on User{{{inside}}}")
    return "".join(text)


def spreads_only(count):
    """So many fragments that hold spreads alone, each of the next."""
    text = ["{user(id:1){...F0}}"]
    for i in range(count):
        inside = "name" if i + 1 == count else f"...F{i + 1}"
        text.append(f" fragment F{i} on User{{{inside}}}")
    return "".join(text)


def mixed_parents(count):
    """Fields under an interface and under object types, so that a recursion over pairs doubles at each level."""
    inside = "id"
    for _ in range(count):
        inside = f"... on User{{best{{{inside}}}}} ... on Named{{... on User{{best{{{inside}}}}}}}" if len(inside) < 4000 else f"best{{{inside}}}"
    return "{named(id:1){... on User{best{" + inside + "}}}}"


def levels(count):
    """So many fields, one inside another."""
    return "{user(id:1)" + "{best" * (count - 2) + "{name" + "}" * count


def levels_over_spreads(count, size):
    """So many fields, one inside another, over as many spreads as there is room for."""
    head, tail = "{user(id:1)" + "{best" * (count - 2) + "{", "}" * count + " fragment F on User{name}"
    return head + "...F " * ((size - len(head) - len(tail)) // 5) + tail


def long_arguments(count, size):
    """Fields of one name and response key whose arguments differ in the last character."""
    each = size // count - 16
    return "{" + " ".join(f'a{i}:user(id:"{"x" * each}{i}"){{id}}' for i in range(count)) + "}"


def padded(text, size=MIB):
    """The same, filled with commas, which say nothing, to a whole size."""
    return text + "," * (size - len(text))


DOCUMENTS = {
    "fields": fields(900),
    "one_key": one_key(900),
    "one_key_deep": one_key_deep(450),
    "doubling": doubling(64),
    "tripling_in_fields": tripling_in_fields(64),
    "spreads_only": spreads_only(20000),
    "mixed_parents": mixed_parents(12),
    "levels": levels(128),
    "levels_over_spreads": levels_over_spreads(127, MIB),
    "long_arguments": long_arguments(450, MIB - 20000),
    "first_level_clash": "{user(id:1){" + "name " * 900 + "name:id}}",
    "deep_clash": "{user(id:1)" + "{best" * 126 + "{name name:id" + "}" * 128,
}


def main():
    folder = sys.argv[1]
    os.makedirs(folder, exist_ok=True)
    for name, text in DOCUMENTS.items():
        for suffix, document in (("", text), ("_mib", padded(text))):
            with open(os.path.join(folder, name + suffix + ".json"), "w") as file:
                file.write(json.dumps({"query": document}) + "\n")
        print(f"{name}: {len(text)} bytes")


if __name__ == "__main__":
    main()
