#!/usr/bin/env python3
"""Compares the built program with graphql-core's lexer and parser: syntax.py PROGRAM [DOCUMENTS] [SEED].

Random documents of the whole query language, most of them damaged by a few characters or tokens, are read by both. Both take
a document or neither does; where its tokens are at fault both say so; where the tokens are good, the place of the first token
with which no document can go on is the same. Then random strings and block strings that aren't empty are asked for as keys of a table
that has their values, as graphql-core reads them: each has to find its row. The last line counts; each difference is printed before it.
"""
import csv
import json
import os
import random
import re
import subprocess
import sys
import tempfile

from graphql import GraphQLSyntaxError, Source, TokenKind, parse
from graphql.language import Lexer

EXAMPLES = os.path.join(os.path.dirname(os.path.abspath(__file__)), "..", "..", "examples")
TOKEN_FAULTS = ("document too long", "bad character", "unterminated string", "bad escape", "bad number")
TREE_FAULTS = ("unexpected token", "unexpected end", "too deep")
WORDS = ("a", "b", "_c", "query", "mutation", "subscription", "fragment", "on", "true", "false", "null", "typed", "Int", "x1")
MARKS = ("!", "$", "&", "(", ")", "...", ":", "=", "@", "[", "]", "{", "|", "}")
NUMBERS = ("0", "-0", "7", "-12", "01", "1.5", "-0.0e-10", "1e3", "1E+9", "1.", ".5", "1e", "-", "00", "1x", "1.2.3", "9_", "0xF", "1e1.0")
ESCAPES = ("\\n", "\\\"", "\\\\", "\\/", "\\u0041", "\\u00e9", "\\uD83D\\uDE00")
BAD_ESCAPES = ("\\x", "\\u12", "\\u12G4", "\\uD83D", "\\uDE00", "\\uD83D\\u0041", "\\", "\\'")
TEXTS = ("a", " ", "  ", "\t", "x y", "é", "ü", "中", "#", ",", "'", "😀", "{", "...")
BREAKS = ("\n", "\r\n", "\r")
IGNORED = (" ", " ", "  ", "\n", "\r\n", "\r", "\t", ",", "\ufeff", " # comment é\n", "#\r", "# \"\"\" {\r\n", "# 😀\n")


class Draw:
    """Random documents, by the productions of the query language."""

    def __init__(self, seed):
        self.random = random.Random(seed)

    def chance(self, share):
        return self.random.random() < share

    def pick(self, choices):
        return self.random.choice(choices)

    def some(self, least, most, part):
        return [token for _ in range(self.random.randint(least, most)) for token in part()]

    def perhaps(self, share, part):
        return part() if self.chance(share) else []

    def string(self, spoiled):
        inside = "".join(
            self.pick(ESCAPES) if self.chance(0.2) else self.pick(BAD_ESCAPES) if spoiled and self.chance(0.1)
            else self.pick(BREAKS) if spoiled and self.chance(0.04) else self.pick(TEXTS)
            for _ in range(self.random.randrange(6))
        )
        return '"' + inside + ("" if spoiled and self.chance(0.05) else '"')

    def block(self, spoiled):
        parts = TEXTS + BREAKS + BREAKS + ('\\"""', "\\n", '"', '""', "    ", "\t ")
        inside = "".join(self.pick(parts) for _ in range(self.random.randrange(14)))
        while '"""' in inside.replace('\\"""', ""):
            inside = inside.replace('"""', "")
        if inside.endswith(('"', "\\")):
            inside += " "
        return '"""' + inside + ("" if spoiled and self.chance(0.05) else '"""')

    def name(self):
        return [self.pick(WORDS)]

    def value(self, depth=0):
        kind = self.random.randrange(9 if depth < 3 else 6)
        if kind == 0:
            return ["$", *self.name()]
        if kind == 1:
            return [self.pick(NUMBERS[:9])]
        if kind == 2:
            return [self.string(False)]
        if kind == 3:
            return [self.block(False)]
        if kind < 6:
            return self.name()
        if kind == 6:
            return ["[", *self.some(0, 3, lambda: self.value(depth + 1)), "]"]
        return ["{", *self.some(0, 3, lambda: [*self.name(), ":", *self.value(depth + 1)]), "}"]

    def arguments(self):
        return ["(", *self.some(1, 3, lambda: [*self.name(), ":", *self.value()]), ")"]

    def directives(self):
        return self.some(0, 2, lambda: ["@", *self.name(), *self.perhaps(0.5, self.arguments)]) if self.chance(0.2) else []

    def type(self, depth=0):
        inner = ["[", *self.type(depth + 1), "]"] if depth < 3 and self.chance(0.3) else self.name()
        return [*inner, *self.perhaps(0.3, lambda: ["!"])]

    def selection(self, depth):
        kind = self.random.randrange(6)
        if kind == 0:
            return ["...", self.pick(("a", "b", "F", "true", "on")), *self.directives()]
        if kind == 1:
            return ["...", *self.perhaps(0.7, lambda: ["on", *self.name()]), *self.directives(), *self.set(depth + 1)]
        return [
            *self.perhaps(0.2, lambda: [*self.name(), ":"]), *self.name(), *self.perhaps(0.3, self.arguments), *self.directives(),
            *(self.set(depth + 1) if depth < 4 and self.chance(0.4) else []),
        ]

    def set(self, depth=0):
        return ["{", *self.some(1, 3, lambda: self.selection(depth) if depth < 5 else self.name()), "}"]

    def variable(self):
        return ["$", *self.name(), ":", *self.type(), *self.perhaps(0.4, lambda: ["=", *self.value()]), *self.directives()]

    def definition(self):
        kind = self.random.randrange(4)
        if kind == 0:
            return self.set()
        if kind == 1:
            return ["fragment", self.pick(("F", "a", "fragment", "on")), "on", *self.name(), *self.directives(), *self.set()]
        variables = self.perhaps(0.4, lambda: ["(", *self.some(1, 2, self.variable), ")"])
        return [self.pick(WORDS[3:6]), *self.perhaps(0.6, self.name), *variables, *self.directives(), *self.set()]

    def spoil_tokens(self, tokens):
        at = self.random.randrange(len(tokens))
        how = self.random.randrange(5)
        if how == 0:
            del tokens[at]
        elif how == 1:
            tokens.insert(at, self.pick(MARKS + WORDS + NUMBERS))
        elif how == 2:
            tokens[at] = self.pick(MARKS + WORDS + NUMBERS)
        elif how == 3:
            tokens[at] = self.string(True) if self.chance(0.5) else self.block(True)
        else:
            other = self.random.randrange(len(tokens))
            tokens[at], tokens[other] = tokens[other], tokens[at]

    def spoil_text(self, text):
        at = self.random.randrange(len(text) + 1)
        how = self.random.randrange(4)
        if how == 0:
            return text[:at]
        if how == 1:
            return text[:at] + text[at + 1 :]
        return text[:at] + self.pick(MARKS + TEXTS + BREAKS + ('"', '"""', "\\", "%", "?", "-", ".", "..", "1", "_", "\ufeff")) + text[at:]

    def join(self, tokens):
        """The tokens with what is ignored between them, perhaps nothing."""
        text = "" if self.chance(0.8) else self.pick(IGNORED)
        for token in tokens:
            tight = token in MARKS or text.endswith(tuple(MARKS))
            text += ("" if tight and self.chance(0.6) or self.chance(0.01) else self.pick(IGNORED)) + token
        return text + ("" if self.chance(0.8) else self.pick(IGNORED))

    def document(self):
        tokens = self.some(1, 3, self.definition)
        for _ in range(self.pick((0, 0, 1, 1, 2))):
            if tokens:
                self.spoil_tokens(tokens)
        text = self.join(tokens)
        return self.spoil_text(text) if self.chance(0.3) else text


def place_of(text, position):
    """Line and column, from 1. (The location that graphql-core 3.2.8 tells is a line too early for a token that begins one.)"""
    ends = [it.end() for it in re.finditer(r"\r\n|[\r\n]", text) if it.end() <= position]
    return len(ends) + 1, position - (ends[-1] if ends else 0) + 1


def text_at(text, place):
    """The character of a place."""
    starts = [0, *(it.end() for it in re.finditer(r"\r\n|[\r\n]", text))]
    at = starts[place[0] - 1] + place[1] - 1
    return text[at : at + 1]


def verdict(text):
    """What graphql-core says: whether the tokens are good, and where the first token stands that can't follow."""
    lexer = Lexer(Source(text))
    try:
        while lexer.advance().kind is not TokenKind.EOF:
            pass
    except (GraphQLSyntaxError, IndexError):
        # (an escape that the end of the text cuts short raises IndexError in graphql-core 3.2.8)
        return "tokens", None
    try:
        parse(text, no_location=True)
    except GraphQLSyntaxError as error:
        return "tree", place_of(text, error.positions[0])
    return "good", None


def answers(program, words, requests):
    lines = "".join(json.dumps(it) + "\n" for it in requests)
    run = subprocess.run([program, *words], input=lines.encode(), capture_output=True, check=True)
    return [json.loads(line) for line in run.stdout.decode().splitlines()]


def told(answer):
    """The same of the program's answer."""
    errors = answer.get("errors", [])
    message = errors[0]["message"] if errors and "data" not in answer else ""
    if message in TOKEN_FAULTS:
        return "tokens", None
    if message in TREE_FAULTS:
        place = errors[0]["locations"][0]
        return "tree", (place["line"], place["column"])
    return "good", None


def compare_documents(program, draw, count):
    texts = [draw.document() for _ in range(count)]
    different, kinds = 0, {}
    for text, answer in zip(texts, answers(program, [], [{"query": it} for it in texts]), strict=True):
        wanted, found = verdict(text), told(answer)
        kinds[wanted[0]] = kinds.get(wanted[0], 0) + 1
        if wanted[0] == found[0] == "tree" and text_at(text, found[1]) == '"':
            # (graphql-core takes a description before a definition, and refuses what follows)
            continue
        if wanted != found:
            different += 1
            print(f"{wanted} but {found}: {text!r}")
    return different, kinds


def value_of(literal):
    lexer = Lexer(Source(literal))
    return lexer.advance().value


def compare_values(program, draw, count):
    literals, values = [], {}
    while len(literals) < count:
        literal = draw.string(False) if draw.chance(0.4) else draw.block(False)
        value = value_of(literal)
        if value:
            literals.append(literal)
            values.setdefault(value, None)
    with tempfile.TemporaryDirectory() as folder:
        with open(f"{folder}/users.csv", "w", encoding="utf-8", newline="") as file:
            writer = csv.writer(file, quoting=csv.QUOTE_ALL)
            writer.writerow(["id", "name", "best"])
            for value in values:
                writer.writerow([value, "n", ""])
        with open(f"{folder}/requests", "w", encoding="utf-8") as file:
            for literal in literals:
                file.write(json.dumps({"query": "{user(id:" + literal + "){id}}"}) + "\n")
        words = ["--schema", f"{EXAMPLES}/schema.graphql", "--bindings", f"{EXAMPLES}/bindings.txt", f"{folder}/requests"]
        for name in sorted(os.listdir(EXAMPLES)):
            if name.endswith(".csv"):
                table = name[:-4]
                words.append(f"{table}={folder}/users.csv" if table == "users" else f"{table}={EXAMPLES}/{name}")
        run = subprocess.run([program, *words], capture_output=True, check=True)
    different = 0
    for literal, line in zip(literals, run.stdout.decode().splitlines(), strict=True):
        wanted, found = {"data": {"user": {"id": value_of(literal)}}}, json.loads(line)
        if wanted != found:
            different += 1
            print(f"{wanted} but {found}: {literal!r}")
    return different


def main():
    program = os.path.abspath(sys.argv[1])
    count = int(sys.argv[2]) if len(sys.argv) > 2 else 20000
    draw = Draw(int(sys.argv[3]) if len(sys.argv) > 3 else 1)
    different, kinds = compare_documents(program, draw, count)
    values = compare_values(program, draw, max(count // 4, 1))
    print(f"{count} documents ({kinds}): {different} differ; {max(count // 4, 1)} strings: {values} differ")


if __name__ == "__main__":
    main()
