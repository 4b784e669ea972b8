"""Writes random request lines over the schema of examples/: careful queries, which are valid, and careless ones; with variables and without;
arrays; and lines that are no requests. The same count and seed give the same lines.

    python3 random_lines.py COUNT SEED
"""

import json
import random
import sys

# the fields of each type: the type of the selection that each has, and its argument
FIELDS = {
    "Query": {"user": ("User", "id"), "usersByIds": ("User", "ids"), "users": ("User", None), "named": ("Named", "id")},
    "User": {"id": (None, None), "name": (None, None), "best": ("User", None), "posts": ("Post", None), "liked": ("Post", None)},
    "Post": {"id": (None, None), "author": ("User", None), "title": (None, None)},
    "Named": {"name": (None, None)},
    "Bot": {"id": (None, None), "name": (None, None), "model": (None, None)},
}
IDS = ["1", "2", "3", "4", "9", "10", '"1"', '"2"', '"é"', '""', "$i"]
NO_IDS = ["null", "1.5", "true", "$j", "A"]
VALUES = [1, 2, 3, "1", "2", "x", "", None, 1.5, True, [1], {"a": 1}, "\u00e9", "\U0001f600"]
NOT_REQUESTS = ["", " ", "{", "[]", "3", "null", '"query"', '{"query":3}', "{}", '[{"query":"{users{id}}"},3]', '{"query":"{users{id}}"', "\u00e9"]
HEADS = ["", "query ", "query A", "query A($i:ID!)", "query A($i:ID,$b:Boolean=true)", "query($i:ID=1,$j:ID!)", "mutation"]


class Lines:
    def __init__(self, seed: int) -> None:
        self.random = random.Random(seed)
        self.careful, self.aliases = True, 0

    def chance(self, of_a_hundred: int) -> bool:
        return self.random.randrange(100) < of_a_hundred

    def slips(self, of_a_hundred: int) -> bool:
        return not self.careful and self.chance(of_a_hundred)

    def alias(self, always: bool) -> str:
        """An alias, or none. A careful one is unlike all others."""
        if self.slips(20):
            return f"{self.random.choice('abc')}:"
        if not always and not self.chance(15):
            return ""
        self.aliases += 1
        return f"a{self.aliases}:"

    def id(self) -> str:
        return self.random.choice(NO_IDS if self.slips(15) else IDS)

    def argument(self, name: str | None) -> str:
        if self.slips(4):
            return self.random.choice(("", "(id:1)", "(ids:[1])", "(id:1,id:1)"))
        if name == "id":
            return f"(id:{self.id()})"
        return f"(ids:[{','.join(self.id() for _ in range(self.random.randrange(6)))}])" if name == "ids" else ""

    def directive(self) -> str:
        if not self.chance(8):
            return ""
        condition = self.random.choice(("1", "$k")) if self.slips(20) else self.random.choice(("true", "false", "$b"))
        return f"@{self.random.choice(('skip', 'include'))}(if:{condition})"

    def field(self, of: str, depth: int) -> str:
        if self.slips(6):
            return self.random.choice(("nosuch", "id", "users{id}"))
        if self.chance(5):
            return "__typename"
        name = self.random.choice([*FIELDS[of]])
        below, argument = FIELDS[of][name]
        selection = self.selection(below, depth - 1) if below and not self.slips(3) else ""
        return f"{self.alias(argument is not None)}{name}{self.argument(argument)}{self.directive()}{selection}"

    def piece(self, of: str, depth: int) -> str:
        if self.chance(88):
            return self.field(of, depth)
        if self.slips(50):
            return f"...{self.random.choice('FGH')}"
        on = {"Named": self.random.choice(("User", "Bot"))}.get(of, of)
        if self.slips(30):
            on = self.random.choice([*FIELDS])
        return f"...on {on}{self.directive()}{self.selection(on, depth - 1)}" if self.chance(80) or of != "User" else "...F"

    def selection(self, of: str, depth: int) -> str:
        if depth <= 0:
            return "{__typename}" if of == "Query" or self.chance(20) else "{name}" if of == "Named" else "{id}"
        pieces = [self.piece(of, depth) for _ in range(self.random.randint(1, 4))]
        return "{" + self.random.choice((" ", ",", "\n")).join(pieces) + "}"

    def head(self, text: str) -> str:
        """The head of an operation, which declares the variables in its text."""
        declared = [it for it in ("$i:ID!", "$b:Boolean!") if it.partition(":")[0] in text]
        if not self.careful:
            return self.random.choice(HEADS)
        return f"query A({','.join(declared)})" if declared else self.random.choice(("", "query ", "query A"))

    def query(self) -> str:
        text = self.selection("Query", self.random.randint(2, 5))
        fragments = ""
        for name in "FGH":
            if f"...{name}" in text + fragments and not self.slips(10):
                on = self.random.choice(("User", "Query", "Post")) if self.slips(60) else "User"
                fragments += f" fragment {name} on {on}" + ("{id name best{id}}" if self.careful else self.selection(on, 2))
        text = self.head(text) + text + fragments
        if self.slips(12):
            text += f" query B{self.selection('Query', 2)}"
        return self.spoilt(text) if self.slips(15) else text

    def spoilt(self, text: str) -> str:
        """The text with another character in a place."""
        place = self.random.randrange(len(text))
        return text[:place] + self.random.choice(("", "{", "}", "$", '"', "é", "#", "...")) + text[place + 1 :]

    def variables(self) -> dict[str, object]:
        if self.chance(80):
            return {"i": self.random.choice((1, 2, "1", "3", "9")), "b": self.chance(50)}
        return {name: self.random.choice(VALUES) for name in self.random.sample("ijbk", self.random.randint(0, 4))}

    def request(self) -> dict[str, object]:
        self.careful = self.chance(70)
        request: dict[str, object] = {"query": self.query()}
        if self.slips(30):
            request["operationName"] = self.random.choice(("A", "B", "C", "", None))
        if "$" in str(request["query"]) or self.chance(10):
            request["variables"] = self.variables()
        return request

    def line(self) -> str:
        if self.chance(4):
            return self.random.choice(NOT_REQUESTS)
        if self.chance(10):
            return json.dumps([self.request() for _ in range(self.random.randint(1, 17))], ensure_ascii=self.chance(50))
        return json.dumps(self.request(), ensure_ascii=self.chance(50))


def main(count: str, seed: str) -> None:
    lines = Lines(int(seed))
    sys.stdout.reconfigure(encoding="utf-8")
    for _ in range(int(count)):
        print(lines.line())


main(*sys.argv[1:])
