"""A plain slow reading of Field Selection Merging: `FieldsInSetCanMerge` and `SameResponseShape` of section 5.3.2 of the GraphQL
specification, over the fields of documents, and over fields that a case numbers."""

from collections.abc import Iterator
from dataclasses import dataclass
from functools import cache
from itertools import combinations

from .readings_tree import Document, Schema, Selection, Set, document_of, schema_of

COMPOSITE = ("type", "interface", "union")


@dataclass(frozen=True, eq=False)
class Field:
    """A field with its response key, and what the rule compares of it. It equals itself alone."""

    number: int
    key: str
    name: str
    arguments: str
    parent: str
    is_of_object: bool
    shape: str
    below: tuple["Field", ...]


Fields = tuple[Field, ...]


def joined(one: Field, other: Field) -> Fields:
    """The fields of the selection sets of both."""
    return one.below if one.below is other.below else tuple(dict.fromkeys(one.below + other.below))


def pairs(fields: Fields) -> Iterator[tuple[Field, Field]]:
    """Two different fields with one response key."""
    by_key: dict[str, list[Field]] = {}
    for each in fields:
        by_key.setdefault(each.key, []).append(each)
    for alike in by_key.values():
        yield from combinations(alike, 2)


@cache
def have_one_shape(fields: Fields) -> bool:
    return all(one.shape == other.shape and have_one_shape(joined(one, other)) for one, other in pairs(fields))


@cache
def conflicts(one: Field, other: Field) -> bool:
    """Whether two fields with one response key can't be merged."""
    if one.shape != other.shape or not have_one_shape(joined(one, other)):
        return True
    if one.parent != other.parent and one.is_of_object and other.is_of_object:
        return False
    return (one.name, one.arguments) != (other.name, other.arguments) or not can_merge(joined(one, other))


@cache
def can_merge(fields: Fields) -> bool:
    return not any(conflicts(one, other) for one, other in pairs(fields))


def first_conflict(fields: Fields) -> Field | None:
    """The first field whose response key has two fields that can't be merged."""
    found = {one.key for one, other in pairs(fields) if conflicts(one, other)} if not can_merge(fields) else set()
    return next((each for each in fields if each.key in found), None)


# ---- fields of documents


def core(of_type: str) -> str:
    return of_type.strip("[]!")


def shape(schema: Schema, of_type: str) -> str:
    """The type's text, with one name for all composite types."""
    name = core(of_type)
    return of_type.replace(name, "composite") if schema.kinds.get(name) in COMPOSITE else of_type


class DocumentFields:
    """The fields of each set of a document, with those that its fragments have; and the sets, each with its parent type."""

    def __init__(self, document: Document, schema: Schema) -> None:
        self.document, self.schema = document, schema
        self.known: dict[Selection, Field] = {}
        self.sets: list[tuple[Set, str]] = []
        for operation in document.operations:
            self.add_sets(operation.below, schema.root)
        for fragment in document.fragments:
            self.add_sets(fragment.below, fragment.type)

    def add_sets(self, at: Set, parent: str) -> None:
        self.sets.append((at, parent))
        for each in at.selections:
            if each.below:
                self.add_sets(each.below, core(self.schema.field(parent, each.name)) if each.name else each.type or parent)

    def of(self, at: Set | None, parent: str) -> Fields:
        found: list[Field] = []
        for each in at.selections if at else ():
            if each.key:
                found.append(self.field(each, parent))
            elif each.name:
                fragment = self.document.fragment(each.name)
                found += self.of(fragment.below, fragment.type) if fragment else ()
            else:
                found += self.of(each.below, each.type or parent)
        return tuple(dict.fromkeys(found))

    def field(self, each: Selection, parent: str) -> Field:
        if each not in self.known:
            of_type = self.schema.field(parent, each.name)
            arguments = sorted(f"{argument.name}:{argument.value.text}" for argument in each.arguments if argument.value)
            is_of_object = self.schema.kinds.get(parent) == "type"
            of_shape, below = shape(self.schema, of_type), self.of(each.below, core(of_type))
            self.known[each] = Field(len(self.known), each.key, each.name, ",".join(arguments), parent, is_of_object, of_shape, below)
        return self.known[each]


def broken(text: str, schema: str) -> str:
    """`kept`, or the response key and the place of the earliest set of a document that can't be merged."""
    found = []
    fields = DocumentFields(document_of(text), schema_of(schema))
    for at, parent in fields.sets:
        first = first_conflict(fields.of(at, parent))
        if first:
            line, column = map(int, at.place.split(":"))
            found.append(((line, column), first.key))
    return "{1} {0[0]}:{0[1]}".format(*min(found)) if found else "kept"


# ---- fields that a case numbers


def numbers_of(words: list[str]) -> list[int]:
    """The numbers that words say, of which one as `2-5` stands for four."""
    ranges = [(word.split("-")[0], word.split("-")[-1]) for word in words]
    return [number for first, last in ranges for number in range(int(first), int(last) + 1)]


def numbered(lines: list[str]) -> list[Field]:
    """The fields of lines: response key, name, parent (of which Pet is an interface), arguments, type, and the fields below."""
    fields: list[Field] = []
    known: dict[tuple[Field, ...], tuple[Field, ...]] = {}
    for number, line in enumerate(lines):
        key, name, parent, arguments, of_type, *words = line.split()
        below = numbers_of(words)
        if any(member >= number for member in below):
            raise ValueError(f"{max(below)} doesn't come before {number}")
        members = tuple(fields[member] for member in below)
        fields.append(Field(number, key, name, arguments, parent, parent != "Pet", of_type, known.setdefault(members, members)))
    return fields


def table(text: str) -> str:
    """The first member of a set whose response key has two fields that can't be merged; or that a field is below one before it."""
    members, *lines = text.split("\n")
    try:
        fields = numbered([line for line in lines if line])
    except ValueError as error:
        return f"an error: {error}"
    first = first_conflict(tuple(fields[number] for number in numbers_of(members.split())))
    return str(first.number) if first else "-"


def sets_of_table(text: str) -> str:
    """The numbers of the sets, after the fields, in which two fields conflict."""
    lines = text.split("\n")
    fields, sets, found = numbered([line for line in lines if not line.startswith("has ")]), [], []
    for line in lines:
        if line.startswith("has "):
            members = []
            for entry in line.removeprefix("has ").split(", "):
                kind, number = entry.split(" ")
                members += [fields[int(number)]] if kind == "field" else sets[int(number)]
            sets.append(list(dict.fromkeys(members)))
    found = [number for number, members in enumerate(sets) if not can_merge(tuple(members))]
    return str(found)
