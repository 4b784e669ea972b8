"""Plain readers of documents and of schemas that are right in their syntax: the trees that other plain readings go by."""

from dataclasses import dataclass, field

from .readings_lexer import Token, tokens_of, value_of


@dataclass(frozen=True)
class Named:
    """A name, with the place that faults of it have."""

    name: str
    place: str


@dataclass(frozen=True)
class Value:
    """A value: what it is, as a text in which equal values are written alike, and the variables in it."""

    text: str
    uses: tuple[Named, ...]


@dataclass(frozen=True)
class Given(Named):
    """An argument with its value, a directive with its arguments, or a variable with its type's text, its default and its directives."""

    value: Value | None = None
    arguments: tuple["Given", ...] = ()
    directives: tuple["Given", ...] = ()
    type: str = ""


@dataclass(eq=False)
class Selection:
    """A field with its response key; a spread, which has no key; or an inline fragment, which has no name either, but may have a type."""

    place: str
    key: str = ""
    name: str = ""
    type: str = ""
    arguments: tuple[Given, ...] = ()
    directives: tuple[Given, ...] = ()
    below: "Set | None" = None


@dataclass(eq=False)
class Set:
    place: str
    selections: list[Selection] = field(default_factory=list)


@dataclass(frozen=True, eq=False)
class Definition(Named):
    """An operation, with its kind in place of a type, or a fragment."""

    type: str
    variables: tuple[Given, ...]
    directives: tuple[Given, ...]
    below: Set


@dataclass
class Document:
    operations: list[Definition] = field(default_factory=list)
    fragments: list[Definition] = field(default_factory=list)

    def fragment(self, name: str) -> Definition | None:
        """The first fragment of a name."""
        return next((fragment for fragment in self.fragments if fragment.name == name), None)


class Reader:
    """Reads tokens from the front."""

    def __init__(self, text: str) -> None:
        self.rest = tokens_of(text)[::-1]

    def is_at(self, *texts: str) -> bool:
        return bool(self.rest) and self.rest[-1].text in texts

    def take(self) -> Token:
        return self.rest.pop()

    def passes(self, text: str) -> bool:
        """Passes a token if it stands next."""
        return self.is_at(text) and bool(self.take())

    def until(self, end: str) -> bool:
        """Whether there is more before the token that ends a list, which is passed."""
        return not self.passes(end)

    def type(self) -> str:
        if self.passes("["):
            item = self.type()
            self.take()
            name = f"[{item}]"
        else:
            name = self.take().text
        return name + "!" if self.passes("!") else name

    def value(self) -> Value:
        token = self.take()
        if token.text == "$":
            name = self.take().text
            return Value(f"${name}", (Named(name, token.place),))
        if token.text == "[":
            items = []
            while self.until("]"):
                items.append(self.value())
            return Value(f"[{','.join(item.text for item in items)}]", sum((item.uses for item in items), ()))
        if token.text == "{":
            members = self.arguments("}")
            texts = sorted(f"{member.name}:{member.value.text}" for member in members if member.value)
            return Value(f"{{{','.join(texts)}}}", sum((member.value.uses for member in members if member.value), ()))
        return Value(repr(value_of(token)) if token.kind in ("Str", "BlockStr") else token.text, ())

    def arguments(self, end: str) -> tuple[Given, ...]:
        arguments = []
        while self.until(end):
            name = self.take()
            self.take()
            arguments.append(Given(name.text, name.place, self.value()))
        return tuple(arguments)

    def optional_arguments(self) -> tuple[Given, ...]:
        return self.arguments(")") if self.passes("(") else ()

    def directives(self) -> tuple[Given, ...]:
        directives = []
        while self.is_at("@"):
            place = self.take().place
            directives.append(Given(self.take().text, place, None, self.optional_arguments()))
        return tuple(directives)


class DocumentReader(Reader):
    def variable(self) -> Given:
        place, name, _ = self.take().place, self.take().text, self.take()
        of_type = self.type()
        default = self.value() if self.passes("=") else None
        return Given(name, place, default, (), self.directives(), of_type)

    def set(self) -> Set:
        found = Set(self.take().place)
        while self.until("}"):
            found.selections.append(self.selection())
        return found

    def selection(self) -> Selection:
        first = self.take()
        if first.text == "...":
            if self.rest[-1].kind == "Name" and not self.is_at("on"):
                return Selection(first.place, name=self.take().text, directives=self.directives())
            of_type = self.take().text and self.take().text if self.is_at("on") else ""
            return Selection(first.place, type=of_type, directives=self.directives(), below=self.set())
        name = self.take().text if self.passes(":") else first.text
        arguments, directives = self.optional_arguments(), self.directives()
        return Selection(first.place, first.text, name, "", arguments, directives, self.set() if self.is_at("{") else None)

    def definition(self, document: Document) -> None:
        if self.is_at("{"):
            place = self.rest[-1].place
            document.operations.append(Definition("", place, "query", (), (), self.set()))
            return
        first = self.take()
        name = "" if self.is_at("(", "@", "{") else self.take().text
        if first.text == "fragment":
            self.take()
            document.fragments.append(Definition(name, first.place, self.take().text, (), self.directives(), self.set()))
            return
        variables = []
        if self.passes("("):
            while self.until(")"):
                variables.append(self.variable())
        document.operations.append(Definition(name, first.place, first.text, tuple(variables), self.directives(), self.set()))


def document_of(text: str) -> Document:
    """The tree of a document."""
    reader, document = DocumentReader(text), Document()
    while reader.rest:
        reader.definition(document)
    return document


@dataclass
class Schema:
    """The kind of each type, and the type of each of its fields, which is a text."""

    kinds: dict[str, str] = field(default_factory=dict)
    fields: dict[tuple[str, str], str] = field(default_factory=dict)
    root: str = "Query"

    def field(self, parent: str, name: str) -> str:
        """The type of a field. That of `__typename`, and of a field of no definition, is `String!`."""
        return self.fields.get((parent, name), "String!")


def schema_of(text: str) -> Schema:
    """What a schema without descriptions says."""
    reader, schema = Reader(text), Schema()
    while reader.rest:
        kind, name = reader.take().text, reader.take().text
        schema.kinds[name] = kind
        while reader.rest and not reader.is_at("{", "type", "interface", "union", "enum", "schema"):
            reader.take()
        if not reader.passes("{"):
            continue
        while reader.until("}"):
            field_name = reader.take().text
            if reader.passes("("):
                while reader.until(")"):
                    reader.take()
            if reader.passes(":"):
                schema.fields[name, field_name] = reader.type()
    return schema
