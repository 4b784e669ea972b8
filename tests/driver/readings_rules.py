"""Plain slow readings of seven rules of validation: names are compared one by one, and spreads are followed again and again."""

from collections.abc import Callable, Iterable, Iterator

from .readings_tree import Definition, Document, Given, Named, Selection, Set, document_of


def at(place: str) -> tuple[int, ...]:
    return tuple(map(int, place.split(":")))


def earliest(broken: Iterable[Named]) -> str:
    """The name and the place of what breaks a rule first, or `kept`."""
    first = min(broken, key=lambda name: at(name.place), default=None)
    return f"{first.name} {first.place}" if first else "kept"


def repeated(lists: Iterable[Iterable[Named]]) -> str:
    """The earliest name that stands twice in a list."""
    found: list[Named] = []
    for names in map(list, lists):
        found += [name for number, name in enumerate(names) if any(name.name == before.name for before in names[:number])]
    return earliest(found)


# ---- the parts of a document


def selections(at_set: Set | None) -> Iterator[Selection]:
    """The selections of a set, and those below them."""
    for each in at_set.selections if at_set else ():
        yield each
        yield from selections(each.below)


def directive_lists(document: Document) -> Iterator[tuple[Given, ...]]:
    for definition in document.operations + document.fragments:
        yield from directive_lists_of(definition)


def directive_lists_of(definition: Definition) -> Iterator[tuple[Given, ...]]:
    yield definition.directives
    yield from (variable.directives for variable in definition.variables)
    yield from (each.directives for each in selections(definition.below))


def argument_lists_of(definition: Definition) -> Iterator[tuple[Given, ...]]:
    yield from (each.arguments for each in selections(definition.below))
    yield from (directive.arguments for directives in directive_lists_of(definition) for directive in directives)


def uses(definition: Definition) -> Iterator[Named]:
    """The variables that a definition uses by itself."""
    for arguments in argument_lists_of(definition):
        yield from (use for argument in arguments if argument.value for use in argument.value.uses)


def reached(document: Document, operation: Definition) -> list[Definition]:
    """An operation, and the fragments that it reaches by spreads: as many passes as there are fragments."""
    found = [operation]
    for _ in document.fragments:
        names = {each.name for definition in found for each in selections(definition.below) if not each.key}
        found = [operation, *(fragment for fragment in document.fragments if fragment.name in names)]
    return found


# ---- the rules


def undefined(document: Document) -> str:
    """The earliest use that an operation reaches without defining its variable."""
    found: list[Named] = []
    for operation in document.operations:
        defined = [variable.name for variable in operation.variables]
        found += [use for definition in reached(document, operation) for use in uses(definition) if use.name not in defined]
    return earliest(found)


def unused(document: Document) -> str:
    """The earliest variable whose operation reaches no use of it."""
    found: list[Named] = []
    for operation in document.operations:
        used = [use.name for definition in reached(document, operation) for use in uses(definition)]
        found += [variable for variable in operation.variables if variable.name not in used]
    return earliest(found)


def argument_lists(document: Document) -> Iterator[tuple[Given, ...]]:
    for definition in document.operations + document.fragments:
        yield from argument_lists_of(definition)


RULES: dict[str, Callable[[Document], str]] = {
    "Operation Name Uniqueness": lambda document: repeated([[each for each in document.operations if each.name]]),
    "Argument Uniqueness": lambda document: repeated(argument_lists(document)),
    "Fragment Name Uniqueness": lambda document: repeated([document.fragments]),
    "Directives Are Unique Per Location": lambda document: repeated(directive_lists(document)),
    "Variable Uniqueness": lambda document: repeated(operation.variables for operation in document.operations),
    "All Variable Uses Defined": undefined,
    "All Variables Used": unused,
}


def readings(text: str) -> dict[str, str]:
    """What each rule tells of a document."""
    document = document_of(text)
    return {title: rule(document) for title, rule in RULES.items()}
