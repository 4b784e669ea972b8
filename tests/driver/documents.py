"""Cases of documents, schemas and bindings: what the C library says of each, through the Python client, beside plain slow readings."""

import json
import re
import sys
from collections.abc import Callable
from functools import cache
from typing import Any

from . import readings_grammar, readings_merging, readings_rules
from .cases import TOP, Case, asks, plain

sys.path.insert(0, str(TOP / "clients" / "python"))

from rudzkvano import Library, Loader, SchemaFault, Server  # noqa: E402

# docs/USING.md, "Answer lines": what is told of a text that is no document; and of a document that is valid, but not the request.
SYNTAX = ("document too long", "bad ", "unterminated string", "unexpected ", "too deep")
OF_REQUEST = ("no operation named", "operation name needed", "variables must be an object", "bad value for variable")

# docs/BINDINGS.md, "Refusals"
FAULTS = {1: "Syntax", 2: "Duplicate", 3: "UnknownType", 4: "BadImplements", 5: "NoQueryRoot", 6: "ReservedName", 7: "NotServed"}
FAULTS |= {8: "BadBinding", 9: "NoMemory", 10: "BadKind", 11: "BadDefault"}

# docs/VALIDATION.md, "Which fault is reported": what can be told of a document, in order.
ORDER = (
    "not served",
    "5.2.1.1 Operation Name Uniqueness",
    "5.2.2.1 Lone Anonymous Operation",
    "5.3.1 Field Selections",
    "5.3.3 Leaf Field Selections",
    "5.4.1 Argument Names",
    "5.4.2 Argument Uniqueness",
    "5.4.2.1 Required Arguments",
    "5.5.1.1 Fragment Name Uniqueness",
    "5.5.1.2 Fragment Spread Type Existence",
    "5.5.1.3 Fragments On Composite Types",
    "5.5.1.4 Fragments Must Be Used",
    "5.5.2.1 Fragment Spread Target Defined",
    "5.5.2.2 Fragment Spreads Must Not Form Cycles",
    "5.5.2.3 Fragment Spread Is Possible",
    "5.6.1 Values of Correct Type",
    "5.7.1 Directives Are Defined",
    "5.7.2 Directives Are In Valid Locations",
    "5.7.3 Directives Are Unique Per Location",
    "5.8.1 Variable Uniqueness",
    "5.8.2 Variables Are Input Types",
    "5.8.3 All Variable Uses Defined",
    "5.8.4 All Variables Used",
    "5.8.5 All Variable Usages Are Allowed",
    "too many levels",
    "too complex",
    "5.3.2 Field Selection Merging",
    "valid",
)
TITLES = [rule.split(" ", 1)[1] if rule[0].isdigit() else rule for rule in ORDER]

SMALL_SCHEMA = "type Query{a:A} type A{b:Int}"
SMALL_BINDINGS = "bindings 1\nloader l t\nfield Query.a one l all\n"


# ---- verdicts


@cache
def library() -> Library:
    """The built library, or the one that the environment names."""
    return Library()


@cache
def server(schema: str, bindings: str) -> Server:
    return Server(schema, bindings, library())


def served(case: Case) -> Server:
    return server(case.file_text(0), case.file_text(1))


def refusal(response: Any) -> str | None:
    """The message of a refusal with its place, where it has one; nothing of an answer."""
    if "data" in response:
        return None
    [error] = response["errors"]
    places = [f" at {place['line']}:{place['column']}" for place in error.get("locations", ())]
    return error["message"] + "".join(places)


def verdict_on(asked: Server, document: str) -> str:
    """What is wrong with a document, or `valid`."""
    found = refusal(asked.answer(document, {}))
    return "valid" if found is None or found.startswith(OF_REQUEST) else found


@asks("verdict")
def verdict(case: Case) -> str:
    return verdict_on(served(case), case.text)


def rule_of(found: str) -> int:
    """The number in the order of the rule that a verdict is about."""
    return next(number for number, rule in enumerate(ORDER) if found == rule or found.startswith((f"{rule}: ", f"{rule} at ")))


def told_of(title: str, found: str) -> str:
    """What a verdict tells of a rule: `kept` if it is about a later one, and else the name and the place of what breaks it."""
    number = rule_of(found)
    if number > TITLES.index(title):
        return "kept"
    if number < TITLES.index(title):
        return f"hidden by {found}"
    return found.removeprefix(ORDER[number]).removeprefix(": ").replace(" at ", " ")


@asks("rule .+")
def rule(case: Case) -> str:
    """What the verdict tells of a rule. Where it differs from a plain reading of it or of one of the others, that is told."""
    found = verdict_on(served(case), case.text)
    for title, read in readings_rules.readings(case.text).items():
        told = told_of(title, found)
        if told != read and not told.startswith("hidden"):
            return f"{title}: {told}, and plainly {read}"
    return told_of(case.asked.removeprefix("rule "), found)


@asks("field merging")
def field_merging(case: Case) -> str:
    """What the verdict tells of Field Selection Merging, or how it differs from the plain reading."""
    told = told_of("Field Selection Merging", verdict_on(served(case), case.text))
    read = readings_merging.broken(case.text, case.file_text(0))
    return told if told == read else f"{told}, and plainly {read}"


# ---- syntax


def syntax_of(text: str) -> str:
    """The fault of a text that is no document, or `a document`."""
    found = verdict_on(server(SMALL_SCHEMA, SMALL_BINDINGS), text)
    return found if found.startswith(SYNTAX) else "a document"


@asks("document")
def document(case: Case) -> str:
    return syntax_of(case.text)


FAULTS_OF_FRONTS = ("unexpected token", "unexpected end", "unterminated string", "bad character", "bad number")


@asks("fronts")
def fronts(case: Case) -> str:
    """The text, with a mark behind each front of it that is a document. A fault that no front may have stands behind that."""
    marked = []
    for end in range(len(case.text) + 1):
        found = syntax_of(case.text[:end])
        mark = "|" if found == "a document" else "" if found.startswith(FAULTS_OF_FRONTS) else found
        marked.append(case.text[end - 1 : end] + mark)
    return "".join(marked)


def fault_of(schema: str, bindings: str) -> str:
    """The fault of a schema or of bindings, with its place, or `accepted`."""
    try:
        Server(schema, bindings, library()).close()
    except SchemaFault as fault:
        name = f"S{fault.number} {FAULTS[fault.number]}"
        if fault.in_bindings:
            return f"{name} at line {fault.line}"
        return f"{name} at {fault.line}:{fault.column}" if fault.line else name
    return "accepted"


@asks("schema")
def schema(case: Case) -> str:
    """The first fault of a schema, or `a schema`. Bindings that say nothing are told after it."""
    found = fault_of(case.text, "bindings 1\n")
    return "a schema" if found == "S8 BadBinding at line 0" else found


def schema_syntax_of(text: str) -> str:
    """Where a text is no schema or not served, or `a schema`, whatever else is wrong with it."""
    found = fault_of(text, "bindings 1\n")
    if found.startswith(("S1 Syntax at ", "S7 NotServed at ")):
        return found.replace("S1 Syntax", "syntax").replace("S7 NotServed", "not served")
    return "a schema"


@asks("schema syntax")
def schema_syntax(case: Case) -> str:
    return schema_syntax_of(case.text)


def of_words(case: Case, accepted: str, told: Callable[[str], str], compared: Callable[[str], str]) -> str:
    """What is told of words, or of which variant of them it differs from the plain recogniser. `compared`: how much of what is told the
    recogniser knows."""
    grammar = readings_grammar.grammar_of(case.file_text(0))
    for words in readings_grammar.variants(grammar, case.text.split(" ")):
        text = "".join(f"{word} " for word in words)
        found, read = told(text), readings_grammar.fault(grammar, words)
        if compared(found) != (compared(read) if read else accepted):
            return f"of {text}: {found}, and plainly {read}"
    return told(case.text)


@asks("document of words")
def document_of_words(case: Case) -> str:
    return of_words(case, "a document", syntax_of, str)


@asks("schema of words")
def schema_of_words(case: Case) -> str:
    """Of faults the places alone are compared."""
    return of_words(case, "a schema", schema_syntax_of, lambda found: found.split(" at ")[-1])


# ---- bindings


@asks("loader")
def loader(case: Case) -> str:
    """The loader of a number, in the words of its line."""
    found = next((found for found in served(case).loaders if found.number == int(case.text)), None)
    return line_of(found) if found else "-"


def line_of(found: Loader) -> str:
    by = f" by {' '.join(found.columns)}" if found.columns else ""
    return f"loader {found.name} {found.table}{by}{' fold' if found.folds else ''}"


@asks("bindings with another line")
def bindings_with_another_line(case: Case) -> str:
    """The fault of bindings with another line in place of one, or that they are accepted."""
    number, line = case.text.split(": ", 1)
    lines = plain(case.file_text(1)).split("\n")
    return fault_of(case.file_text(0), "\n".join(line if own == int(number) else text for own, text in enumerate(lines, 1)))


def request_of(query: str, name: str | None, variables: str) -> bytes:
    """The JSON text of a request. The variables are JSON as it stands."""
    operation = "" if name is None else f',"operationName":{json.dumps(name)}'
    return f'{{"query":{json.dumps(query)}{operation},"variables":{variables}}}'.encode()


@asks("calls(?: of [^ ]+)?(?: with .+)?")
def calls(case: Case) -> str:
    """The batches that a request asks for, and its answer. Each key has one row, in which the text of a cell is the name of its column."""
    words = re.fullmatch("calls(?: of ([^ ]+))?(?: with (.+))?", case.asked)
    assert words
    row = {column: column for column in re.findall(r"\w+", case.file_text(0) + case.file_text(1))}
    batches: list[str] = []

    def batch(name: str, keys: list[Any]) -> list[Any]:
        batches.append(" ".join([name, *(key if isinstance(key, str) else f"({','.join(key)})" for key in keys)]))
        return [[row]] * len(keys) if keys else (list(row), [list(row.values())])

    asked = served(case)
    functions = {each.name: lambda keys, name=each.name: batch(name, keys) for each in asked.loaders}
    name = None if words[1] is None else plain(words[1])
    answer = asked.answer_text(request_of(case.text, name, words[2] or "null"), functions)
    told = refusal(json.loads(answer)) or answer
    return f"{', '.join(batches)}\n{told}" if batches else told


# ---- values

KEYS = {"Int": "99", "ID": '"99"', "String": '"99"'}  # the types that keys may have, each with a default


def value_of(value: Any) -> str:
    """A value that came back as the key of a row."""
    if isinstance(value, list):
        return f"[{' '.join(map(value_of, value))}]"
    return "null" if value is None else str(value["key"])


def with_default(of_type: str) -> str:
    """A type with a default behind it, if keys may have it."""
    default = KEYS.get(of_type.strip("[]!"))
    if default is None:
        return of_type
    return f"{of_type}=[{default}]" if of_type.startswith("[") else f"{of_type}={default}"


def world_of(fields: dict[str, str]) -> Server:
    """A server of fields that give back their argument, by their names and the types of that. Of arguments that can't be keys they give
    nothing back."""
    lines, types = ["bindings 1", "loader all t", "loader by t by key"], []
    for name, of_type in fields.items():
        form = "all" if of_type.strip("[]!") not in KEYS else "list" if of_type.startswith("[") else "one"
        types.append(f"{name}(of:{with_default(of_type)}):{'[Key]' if form == 'list' else 'Key'}")
        lines.append(f"field Query.{name} " + {"all": "one all all", "list": "each by arg of", "one": "one by arg of"}[form])
    return server(f"enum E{{A B}} type Query{{{' '.join(types)}}} type Key{{key:String}}", "\n".join(lines))


LOADERS = {"by": lambda keys: [[{"key": f'"{key}"'}] for key in keys], "all": lambda keys: (["key"], [["accepted"]])}


@asks("literal")
def literal(case: Case) -> str:
    """The value of a literal as an argument of a type, `accepted` if keys don't have the type, or `wrong`. Of a literal with variables, and
    of one for a list of lists, which only a variable may be, no more is known than that it is `right`."""
    of_type, text = case.text.split(" ", 1)
    is_default, uses = of_type.startswith("[["), re.findall(r"\$\w+", text)
    asked = server(SMALL_SCHEMA, SMALL_BINDINGS) if is_default else world_of({"v": of_type})
    definitions = "".join(f"({use}:{of_type.strip('[]!')}!)" for use in uses)
    query = f"query($v:{of_type}={text}){{a{{b}}}}" if is_default else f"query{definitions}{{v(of:{text}){{key}}}}"
    found = verdict_on(asked, query)
    if found.startswith("5.6.1 "):
        return "wrong"
    if is_default or uses:
        return "right" if rule_of(found) > TITLES.index("Values of Correct Type") else found
    return value_of(asked.answer(query, LOADERS)["data"]["v"])


@asks("variables")
def variables(case: Case) -> str:
    """The value of each variable of a query as the argument of a field, or the refusal. One of type `Boolean!` is seen by a directive."""
    definitions, given = case.text.split(" ", 1)
    types = dict(re.findall(r"\$(\w+):([\[\]!\w]+)", definitions))
    fields = [f"{name}(of:${name}){{key}}" for name in types]
    fields += [f"seen_{name}:__typename@include(if:${name})" for name, of in types.items() if of == "Boolean!"]
    asked = world_of({name: of.removesuffix("!") for name, of in types.items()})
    response = asked.answer(request_of(f"query({definitions}){{{' '.join(fields)}}}", None, given), LOADERS)
    found = refusal(response)
    if found:
        return found
    data = response["data"]
    values = {name: str(f"seen_{name}" in data).lower() if of == "Boolean!" else value_of(data[name]) for name, of in types.items()}
    return " ".join(f"{name}={value}" for name, value in values.items())
