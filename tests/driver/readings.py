"""Plain slow readings of the cases of tests/units, which want the same; and of documents, bindings and lines that are made from a case, of
which the program has to tell the same."""

import subprocess
from collections.abc import Callable
from pathlib import Path

from . import readings_data, readings_lexer, readings_merging, readings_types
from .cases import TESTS, Case, asks, cases_of
from .documents import SMALL_SCHEMA, SchemaFault, Server, library, served, server, syntax_of, verdict_on
from .hosts import PROGRAM

UNITS = TESTS / "units" / "data"


# ---- the cases of tests/units


def tokens(text: str) -> str:
    try:
        return f"{len(readings_lexer.tokens_of(text))} tokens"
    except readings_lexer.Fault as fault:
        return str(fault)


def number_of_tokens(text: str) -> str:
    told = tokens(text)
    return told if told.endswith(" tokens") else "a fault"


def value(text: str) -> str:
    [token] = readings_lexer.tokens_of(text)
    return readings_lexer.value_of(token)


def table_of(case: Case) -> str:
    return (case.file.parent / case.over[0]).read_bytes().decode()


# A reading gives nothing of a case that it doesn't read.
READINGS: dict[str, Callable[[Case], str | None]] = {
    "tokens": lambda case: tokens(case.text),
    "number of tokens": lambda case: number_of_tokens(case.text),
    "end": lambda case: f"the end at {readings_lexer.place_of(case.text, len(case.text))}",
    "value": lambda case: value(case.text),
    "table": lambda case: readings_merging.table(case.text),
    "sets of a table": lambda case: readings_merging.sets_of_table(case.text),
    "cut": lambda case: readings_data.cut(case.text),
    "by": lambda case: readings_data.filtered(table_of(case), case.text),
    "by two": lambda case: readings_data.filtered(table_of(case), case.text),
    "by in so many rows": lambda case: readings_data.filtered_rows(case.text),
    "answer": lambda case: readings_data.refusal(case.text),
}


def read_cases(file: Path) -> list[tuple[Case, str]]:
    """The cases of a file that are read plainly, each with what is read."""
    found = []
    for case in cases_of(file):
        reading = READINGS.get(case.asked.split(": ")[-1])
        told = reading(case) if reading else None
        if told is not None:
            found.append((case, told))
    return found


@asks("plain readings")
def plain_readings(case: Case) -> str:
    """Whether the cases of a file of tests/units want what is read plainly; else the first that doesn't."""
    read = read_cases(UNITS / case.text)
    for each, told in read:
        if told != each.wanted:
            return f"line {each.line} wants {each.wanted!r}, and plainly {told!r}"
    return "alike" if read else "no case is read"


@asks("plain readings by the program")
def plain_readings_by_program(case: Case) -> str:
    """Whether the program tells of the texts of a file of tests/units the fault of tokens that is read plainly, or none."""
    read = [(each, tokens(each.text)) for each in cases_of(UNITS / case.text)]
    for each, told in read:
        found = syntax_of(each.text)
        if (found if found.startswith(FAULTS_OF_TOKENS) else "none") != ("none" if told.endswith(" tokens") else told):
            return f"line {each.line}: {found}, and plainly {told!r}"
    return "alike" if read else "no case is read"


FAULTS_OF_TOKENS = ("document too long", "bad ", "unterminated string")


# ---- documents and bindings that are made


def is_kept(asked: Server, document: str, rule: str) -> bool:
    """Whether a document is valid. If it isn't, it breaks this rule."""
    found = verdict_on(asked, document)
    assert found == "valid" or found.startswith(rule), f"{document}: {found}"
    return found == "valid"


@asks("usages")
def usages(case: Case) -> str:
    """How many usages of variables of types at locations of types are allowed as they are read plainly, or the first that isn't."""
    count = 0
    for argument, document, allowed in readings_types.usages(case.text.split(" ")):
        schema = f"enum A{{X}} enum B{{X}} type Query{{f(a:{argument}):K}} type K{{k:Int}}"
        asked = server(schema, "bindings 1\nloader l t\nfield Query.f one l all")
        if is_kept(asked, document, "5.8.5 ") != allowed:
            return f"{argument}, {document}: plainly {allowed}"
        count += 1
    return f"{count} usages"


@asks("overlaps")
def overlaps(case: Case) -> str:
    """How many spreads of a type in a type are possible as they are read plainly, or the first that isn't."""
    count = 0
    for document, possible in readings_types.spreads(case.text.split("\n")):
        if is_kept(served(case), document, "5.5.2.3 ") != possible:
            return f"{document}: plainly {possible}"
        count += 1
    return f"{count} spreads"


BOUND = "bindings 1\nloader last t\nfield Query.a one last all\n"


def told_lines(text: str) -> list[tuple[str, str]] | int:
    """The loaders that lines behind some bindings add, each its name and its table, or the number of the first bad line."""
    try:
        with Server(SMALL_SCHEMA, BOUND + text, library()) as asked:
            return [(loader.name, loader.table) for loader in asked.loaders[1:]]
    except SchemaFault as fault:
        assert fault.in_bindings and fault.number == 8
        return fault.line - BOUND.count("\n")


@asks("lines of up to [0-9]+ parts")
def lines_of_parts(case: Case) -> str:
    """How many texts of up to so many parts, which bars part, say the same by the program and plainly, or the first that doesn't."""
    count = 0
    for text in readings_data.texts_of(case.text.split("|"), int(case.asked.split()[4])):
        told, read = told_lines(text), readings_data.loaders_of(text)
        if told != read:
            return f"{text!r}: {told}, and plainly {read}"
        count += 1
    return f"{count} texts"


# ---- lines of requests that are made


def answers_to(text: str) -> str:
    """The answers of the program to lines, over the world that is built in."""
    return subprocess.run([PROGRAM], input=text.encode(), capture_output=True, check=True).stdout.decode()


@asks("request lines of up to [0-9]+ parts")
def request_lines_of_parts(case: Case) -> str:
    """How many texts of up to so many parts, which bars part, are answered as they are read plainly, or the first that isn't."""
    count = 0
    for text in readings_data.texts_of(case.text.split("|"), int(case.asked.split()[5])):
        told, read = answers_to(text), readings_data.answers_of(text)
        if told != read:
            return f"{text!r}: {told}, and plainly {read}"
        count += 1
    return f"{count} texts"


@asks("numbered request lines")
def numbered_request_lines(case: Case) -> str:
    """Whether each of so many lines, which ask for fields of different names, has its own answer, in order."""
    lines = [f'{{"query":"{{x{number}}}"}}\n' for number in range(int(case.text))]
    places = '"locations":[{"line":1,"column":2}]'
    wanted = [f'{{"errors":[{{"message":"5.3.1 Field Selections: x{number}",{places}}}]}}\n' for number in range(len(lines))]
    return "alike" if answers_to("".join(lines)) == "".join(wanted) else "otherwise"
