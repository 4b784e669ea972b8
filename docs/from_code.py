#!/usr/bin/env python3
"""Writes what the documents say by the code alone: the pages of docs/out/, which aren't committed, and what the documents of docs/ quote.

    docs/from_code.py write      writes both
    docs/from_code.py compare    writes nothing; where a quote differs from what the code says, it prints how and exits with 1

In the documents it writes what stands between the lines `<!-- from the code -->` and `<!-- by hand -->`. All else in them is written by
hand, and stays. The first of these lines has a line `<!-- quoted: WHAT: NAME; NAME -->` below it, which says what is quoted. WHAT is one
of these:

- a file of `specs/`: definitions of it; or a file of `src/`: items of it
- `calls`: the first sentences of the comments of calls, as `server::ClientSession::load`
- `crates`: what the crates of `crates.txt` are for
- `rules`: the queries that break the rules of a section of the GraphQL specification, from below `# Examples` in the rules' comments
- `sections`: what the comments of functions say below a heading of theirs, as `# Headline`. A function that says "As `NAME` says" there
  is listed with the function NAME of its crate

It reads `crates.txt` for the layers, and of each crate the first lines of `src/lib.rt` or `src/main.rt`, its public functions with their
comments and the names of their clauses, its types of errors, and in `specs/` the public definitions with the comments above them."""
import argparse
import difflib
import re
import sys
from collections.abc import Callable, Iterable, Iterator, Sequence
from functools import cache
from pathlib import Path

sys.path.insert(0, str(Path(__file__).resolve().parents[1] / "bench" / "reading"))

from reach import reached_files  # noqa: E402
from source import TOP, Crate, Function, SourceFile, SpecFile, Type, Variant, layers, parts_at_commas  # noqa: E402

DOCS = TOP / "docs"
PAGES = DOCS / "out"
BEGIN, END = "<!-- from the code -->", "<!-- by hand -->"
SHOWN_LINES = 40
OUT = "When out of memory"

LAYERS = layers()
CRATES = {crate.name: crate for _, crates in LAYERS.values() for crate in crates}
ErrorKey = tuple[str, str]  # a crate and a type of errors in it
ByText = dict[str, list[str]]  # functions by what is said of when they fail


# ---- texts


def paragraph(lines: Iterable[str]) -> str:
    """The first paragraph of a comment, as one line."""
    kept: list[str] = []
    for line in lines:
        if not line or line.startswith("#"):
            break
        kept.append(line)
    return " ".join(kept)


def first_sentence(lines: Iterable[str]) -> str:
    text = unlinked(paragraph(lines))
    found = re.match(r"(.+?[.!?])(?=\s+[A-Z`\[(*\"\d]|$)", text)
    return found.group(1) if found else text


def unlinked(text: str) -> str:
    """The text without its links to names of the code, which no document has."""
    named = re.sub(r"\[(`[^`]+`)\](?:\((?!http)[^)]*\))?", r"\1", text)
    return re.sub(r"\[([^\]`]+)\]\((?!http)[^)]*\)", r"\1", named)


def below(lines: Sequence[str], heading: str) -> list[str]:
    """The lines of a comment below a heading of it, up to the next one, without the blank ones."""
    rest = lines[lines.index(f"# {heading}") + 1 :]
    end = next((at for at, line in enumerate(rest) if line.startswith("# ")), len(rest))
    return [line for line in rest[:end] if line]


def cell(text: str) -> str:
    return text.replace("|", "\\|")


def row(*cells: str) -> str:
    return "| " + " | ".join(cell(text) for text in cells) + " |"


def table(head: tuple[str, ...], rows: Iterable[tuple[str, ...]]) -> list[str]:
    return [row(*head), "|" + "---|" * len(head), *(row(*cells) for cells in rows), ""]


def coded(names: Iterable[str]) -> str:
    return ", ".join(f"`{name}`" for name in names)


def link(name: str, path: Path, place: Path) -> str:
    """A link to a file, in a document of a folder."""
    up = "../" * len(place.relative_to(TOP).parts)
    return f"[`{name}`]({up}{path.relative_to(TOP).as_posix()})"


# ---- what is public


def is_program(crate: Crate) -> bool:
    return crate.root.path.stem == "main"


@cache
def is_shown_module(crate: Crate, file: SourceFile) -> bool:
    """Whether the file's module and those around it are public."""
    parts = list(file.path.relative_to(crate.folder / "src").with_suffix("").parts)
    around = crate.root
    for part in parts if file is not crate.root else []:
        if part not in around.shown_modules:
            return False
        around = next(it for it in crate.sources if it.path.stem == part)
    return True


@cache
def shown_types(crate: Crate) -> dict[str, Type]:
    """The public types of a crate, by their names."""
    return {
        kind.name: kind
        for file in crate.sources
        for kind in file.types
        if kind.is_shown and (kind.name in crate.root.shown_names or is_shown_module(crate, file))
    }


@cache
def shown_functions(crate: Crate) -> tuple[tuple[SourceFile, Function], ...]:
    """The functions that other crates, or programs in C, may call."""
    return () if is_program(crate) else tuple((file, it) for file in crate.sources for it in file.functions if is_public(crate, file, it))


def is_public(crate: Crate, file: SourceFile, function: Function) -> bool:
    if function.owner:
        return function.is_shown and function.owner in shown_types(crate)
    is_named = function.name in crate.root.shown_names or function.is_foreign
    return function.is_shown and (is_named or is_shown_module(crate, file))


# ---- out/PROOFS.md


def named_clauses(function: Function, kind: str) -> str:
    """The names of a function's clauses of a kind, and how many have none."""
    clauses = [clause for clause in function.clauses if clause.kind == kind]
    nameless = sum(not clause.name for clause in clauses)
    words = [f"`{clause.name}`" for clause in clauses if clause.name]
    return ", ".join(words + ([str(nameless)] if nameless else []))


def kept_by_types(crate: Crate) -> Iterator[str]:
    """What the crate's types keep, and what they promise of the traits that they have."""
    types = shown_types(crate)
    said: dict[str, set[str]] = {}
    for own, names in (promise for file in crate.sources for promise in file.promises):
        if own.type in types and own.of_trait == "Model" and "invariant" in names:
            said.setdefault(own.type, set()).add("an invariant")
        elif own.type in types and own.of_trait not in {"Model", "From", ""}:
            said.setdefault(own.type, set()).add(f"`{own.of_trait}` ({coded(names)})")
    for name, texts in sorted(said.items()):
        yield f"- `{name}`: {', '.join(sorted(texts))}"


def proofs_of(crate: Crate) -> list[str]:
    rows = [
        (f"`{it.path}`", first_sentence(it.documents), named_clauses(it, "requires"), named_clauses(it, "ensures"))
        for _, it in shown_functions(crate)
    ]
    if not rows:
        return []
    types = list(kept_by_types(crate))
    lines = table(("Call", "What it does", "Requires", "Ensures"), rows)
    kept = ["What its types keep, and say of their traits:", "", *types, ""] if types else []
    return [f"### {link(crate.name, crate.root.path, PAGES)}", "", first_sentence(crate.root.heading), "", *lines, *kept]


def by_layer(of_crate: Callable[[Crate], list[str]]) -> list[str]:
    """What is written of each crate, under the layers' titles."""
    lines: list[str] = []
    for title, (_, crates) in LAYERS.items():
        of_layer = [line for crate in crates for line in of_crate(crate)]
        lines += [f"## {title}", "", *of_layer] if of_layer else []
    return lines


def write_proofs() -> list[str]:
    return ["# What each call promises", "", "[PROOFS.md](../PROOFS.md) says how to read this page.", "", *by_layer(proofs_of)]


# ---- out/FAULTS.md


@cache
def types_of(crate: Crate) -> dict[str, Type]:
    return {kind.name: kind for file in crate.sources for kind in file.types}


def home_of(crate: Crate, file: SourceFile, name: str) -> ErrorKey | None:
    """The crate that a type is of, with its name there, as a file of this crate names the type."""
    root = next((root for _, used, root in file.uses if used == name), "crate")
    if root == "std":
        return ("std", name) if name == "AllocError" else None
    if root in CRATES:
        return home_of(CRATES[root], CRATES[root].root, name)
    return (crate.name, name) if name in types_of(crate) else None


def errors_in(result: str) -> Iterator[str]:
    """The names of the types of errors in the type of a function's result."""
    for it in re.finditer(r"\bResult<", result):
        end, depth = it.end(), 1
        while depth:
            depth += (result[end] == "<") - (result[end] == ">" and result[end - 1] not in "-=")
            end += 1
        parts = parts_at_commas(result[it.end() : end - 1])
        if len(parts) == 2 and (found := re.match(r"(?:\w+::)*(\w+)", parts[1])):
            yield found.group(1)


def when_of(function: Function) -> str:
    """What a function's comment says of its errors: below `# Errors`, or from `When out of memory` to the end of that paragraph."""
    if "# Errors" in function.documents:
        return unlinked(" ".join(below(function.documents, "Errors")))
    paragraphs = " ".join(line or "\n" for line in function.documents).split("\n")
    found = next((text[text.index(OUT) :] for text in paragraphs if OUT in text), "")
    return unlinked(found.strip())


def returned() -> dict[ErrorKey, dict[str, ByText]]:
    """For each type of errors, by crate and by what is said of when they come, the functions that return it."""
    found: dict[ErrorKey, dict[str, ByText]] = {}
    for crate in CRATES.values():
        for file, function in shown_functions(crate):
            homes = {home_of(crate, file, name) for name in errors_in(function.result)}
            for home in sorted(home for home in homes if home):
                by_text = found.setdefault(home, {}).setdefault(crate.name, {})
                by_text.setdefault(when_of(function), []).append(function.path)
    return found


def returned_lines(by_crate: dict[str, ByText]) -> list[str]:
    lines = []
    for crate, by_text in by_crate.items():
        lines += [f"- `{crate}`: {coded(names)}" + (f": {text}" if text else "") for text, names in sorted(by_text.items())]
    return ["Returned by:", "", *lines, ""] if lines else []


def printed(kind: Type, variant: Variant) -> str:
    """The texts of a variant: that of `#[error(..)]`, and those that the type's functions give for it."""
    texts = [variant.message, *kind.file.said_of(kind.name).get(variant.name, ())]
    return ", ".join(f"`{text}`" for text in dict.fromkeys(texts) if text)


def fault_lines(key: ErrorKey, kind: Type, by_crate: dict[str, ByText]) -> list[str]:
    head = [f"### `{key[0]}::{key[1]}`", "", unlinked(paragraph(kind.documents)), ""]
    if kind.kind == "struct":
        texts = [text for it in kind.variants if (text := printed(kind, it))]
        return [*head, *(line for text in texts for line in (f"It is printed as {text}.", "")), *returned_lines(by_crate)]
    rows = [(f"`{it.name}`", printed(kind, it), unlinked(" ".join(it.documents))) for it in kind.variants]
    return [*head, *table(("Variant", "Printed as", "When"), rows), *returned_lines(by_crate)]


def faults_of(crate: Crate, found: dict[ErrorKey, dict[str, ByText]]) -> list[str]:
    lines: list[str] = []
    for name, kind in shown_types(crate).items() if not is_program(crate) else ():
        key = (crate.name, name)
        if kind.is_error or key in found:
            lines += fault_lines(key, kind, found.get(key, {}))
    return lines


def unfailing_of(crate: Crate) -> list[str]:
    """The calls of a crate that return no `Result`. A law takes nothing and returns nothing, and C's functions return codes."""
    calls = [it for _, it in shown_functions(crate) if (it.parameters or it.result) and not it.is_foreign]
    names = [it.path for it in calls if "Result<" not in it.result]
    return [f"- `{crate.name}`: {coded(names)}"] if names else []


def write_faults() -> list[str]:
    found = returned()
    lines = ["# Faults", "", "[FAULTS.md](../FAULTS.md) says how to read this page.", ""]
    lines += by_layer(lambda crate: faults_of(crate, found))
    lines += ["## `AllocError` of `std`", "", "Out of memory: an allocation was refused.", ""]
    lines += returned_lines(found.get(("std", "AllocError"), {}))
    lines += ["## Calls that return no `Result`", ""]
    return lines + [line for crate in CRATES.values() for line in unfailing_of(crate)] + [""]


# ---- out/DEFINITIONS.md


def definition_lines(specs: SpecFile) -> list[str]:
    said = [f"- `{it.name}`: {it.comment}" if it.name else f"- _{it.comment}_" for it in specs.definitions if it.comment]
    others = [it.name for it in specs.definitions if not it.comment]
    return [*said, *([f"- without a comment: {coded(others)}"] if others else []), ""]


def spec_lines(crate: Crate, specs: SpecFile) -> list[str]:
    name = specs.path.relative_to(crate.folder / "specs").with_suffix("").as_posix()
    heading = f": {specs.heading}" if specs.heading else ""
    return [f"**{link(name, specs.path, PAGES)}**{heading}", "", *definition_lines(specs)]


@cache
def reached() -> set[tuple[str, str]]:
    return reached_files(shown_functions, shown_types)


def definitions_of(crate: Crate) -> list[str]:
    if not crate.specs:
        return []
    lines = [f"### `{crate.name}`", "", *([crate.specs_heading, ""] if crate.specs_heading else [])]
    far = [it for it in crate.specs if (crate.name, it.path.stem) not in reached()]
    for specs in (it for it in crate.specs if it not in far):
        lines += spec_lines(crate, specs)
    lines += ["No contract of a public function reaches what follows.", ""] if far else []
    return lines + [line for specs in far for line in spec_lines(crate, specs)]


NUMBER = r"\d+(?:\.\d+)*"
CITED = re.compile(rf"""\bsections? ({NUMBER}(?:(?:, "[^"]*")?(?:,| and| to|, and) {NUMBER})*)""")


def sections_in(comment: str) -> Iterator[tuple[int, ...]]:
    """The sections of the GraphQL specification that a comment names."""
    for it in CITED.finditer(comment):
        for number in re.findall(NUMBER, re.sub(r'"[^"]*"', "", it.group(1))):
            yield tuple(int(part) for part in number.split("."))


def section_rows() -> Iterator[tuple[str, str]]:
    """For each section of the specification the files, and the definitions, whose comments name it."""
    found: dict[tuple[int, ...], dict[str, list[str]]] = {}
    for crate in CRATES.values():
        for specs in crate.specs:
            file = f"`{crate.name}`: `{specs.path.stem}`"
            for section in sections_in(specs.heading):
                found.setdefault(section, {}).setdefault(file, [])
            for it in specs.definitions:
                for section in sections_in(it.comment):
                    found.setdefault(section, {}).setdefault(file, []).extend([it.name] if it.name else [])
    for section, files in sorted(found.items()):
        texts = [f"{file} ({coded(dict.fromkeys(names))})" if names else file for file, names in files.items()]
        yield ".".join(map(str, section)), "; ".join(texts)


def write_definitions() -> list[str]:
    head = ["# Each definition", "", "[DEFINITIONS.md](../DEFINITIONS.md) has the main ones, and says how to read this page.", ""]
    head += ["## By the sections of the GraphQL specification", ""]
    head += ["The files, and in them the definitions, whose comments name a section.", ""]
    return [*head, *table(("Section", "Where"), section_rows()), *by_layer(definitions_of)]


# ---- quotes: the crates


def nearest(crate: Crate) -> list[str]:
    """The crates that a crate uses and that no other crate which it uses uses too."""
    further = {name for used in crate.uses for name in CRATES[used].uses}
    return [name for name in crate.uses if name not in further]


def crate_tables() -> str:
    """The tables of the crates of each layer."""
    lines: list[str] = []
    for title, (_, crates) in LAYERS.items():
        rows = [(link(it.name, it.root.path, DOCS), coded(nearest(it)), first_sentence(it.root.heading)) for it in crates]
        lines += [f"### {title}", "", *table(("Crate", "Uses", "What it is for"), rows)]
    return "\n".join(lines).rstrip("\n")


# ---- quotes: code

QUOTED = re.compile(rf"^{BEGIN}\n<!-- quoted: (\S+): ([^\n]+) -->\n.*?^{END}\n", re.MULTILINE | re.DOTALL)


def indent_of(line: str) -> int:
    return len(line) - len(line.lstrip())


def quoted_definition(lines: list[str], name: str) -> list[str]:
    """A definition with its equations, or with all that it is defined with at the same time."""
    named = re.compile(rf"(abbrev )?pub ((data|record) )?{re.escape(name)} ")
    at = next(number for number, line in enumerate(lines) if named.match(line.lstrip()))
    around = next(number for number in range(at, -1, -1) if lines[number] and indent_of(lines[number]) == 0)
    if lines[around].endswith("mutual"):
        ends = (number for number in range(around + 1, len(lines)) if lines[number] and indent_of(lines[number]) == 0)
        return lines[around : next(ends, len(lines))]
    ends = (number for number in range(at, len(lines)) if not lines[number] or indent_of(lines[number]) < indent_of(lines[at]))
    return lines[at : next(ends, len(lines))]


def quoted_item(lines: list[str], name: str) -> list[str]:
    """A constant, or what ends with a brace: a function, a type or an `impl`."""
    named = re.compile(rf"(pub )?((fn|const|struct|enum) {re.escape(name)}\b|{re.escape(name)} \{{)")
    at = next(number for number, line in enumerate(lines) if named.match(line))
    last = ";" if "const" in lines[at] else "}"
    ends = (number for number in range(at, len(lines)) if lines[number] == last or (last == ";" and lines[number].endswith(last)))
    return lines[at : next(ends) + 1]


# ---- quotes: what comments say

EXAMPLE = re.compile(r"\| `.+?` \| `(\d[\d.]*) .+ \|")


def examples_of_rules(section: str) -> str:
    """A table of the queries that break a rule of a section, from below `# Examples` in the comments of the rules' functions."""
    rows: list[tuple[list[int], str]] = []
    for crate in CRATES.values():
        for function in (it for file in crate.sources for it in file.functions if "# Examples" in it.documents):
            text = " ".join(below(function.documents, "Examples"))
            for example in re.sub(r" \| \| `", " |\n| `", text).split("\n"):
                found = EXAMPLE.match(example)
                if found and found.group(1).startswith(f"{section}."):
                    rows.append(([int(part) for part in found.group(1).split(".")], example))
    head = ["| Query | Message | Column | Instead |", "|---|---|---|---|"]
    return "\n".join([*head, *(example for _, example in sorted(rows, key=lambda it: it[0]))])


AS_ANOTHER = re.compile(r"As `([\w:]+)` says")


def section_table(name: str) -> str:
    """A table of what the comments of functions say below a heading, the functions of a crate that say the same in one row."""
    rows: list[tuple[str, str]] = []
    for crate in CRATES.values():
        functions = (it for file in crate.sources for it in file.functions)
        said = {it.path: unlinked(" ".join(below(it.documents, name))) for it in functions if f"# {name}" in it.documents}
        by_text: ByText = {}
        for path, text in said.items():
            other = AS_ANOTHER.fullmatch(text)
            by_text.setdefault(said[other.group(1)] if other else text, []).append(path)
        rows += [(f"`{crate.name}`: {coded(paths)}", text) for text, paths in by_text.items()]
    return "\n".join(table(("Call", name), rows)).rstrip("\n")


def call_table(names: Iterable[str]) -> str:
    """A table of calls, as `server::ClientSession::load`, with the first sentences of their comments."""
    rows: list[tuple[str, str]] = []
    for name in names:
        crate, _, path = name.partition("::")
        function = next(it for file in CRATES[crate].sources for it in file.functions if it.path == path and it.is_shown)
        rows.append((f"`{path}`", first_sentence(function.documents)))
    return "\n".join(table(("Call", "What it does"), rows)).rstrip("\n")


# ---- what is quoted


def quoted_code(path: str, names: Iterable[str]) -> str:
    """Definitions or items of a file, as code in a document."""
    lines = (TOP / path).read_text(encoding="utf-8").split("\n")
    parts = (quoted_item(lines, name) if path.endswith(".rt") else quoted_definition(lines, name) for name in names)
    return "\n\n".join("\n".join(f"    {line}" if line else "" for line in part).rstrip("\n") for part in parts)


def quote(found: re.Match[str]) -> str:
    """What is quoted, between its marker lines."""
    what, names = found.group(1), found.group(2).split("; ")
    match what:
        case "calls":
            text = call_table(names)
        case "crates":
            text = crate_tables()
        case "rules":
            text = examples_of_rules(names[0])
        case "sections":
            text = section_table(names[0])
        case _:
            text = quoted_code(what, names)
    return f"{BEGIN}\n<!-- quoted: {what}: {found.group(2)} -->\n\n{text}\n\n{END}\n"


# ---- writing and comparing

WRITERS: dict[str, Callable[[], list[str]]] = {
    "PROOFS.md": write_proofs,
    "FAULTS.md": write_faults,
    "DEFINITIONS.md": write_definitions,
}


def by_the_code() -> dict[Path, str]:
    """Each document of docs/ that quotes, with what the code says between its marker lines."""
    found: dict[Path, str] = {}
    for path in sorted(DOCS.glob("*.md")):
        old = path.read_text(encoding="utf-8")
        new, count = QUOTED.subn(quote, old)
        if count != old.count(BEGIN):
            sys.exit(f"docs/{path.name}: a line `{BEGIN}` without its line `<!-- quoted: WHAT: NAME -->` or `{END}`")
        if count:
            found[path] = new
    return found


def compare(path: Path, new: str) -> bool:
    """Prints how a document differs from what the code says; says whether it is the same."""
    name, old = f"docs/{path.name}", path.read_text(encoding="utf-8")
    differences = list(difflib.unified_diff(old.split("\n"), new.split("\n"), name, f"{name} by the code", lineterm=""))
    for line in differences[:SHOWN_LINES]:
        print(line)
    if len(differences) > SHOWN_LINES:
        print(f"... and {len(differences) - SHOWN_LINES} lines more")
    return not differences


def main() -> int:
    parser = argparse.ArgumentParser(description=__doc__, formatter_class=argparse.RawDescriptionHelpFormatter)
    parser.add_argument("what", choices=("write", "compare"))
    is_written = parser.parse_args().what == "write"
    pages = {PAGES / name: "\n".join(of_page()) for name, of_page in WRITERS.items()}
    documents = by_the_code()
    if is_written:
        PAGES.mkdir(exist_ok=True)
        for path, text in (pages | documents).items():
            path.write_text(text, encoding="utf-8")
        return 0
    are_same = [compare(path, text) for path, text in documents.items()]
    if not all(are_same):
        print("`docs/from_code.py write` writes the documents anew")
    return 0 if all(are_same) else 1


if __name__ == "__main__":
    sys.exit(main())
