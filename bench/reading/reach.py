"""Which files of `specs/` contracts of public functions reach, by what they name and by what these definitions name. The others say how
code finds its results, or serve proofs alone. What a public type or trait shows of itself (`ghost view`, `ghost may_answer`) counts as a
contract, and its invariant doesn't."""
import re
from collections.abc import Callable, Iterable, Iterator

import definitions
from source import Crate, Function, SourceFile, Type, closing, layers

USE = re.compile(r"\bghost use Rattle\.(\w+)\.specs\.([\w.]+?)\.\{([^}]*)\}")
ALIAS = re.compile(r"\bghost use Rattle\.(\w+)\.specs\.([\w.]+) as ([\w-]+)")
SHOWN = re.compile(r"^    ghost (\w+)\s*[:=]\s*(?=\{)", re.MULTILINE)
Functions = Iterable[tuple[SourceFile, Function]]


def texts_of(crate: Crate, functions: Functions, types: dict[str, Type]) -> Iterator[tuple[SourceFile, str]]:
    """The texts of a crate that its callers read: the clauses of its public functions, and what its public types show of themselves."""
    for file, function in functions:
        yield from ((file, clause.text) for clause in function.clauses)
    for file in crate.sources:
        for owner in (own for own in file.owners if own.type in types):
            for it in SHOWN.finditer(file.masked, owner.begin, owner.end):
                if it.group(1) != "invariant":
                    yield file, file.text[it.end() : closing(file.masked, it.end())]


def roots_in(file: SourceFile, text: str) -> Iterator[str]:
    """The definitions that a text of a file names, each as CRATE.FILE.NAME."""
    words = set(definitions.WORD.findall(text))
    for crate, path, names in USE.findall(file.masked):
        for name in names.split(","):
            original, _, alias = name.strip().partition(" as ")
            if (alias or original) in words:
                yield f"{crate}.{path}.{original}"
    for crate, path, alias in ALIAS.findall(file.masked):
        yield from (f"{crate}.{path}.{name}" for name in re.findall(rf"\b{re.escape(alias)}\.([^\s(){{}}\[\],;]+)", text))


def reached_files(
    shown_functions: Callable[[Crate], Functions], shown_types: Callable[[Crate], dict[str, Type]]
) -> set[tuple[str, str]]:
    """The crates and names of the files of `specs/` of which a public contract reaches a definition."""
    files = definitions.read()
    roots: set[str] = set()
    for crate in (crate for _, crates in layers().values() for crate in crates):
        for file, text in texts_of(crate, shown_functions(crate), shown_types(crate)):
            roots.update(roots_in(file, text))
    known = [root for root in sorted(roots) if len(root.split(".")) == 3]
    return {(crate, file) for crate, file, _ in definitions.closure(files, known)}
