#!/usr/bin/env python3
"""width.py [--crates] [--over N]: how much a reader of contracts has to take in at once, in `src/` and `specs/` of all crates.

It prints, and with `--crates` for each crate too:

- clauses: how many `requires` and `ensures` functions have (those of closures aren't counted), the columns of their widest lines (median,
  90th percentile, greatest), how many have a line of more than 100 columns, and how many have more than two lines;
- functions: how many clauses those have that have any (median, greatest), and how many functions have more than six clauses, more than
  six parameters (those that C calls aren't counted), or a body of more than 40 lines;
- definitions: the columns of the lines of `specs/`, without comments and imports, and how many have more than 100.

`--over N` lists the places instead: each clause with a line of more than N columns or of more than two lines, each function over one of
the limits above, and each line of `specs/` of more than N columns."""
import argparse
from collections.abc import Iterator
from pathlib import Path

from source import TOP, Crate, Function, SourceFile, layers

COLUMNS, CLAUSES, PARAMETERS, BODY = 100, 6, 6, 40
HEAD = ("crate", "clauses", "median", "90 %", "most", ">100", ">2 lines", "per fn", "most", ">6", "params>6", "body>40")
HEAD += ("specs", "90 %", "most", ">100")


def columns_of(text: str, file: SourceFile, line: int) -> int:
    """The columns of the widest line of a clause, which begins at a line of its file."""
    lines = file.lines[line - 1 : line + text.count("\n")]
    return max(len(it) for it in lines)


def share(numbers: list[int], part: float) -> int:
    """The number below which this part of the numbers stands: 0.5 for the median."""
    return sorted(numbers)[min(len(numbers) - 1, int(part * len(numbers)))] if numbers else 0


def functions_of(crates: list[Crate]) -> Iterator[tuple[SourceFile, Function]]:
    return ((file, function) for crate in crates for file in crate.sources for function in file.functions)


def measured(crates: list[Crate]) -> list[str]:
    """The numbers of some crates, in the order of the head."""
    functions = list(functions_of(crates))
    clauses = [(columns_of(it.text, file, it.line), it) for file, function in functions for it in function.clauses]
    widths = [width for width, _ in clauses]
    counts = [len(function.clauses) for _, function in functions if function.clauses]
    specs = [len(line) for crate in crates for file in crate.specs for _, line in file.formulas]
    numbers = [len(clauses), share(widths, 0.5), share(widths, 0.9), max(widths, default=0)]
    numbers += [sum(width > COLUMNS for width in widths), sum(it.text.count("\n") > 1 for _, it in clauses)]
    numbers += [share(counts, 0.5), max(counts, default=0)]
    numbers += [sum(is_over(function, what) for _, function in functions) for what in ("clauses", "parameters", "body")]
    numbers += [len(specs), share(specs, 0.9), max(specs, default=0), sum(width > COLUMNS for width in specs)]
    return [str(number) for number in numbers]


def is_over(function: Function, what: str) -> bool:
    """Whether a function has more clauses or parameters, or a longer body, than a reader should have to take in."""
    if what == "parameters":
        return len(function.parameters) > PARAMETERS and not function.is_foreign
    return len(function.clauses) > CLAUSES if what == "clauses" else function.body_lines > BODY


def places_over(crate: Crate, most: int) -> Iterator[tuple[Path, int, str]]:
    """The places of a crate that are over a limit, with what is over it."""
    for file, function in functions_of([crate]):
        sizes = {"clauses": len(function.clauses), "parameters": len(function.parameters), "body": function.body_lines}
        for what, size in sizes.items():
            if is_over(function, what):
                yield file.path, function.line, f"{function.path}: {size} {'lines of body' if what == 'body' else what}"
        for it in function.clauses:
            width, lines = columns_of(it.text, file, it.line), it.text.count("\n") + 1
            if width > most or lines > 2:
                yield file.path, it.line, f"{function.path}: {it.kind} {it.name or '(no name)'}: {width} columns, {lines} lines"
    for specs in crate.specs:
        for line, text in specs.formulas:
            if len(text) > most:
                yield specs.path, line, f"{len(text)} columns"


def print_table(rows: list[list[str]]) -> None:
    widths = [max(len(row[column]) for row in rows) for column in range(len(HEAD))]
    for row in rows:
        print(row[0].ljust(widths[0]), *(text.rjust(width) for text, width in zip(row[1:], widths[1:], strict=True)), sep="  ")


def main() -> None:
    parser = argparse.ArgumentParser(description=__doc__, formatter_class=argparse.RawDescriptionHelpFormatter)
    parser.add_argument("--crates", action="store_true", help="a row for each crate too")
    parser.add_argument("--over", type=int, metavar="N", help="list the places")
    words = parser.parse_args()
    crates = [crate for _, of_layer in layers().values() for crate in of_layer]
    if words.over is not None:
        for path, line, text in (place for crate in crates for place in places_over(crate, words.over)):
            print(f"{path.relative_to(TOP)}:{line}: {text}")
        return
    rows = [[crate.name, *measured([crate])] for crate in crates] if words.crates else []
    print_table([list(HEAD), *rows, ["all crates", *measured(crates)]])


if __name__ == "__main__":
    main()
