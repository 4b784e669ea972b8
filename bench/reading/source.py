"""Reads the code of the crates: functions with their documents and clauses, types with their variants, and definitions with their
comments. It knows Rattle as `rt fmt` lays it out, and no more of it than documents and measures need."""
import re
from bisect import bisect_left
from collections.abc import Iterator
from dataclasses import dataclass
from functools import cached_property
from pathlib import Path

TOP = Path(__file__).resolve().parents[2]

HIDDEN = re.compile(r"""//[^\n]*|\bb?r(#*)".*?"\1|"(?:\\.|[^"\\])*"|'(?:\\[^'\n]+|[^\\'\n])'""", re.DOTALL)
FUNCTION = re.compile(
    r"^[ \t]*(?P<visible>pub(?:\(\w+\))? )?(?:(?:const|async|unsafe) )*(?P<foreign>extern \s*)?fn (?P<name>\w+)", re.MULTILINE
)
OWNER = re.compile(r"^(?P<visible>pub(?:\(\w+\))? )?(?:unsafe )?(?P<kind>impl|trait)\b(?P<head>[^{;]*)\{", re.MULTILINE)
TYPE = re.compile(r"^(?P<visible>pub(?:\(\w+\))? )?(?P<kind>enum|struct|trait) (?P<name>\w+)", re.MULTILINE)
CLAUSE = re.compile(r"\s*(?P<kind>requires|ensures)\b\s*(?P<name>\w*)\s*(?=\{)")
USE = re.compile(r"^(?P<visible>pub )?use (?P<path>[^;]+);", re.MULTILINE)
MODULE = re.compile(r"^(?P<visible>pub )?mod (?P<name>\w+);", re.MULTILINE)
PAIRS = {"(": re.compile(r"[()]"), "[": re.compile(r"[\[\]]"), "{": re.compile(r"[{}]")}
CONTRACT_OR_BODY = re.compile(r"\b(?:requires|ensures)\b|[{;]")
RESULT_END = re.compile(r"\b(?:requires|ensures|where)\b|[{;]")
BODY = re.compile(r"[{;]")


@dataclass(frozen=True)
class Owner:
    """An `impl` or a trait: where it begins and ends, its type, the trait that it is of, and whether its functions are public with it."""

    begin: int
    end: int
    type: str
    of_trait: str
    is_shown: bool


NOBODY = Owner(0, 0, "", "", False)


@dataclass(frozen=True)
class Clause:
    """A `requires` or `ensures` of a function; `name` is empty where it has none."""

    kind: str
    name: str
    text: str
    line: int


@dataclass(frozen=True)
class Function:
    """A function. `owner` is the type of its `impl`, or its trait; `of_trait` is the trait that its `impl` is of."""

    name: str
    owner: str
    of_trait: str
    is_shown: bool
    is_foreign: bool
    documents: tuple[str, ...]
    parameters: tuple[str, ...]
    result: str
    clauses: tuple[Clause, ...]
    body_lines: int
    line: int

    @property
    def path(self) -> str:
        return f"{self.owner}::{self.name}" if self.owner else self.name


@dataclass(frozen=True)
class Variant:
    """A variant of an enum, or the one value of a struct that is an error; `message` is that of `#[error(..)]`."""

    name: str
    message: str
    documents: tuple[str, ...]


@dataclass(frozen=True)
class Type:
    """A type or a trait, in its file."""

    name: str
    kind: str
    is_shown: bool
    is_error: bool
    documents: tuple[str, ...]
    variants: tuple[Variant, ...]
    file: "SourceFile"


def certain(it: re.Match[str] | None) -> re.Match[str]:
    """A match that is there, in files as `rt fmt` lays them out."""
    if it is None:
        raise ValueError("code that isn't laid out by `rt fmt`")
    return it


def closing(masked: str, start: int) -> int:
    """The place of the bracket that closes the one at start."""
    depth = 0
    for it in PAIRS[masked[start]].finditer(masked, start):
        depth += 1 if it.group() == masked[start] else -1
        if depth == 0:
            return it.start()
    raise ValueError(f"a bracket that nothing closes, at {start}")


def parts_at_commas(text: str) -> tuple[str, ...]:
    """The parts between the commas that stand in no bracket."""
    parts, depth, begin = [], 0, 0
    for at, letter in enumerate(text):
        depth += (letter in "([{<") - (letter in ")]}") - (letter == ">" and text[at - 1] not in "-=")
        if letter == "," and depth == 0:
            parts.append(text[begin:at])
            begin = at + 1
    return tuple(part.strip() for part in [*parts, text[begin:]] if part.strip())


class SourceFile:
    """A file of `src/`."""

    def __init__(self, path: Path) -> None:
        self.path = path
        self.text = path.read_text(encoding="utf-8")
        self.lines = self.text.split("\n")
        self.masked = HIDDEN.sub(lambda it: re.sub(r"[^\n]", " ", it.group()), self.text)

    @cached_property
    def line_ends(self) -> list[int]:
        return [it.start() for it in re.finditer("\n", self.text)]

    def line_of(self, at: int) -> int:
        return bisect_left(self.line_ends, at) + 1

    @cached_property
    def heading(self) -> tuple[str, ...]:
        """The lines of `//!` with which the file begins."""
        return tuple(line[3:].strip() for line in self.lines if line.startswith("//!"))

    @cached_property
    def shown_names(self) -> frozenset[str]:
        """The names that the file shows to other crates by `pub use`."""
        return frozenset(name for is_shown, name, _ in self.uses if is_shown)

    @cached_property
    def shown_modules(self) -> frozenset[str]:
        return frozenset(it["name"] for it in MODULE.finditer(self.masked) if it["visible"])

    @cached_property
    def uses(self) -> tuple[tuple[bool, str, str], ...]:
        """Each name that a `use` brings in, with whether it is shown and from which crate it comes."""
        found = []
        for it in USE.finditer(self.masked):
            path = re.sub(r"\s+", " ", it["path"])
            root = path.split("::")[0].strip()
            for name in re.findall(r"(\w+)\s*(?=[,}]|$)", path):
                found.append((bool(it["visible"]), name, root))
        return tuple(found)

    def above(self, line: int) -> tuple[tuple[str, ...], str]:
        """The lines of `///` above a line, and its attributes as one text."""
        documents: list[str] = []
        attributes: list[str] = []
        at = line - 2
        while at >= 0 and self.lines[at].strip() and self.lines[at].strip()[0] in "/#)]":
            stripped = self.lines[at].strip()
            if stripped.startswith("///"):
                documents.insert(0, stripped[3:].strip())
            elif not stripped.startswith("//"):
                attributes.insert(0, stripped)
            at -= 1
        return tuple(documents), " ".join(attributes)

    @cached_property
    def owners(self) -> tuple[Owner, ...]:
        found = []
        for it in OWNER.finditer(self.masked):
            head = re.sub(r"\s+", " ", re.split(r"\bwhere\b", it["head"])[0]).strip()
            end = closing(self.masked, it.end() - 1)
            if it["kind"] == "trait":
                name = certain(re.match(r"\w+", head)).group()
                found.append(Owner(it.start(), end, name, "", it["visible"] == "pub "))
                continue
            plain = without_generics(head).split(" for ")
            found.append(Owner(it.start(), end, last_word(plain[-1]), last_word(plain[0]) if len(plain) > 1 else "", False))
        return tuple(found)

    @cached_property
    def promises(self) -> tuple[tuple[Owner, tuple[str, ...]], ...]:
        """Each `impl` with the names of what it says by `ghost NAME =`."""
        said = re.compile(r"^    ghost (\w+) =", re.MULTILINE)
        found = [(own, tuple(said.findall(self.masked, own.begin, own.end))) for own in self.owners]
        return tuple((own, names) for own, names in found if names)

    @cached_property
    def functions(self) -> tuple[Function, ...]:
        return tuple(self.read_functions())

    def read_functions(self) -> Iterator[Function]:
        behind = 0
        for it in FUNCTION.finditer(self.masked):
            if it.start() < behind:
                continue
            opened = self.opening_of(it.end())
            close = closing(self.masked, opened)
            result, at = self.result_behind(close + 1)
            clauses, at = self.clauses_behind(at)
            behind = closing(self.masked, at) if self.masked[at] == "{" else at
            line = self.line_of(it.start("name"))
            owner = next((own for own in self.owners if own.begin < it.start() < own.end), NOBODY)
            yield Function(
                name=it["name"],
                owner=owner.type,
                of_trait=owner.of_trait,
                is_shown=it["visible"] == "pub " or owner.is_shown,
                is_foreign=bool(it["foreign"]),
                documents=self.above(line)[0],
                parameters=parts_at_commas(self.masked[opened + 1 : close]),
                result=result,
                clauses=tuple(clauses),
                body_lines=max(0, self.text.count("\n", at, behind) - 1),
                line=line,
            )

    def opening_of(self, at: int) -> int:
        """The place of the bracket that opens a function's parameters, behind its generics."""
        depth = 0
        while depth or self.masked[at] != "(":
            depth += (self.masked[at] == "<") - (self.masked[at] == ">" and self.masked[at - 1] not in "-=")
            at += 1
        return at

    def result_behind(self, at: int) -> tuple[str, int]:
        """The type of a function's result, and the place of the first clause or of the body."""
        begin, depth = at, 0
        while depth or not RESULT_END.match(self.masked, at):
            depth += (self.masked[at] in "([") - (self.masked[at] in ")]")
            at += 1
        found = re.sub(r"\s+", " ", self.masked[begin:at]).strip()
        if self.masked.startswith("where", at):
            at = certain(CONTRACT_OR_BODY.search(self.masked, at)).start()
        return found.removeprefix("->").strip(), at

    def clauses_behind(self, at: int) -> tuple[list[Clause], int]:
        """The clauses from a place on, and where the body, or the `;` in its place, stands."""
        clauses = []
        while it := CLAUSE.match(self.masked, at):
            at = closing(self.masked, it.end()) + 1
            begin = it.start("kind")
            clauses.append(Clause(it["kind"], it["name"], self.text[begin:at], self.line_of(begin)))
        return clauses, certain(BODY.search(self.masked, at)).start()

    @cached_property
    def types(self) -> tuple[Type, ...]:
        return tuple(self.read_types())

    def read_types(self) -> Iterator[Type]:
        for it in TYPE.finditer(self.masked):
            documents, attributes = self.above(self.line_of(it.start()))
            head_end = certain(BODY.search(self.masked, it.end())).start()
            is_error = bool(re.search(r"derive\([^)]*\bError\b", attributes)) or any(
                own.type == it["name"] and own.of_trait in {"Error", "StdError"} for own in self.owners
            )
            variants: tuple[Variant, ...] = ()
            if it["kind"] == "enum":
                variants = self.variants_between(head_end + 1, closing(self.masked, head_end))
            elif is_error:
                variants = (Variant(it["name"], message_of(attributes), documents),)
            yield Type(it["name"], it["kind"], it["visible"] == "pub ", is_error, documents, variants, self)

    def variants_between(self, begin: int, end: int) -> tuple[Variant, ...]:
        found = []
        for line in range(self.line_of(begin) + 1, self.line_of(end)):
            if it := re.match(r"    (\w+)", self.lines[line - 1]):
                documents, attributes = self.above(line)
                found.append(Variant(it.group(1), message_of(attributes), documents))
        return tuple(found)

    def said_of(self, name: str) -> dict[str, tuple[str, ...]]:
        """For each variant of a type the texts and numbers that stand behind its arrow in a `match` of the file."""
        arm = re.compile(rf"\b{name}::(\w+)[^=\n]*=>\s*(?:\{{[^{{}}]*?)?(?:write!\(f,\s*)?(?:\"([^\"]*)\"|(-\d+),)")
        said: dict[str, list[str]] = {}
        for variant, text, number in arm.findall(self.text):
            texts = said.setdefault(variant, [])
            if (text or number) not in texts:
                texts.append(text or number)
        return {variant: tuple(texts) for variant, texts in said.items()}


def without_generics(head: str) -> str:
    """The text without what stands between `<` and `>`."""
    kept, depth = [], 0
    for at, letter in enumerate(head):
        depth += letter == "<"
        if depth == 0:
            kept.append(letter)
        depth -= letter == ">" and head[at - 1] not in "-="
    return re.sub(r"\s+", " ", "".join(kept)).strip()


def last_word(path: str) -> str:
    words = re.findall(r"\w+", path)
    return words[-1] if words else ""


def message_of(attributes: str) -> str:
    found = re.search(r"""#\[error\("((?:\\.|[^"\\])*)"\)\]""", attributes)
    return found.group(1) if found else ""


@dataclass(frozen=True)
class Definition:
    """A public definition of `specs/`, with the comment above it. Without a name it is the title of a part of its file."""

    name: str
    comment: str


@dataclass(frozen=True)
class SpecFile:
    """A file of `specs/`: its heading, its definitions in order, and the lines that are no comment, import or blank."""

    path: Path
    heading: str
    definitions: tuple[Definition, ...]
    formulas: tuple[tuple[int, str], ...]


DEFINED = re.compile(r"^(?P<indent> *)(?:(?:abbrev|unfoldable) )*pub (?:(?:abbrev|unfoldable|record|data) )*(?P<name>[^\s:({]+)")
IMPORT = re.compile(r"(?:pub )?(?:use|mod)\b")
BLOCK = re.compile(r"(?:pub )?(?:record|data) ")
TITLE = "-- ----"


def read_specs(path: Path) -> SpecFile:
    lines = path.read_text(encoding="utf-8").split("\n")
    heading, at = comment_from(lines, 0)
    definitions: list[Definition] = []
    formulas: list[tuple[int, str]] = []
    comment, fields_from = "", None
    while at < len(lines):
        line, stripped = lines[at], lines[at].strip()
        if stripped.startswith(TITLE):
            definitions.append(Definition("", stripped.removeprefix(TITLE).strip()))
        elif stripped.startswith("--"):
            comment, at = comment_from(lines, at)
            continue
        at += 1
        if not stripped:
            comment = ""
        if not stripped or stripped.startswith("--") or IMPORT.match(stripped):
            continue
        formulas.append((at, line))
        if fields_from is not None and indent_of(line) <= fields_from:
            fields_from = None
        if fields_from is None and (found := DEFINED.match(line)):
            definitions.append(Definition(found["name"], comment))
            comment = ""
        if fields_from is None and BLOCK.match(stripped):
            fields_from = indent_of(line)
    return SpecFile(path, heading, tuple(definitions), tuple(formulas))


def indent_of(line: str) -> int:
    return len(line) - len(line.lstrip())


def comment_from(lines: list[str], at: int) -> tuple[str, int]:
    """The comment that begins at a line, as one text, and the line behind it."""
    texts = []
    while at < len(lines) and (stripped := lines[at].strip()).startswith("--") and not stripped.startswith(TITLE):
        texts.append(stripped[2:].strip())
        at += 1
    return " ".join(texts), at


@dataclass(frozen=True)
class Crate:
    """A crate with the layer that it is of and the crates of this repository that it uses."""

    name: str
    layer: str
    uses: tuple[str, ...]

    @property
    def folder(self) -> Path:
        return TOP / "crates" / self.name

    @property
    def sources(self) -> tuple[SourceFile, ...]:
        return source_files(self.folder)

    @property
    def root(self) -> SourceFile:
        return next(it for it in self.sources if it.path.parent.name == "src" and it.path.stem in {"lib", "main"})

    @property
    def specs(self) -> tuple[SpecFile, ...]:
        return spec_files(self.folder)


    @property
    def specs_heading(self) -> str:
        """What `specs/Lib.antt` says at its top of all files there."""
        path = self.folder / "specs" / "Lib.antt"
        return comment_from(path.read_text(encoding="utf-8").split("\n"), 0)[0] if path.exists() else ""


READ: dict[Path, tuple] = {}


def source_files(folder: Path) -> tuple[SourceFile, ...]:
    """The files of a crate's `src/`, by their names; read once."""
    key = folder / "src"
    if key not in READ:
        READ[key] = tuple(SourceFile(path) for path in sorted(key.glob("**/*.rt")))
    return READ[key]


def spec_files(folder: Path) -> tuple[SpecFile, ...]:
    """The files of a crate's `specs/` but `Lib.antt`, by their names; read once."""
    key = folder / "specs"
    if key not in READ:
        READ[key] = tuple(read_specs(path) for path in sorted(key.glob("**/*.antt")) if path.name != "Lib.antt")
    return READ[key]


def layers() -> dict[str, tuple[str, tuple[Crate, ...]]]:
    """The layers of `crates.txt`, lowest first: by its title what each says of itself, and its crates. A comment with a blank line behind
    it begins a layer."""
    blocks = re.split(r"\n\s*\n", (TOP / "crates.txt").read_text(encoding="utf-8"))
    rows = [line for line in "\n".join(blocks).split("\n") if line and not line.startswith("#")]
    names = {certain(re.match(r"\w+", row)).group() for row in rows}
    found: dict[str, tuple[str, list[Crate]]] = {}
    title = ""
    for block in blocks:
        lines = block.strip().split("\n")
        if all(line.startswith("#") for line in lines):
            text = " ".join(line[1:].strip() for line in lines)
            title, _, about = text.partition(": ")
            title = title.rstrip(".")
            found[title] = (about, found.get(title, ("", []))[1])
            continue
        for line in (line for line in lines if not line.startswith("#")):
            head, _, uses = line.partition(":")
            name = head.split()[0]
            found[title][1].append(Crate(name, title, tuple(word for word in uses.split() if word in names)))
    return {title: (about, tuple(crates)) for title, (about, crates) in found.items() if crates}
