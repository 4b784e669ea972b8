"""Files of cases: each case is a text beside what is wanted of it."""

import re
from collections.abc import Callable, Iterator
from dataclasses import dataclass
from pathlib import Path

TESTS = Path(__file__).resolve().parent.parent
TOP = TESTS.parent
CASES = TESTS / "cases"

COMMENT, ASK, OVER, WANTED = "#", "ask ", "over ", "=> "
REPEATED = re.compile(r"‹(\d+)×([^›]*)›")
SYMBOLS = {0x2400 + code: code for code in range(0x21)} | {0x2421: 0x7F, 0x2422: 0xFEFF, 0x2205: None}


class CaseError(Exception):
    """A file of cases, or a case, that can't be read."""


@dataclass(frozen=True)
class Case:
    file: Path
    line: int  # from 1, that on which what is wanted begins
    asked: str  # the words of the last `ask`
    over: tuple[str, ...]  # the names of the last `over`
    text: str
    wanted: str

    def file_text(self, number: int) -> str:
        """The text of a file that the case goes by, from 0."""
        return self.file_bytes(number).decode()

    def file_bytes(self, number: int) -> bytes:
        if number >= len(self.over):
            raise CaseError("no file to go by")
        return (self.file.parent / "files" / self.over[number]).read_bytes()


def plain(written: str) -> str:
    """The text that is written so in a case: `␊` and the other control pictures stand for their characters, `␠` for a space, `␢` for a
    byte order mark, `∅` for nothing, and `‹3×a›` for `aaa`."""
    return REPEATED.sub(lambda found: int(found[1]) * found[2], written).translate(SYMBOLS)


def as_bytes(text: str) -> bytes:
    """The bytes of a text in which `\\xff` stands for that byte."""
    return text.encode().replace(b"\\xff", b"\xff")


def cases_of(file: Path) -> Iterator[Case]:
    """The cases of a file, in order."""
    asked, over = "", ()
    text: list[str] = []
    last: tuple[int, str, list[str]] | None = None

    def ended() -> Iterator[Case]:
        if last:
            yield Case(file, last[0], asked, over, last[1], "\n".join(last[2]))

    for number, line in enumerate(file.read_text(encoding="utf-8").split("\n"), 1):
        if not line or line.startswith(COMMENT):
            continue
        if line.startswith(WANTED):
            if text:
                yield from ended()
                last, text = (number, plain("\n".join(text)), [plain(line[len(WANTED) :])]), []
            elif last:
                last[2].append(plain(line[len(WANTED) :]))
            else:
                raise CaseError(f"{file}:{number}: => without a text")
        elif line.startswith((ASK, OVER)):
            yield from ended()
            last = None
            if text:
                raise CaseError(f"{file}:{number}: a text without =>")
            if line.startswith(ASK):
                asked = line[len(ASK) :]
            else:
                over = tuple(line[len(OVER) :].split(" "))
        elif " => " in line:
            written, wanted = line.split(" => ", 1)
            yield from ended()
            last, text = (number, plain("\n".join([*text, written])), [plain(wanted)]), []
        else:
            text.append(line)
    if text:
        raise CaseError(f"{file}: the last text has no =>")
    yield from ended()


# ---- what can be asked

Report = Callable[[Case], str]
ASKS: list[tuple[re.Pattern[str], Report]] = []


def asks(words: str) -> Callable[[Report], Report]:
    """Has a function report on the texts of cases whose `ask` is of this pattern."""

    def add(report: Report) -> Report:
        ASKS.append((re.compile(words), report))
        return report

    return add


def report(case: Case) -> str:
    """What is reported of a case."""
    for words, of in ASKS:
        if words.fullmatch(case.asked):
            return of(case)
    raise CaseError(f"nothing can be asked so: {case.asked}")
