"""The Rattle program `tests/units`: its cases, and its test functions. `rt try` runs each without proof, and stops where one of
the checks fails that it builds in, as of a place in memory or of an overflow."""

import re
import shutil
import subprocess
import tempfile
from pathlib import Path

from .cases import TESTS, TOP

PARTS = ("cases", "tests")

UNITS = TESTS / "units"
DATA = UNITS / "data"
SECONDS = "900"  # that the built program, or all test functions, may run

CASES_OF_FILE = re.compile(r"^\S+\.txt: (\d+) cases$", re.M)
FAILED_CASE = re.compile(r"^\S+\.txt:\d+: .*$", re.M)
END_OF_CASES = re.compile(r"^(all cases hold|cases that fail: \d+)$", re.M)

PASSED_TEST = re.compile(r"^test \S+ \.\.\. ok$", re.M)
FAILED_TEST = re.compile(r"^test (\S+) \.\.\. (?!ok$)(.*(?:\n    .*)*)$", re.M)
END_OF_TESTS = re.compile(r"^test result: ", re.M)


def lay_out(folder: Path) -> Path:
    """Lays the program beside the other crates in a folder, and returns its place there. In the repository its files have other names,
    since a file `.rt` may stand only in `crates/`."""
    for source in (TOP / "crates").glob("*/src"):
        shutil.copytree(source, folder / source.relative_to(TOP))
    crates, used = (TOP / "crates.txt").read_text(), (UNITS / "crates").read_text()
    (folder / "crates.txt").write_text(f"{crates}\nunits: {used}")
    program = folder / "crates" / "units"
    for source in (UNITS / "src").rglob("*.rt.txt"):
        place = program / source.relative_to(UNITS).with_suffix("")
        place.parent.mkdir(parents=True, exist_ok=True)
        shutil.copyfile(source, place)
    return program


def tried(*words: str) -> subprocess.CompletedProcess[str]:
    """Has `rt try` run the program with these flags and words."""
    with tempfile.TemporaryDirectory(prefix="units-") as folder:
        return subprocess.run(
            ["rt", "try", "--seconds", SECONDS, *words],
            cwd=lay_out(Path(folder)),
            stdin=subprocess.DEVNULL,
            capture_output=True,
            text=True,
            errors="replace",
        )


def end(run: subprocess.CompletedProcess[str]) -> str:
    """The last lines that a run wrote."""
    return "\n".join((run.stdout + run.stderr).strip().split("\n")[-40:])


def failing_cases() -> tuple[int, list[str]]:
    files = sorted(DATA.iterdir())
    data = [word for file in files for word in ("--data", f"{file.name}={file}")]
    run = tried(*data, "--", *(file.name for file in files if file.suffix == ".txt"))
    failed = [f"tests/units/data/{line}" for line in FAILED_CASE.findall(run.stdout)]
    held = sum(map(int, CASES_OF_FILE.findall(run.stdout))) - len(failed)
    if not END_OF_CASES.search(run.stdout) or run.returncode != bool(failed):
        failed.append(f"tests/units: the cases came to no end\n{end(run)}")
    return held, failed


def failing_tests() -> tuple[int, list[str]]:
    run = tried("--test")
    failed = [f"tests/units: {name} {why}" for name, why in FAILED_TEST.findall(run.stdout)]
    held = len(PASSED_TEST.findall(run.stdout))
    if not END_OF_TESTS.search(run.stdout) or (run.returncode and not failed):
        failed.append(f"tests/units: the test functions came to no end\n{end(run)}")
    return held, failed


def failing(part: str) -> tuple[int, list[str]]:
    """How many cases, or test functions, hold, and a text for each that failed."""
    if shutil.which("rt") is None:
        return 0, ["tests/units: the command rt isn't there"]
    return failing_cases() if part == "cases" else failing_tests()
