"""Runs of the built program `query_cli`: the words of a command line, files and standard input, and what is told of them.

Told is what a run writes to standard output; each file that it makes or changes, behind a line `file NAME`; and its status, with what
standard error gets. Of the words in which `clap` refuses a command line only the first line is told."""

import json
import os
import re
import select
import shutil
import subprocess
from collections.abc import Iterator, Mapping, Sequence
from contextlib import ExitStack, contextmanager
from dataclasses import dataclass, field
from pathlib import Path
from tempfile import TemporaryDirectory
from typing import IO, Any

from .cases import CASES, TOP, Case, CaseError, as_bytes, asks
from .devices import Endless, closed_output, failing_input, with_memory, with_room, write_by_bytes
from .request_lines import changes_of, fronts_of, read_line, written

PROGRAM = "RUDZKVANO_PROGRAM"
FILES = CASES / "files"
INPUT = "standard-input"
MOST_SECONDS = 120
MOST_WAIT = 20  # seconds until an answer is there
MOST_LINES = 20_000  # that a run is given whose threads are counted
NO_REQUEST = b'{"errors":[{"message":"not a request"}]}'


def program() -> str:
    """The path of the built program."""
    path = Path(os.environ.get(PROGRAM, TOP / "crates" / "query_cli" / "out" / "query_cli"))
    if not path.is_file():
        raise CaseError(f"there is no program {path}")
    return str(path.resolve())


# ---- files of a case


@dataclass(frozen=True)
class Given:
    """A file that stands in a case: its name, its text, and how it is there: `5 times`, `without end` or `that is a folder`; standard input
    may be one `that fails` behind its text."""

    name: str
    how: str
    text: bytes

    def lay(self, folder: Path) -> Endless | None:
        """Puts it in a folder. A text that is given to a name once more stands behind the first."""
        path = folder / self.name
        if self.how == "that is a folder":
            path.mkdir()
        elif self.how == "without end":
            endless = Endless(self.text)
            path.symlink_to(endless.path)
            return endless
        else:
            add(path, self.text, int(self.how.removesuffix(" times") or 1))
        return None


def add(path: Path, text: bytes, times: int) -> None:
    with path.open("ab") as file:
        for _ in range(times):
            file.write(text)


def given_of(part: str) -> Given:
    head, _, text = part.partition("\n")
    name, _, how = head.partition(" ")
    return Given(name, how, as_bytes(text))


def given_files(text: str) -> list[Given]:
    """The files of a text: each begins with a line `file NAME`, behind which its text stands."""
    return [given_of(part) for part in text.split("\nfile ")[1:]]


def over_texts(case: Case, suffix: str) -> list[str]:
    """The texts of the files with a suffix that a case goes by."""
    return [case.file_text(number).rstrip() for number, name in enumerate(case.over) if name.endswith(suffix)]


def text_with_words(case: Case) -> str:
    """The text of a case, behind the words that it goes by."""
    return "\n".join([*over_texts(case, ".words"), case.text])


def files_of(case: Case) -> list[Given]:
    """The files that stand in a case, and those that it goes by and doesn't give itself."""
    own = given_files(text_with_words(case))
    names = {given.name for given in own}
    return [*own, *(given for text in over_texts(case, ".files") for given in given_files(f"\n{text}") if given.name not in names)]


def copy_named(words: Sequence[bytes], folder: Path) -> None:
    """Copies the files of tests/cases/files that words name."""
    for word in words:
        for name in (os.fsdecode(word), os.fsdecode(word.partition(b"=")[2])):
            if name and "/" not in name and (FILES / name).is_file():
                shutil.copyfile(FILES / name, folder / name)


# ---- runs


@dataclass(frozen=True)
class Run:
    """What is run: the words of the command line, the files of the case, and how its devices are."""

    words: Sequence[bytes]
    given: Sequence[Given] = ()
    room: int | None = None  # the bytes that standard output takes
    file_room: int | None = None  # the bytes that a file which the run makes takes
    memory: int | None = None
    output: str = ""  # a device for standard output, or `closed`
    by_bytes: bool = False  # standard input comes byte by byte

    @property
    def input(self) -> Given:
        found = [given for given in self.given if given.name == INPUT]
        return found[0] if found else Given(INPUT, "", b"")


@dataclass(frozen=True)
class Ended:
    """How a run ended: its status, what it wrote, and the files that it made or changed."""

    status: int
    output: bytes
    error: bytes
    made: Mapping[str, bytes] = field(default_factory=dict)

    def end(self) -> str:
        lines = self.error.decode().removesuffix("\n").split("\n") if self.error else []
        told = lines[:1] if self.status == 2 else lines
        return "\n".join([", ".join([f"status {self.status}", *told[:1]]), *told[1:]])

    def told(self) -> str:
        files = "".join(f"file {name}\n{text.decode()}" for name, text in sorted(self.made.items()))
        return f"{self.output.decode()}{files}{self.end()}"


def limits_of(run: Run) -> dict[str, Any]:
    """What starts a process with the limits of a run. Whoever writes over a limit gets a fault, and no signal."""
    if run.memory is not None:
        return {"preexec_fn": with_memory(run.memory)}
    room = run.room if run.room is not None else run.file_room
    return {} if room is None else {"preexec_fn": with_room(room), "restore_signals": False}


def output_of(run: Run, folder: Path, stack: ExitStack) -> int | IO[bytes]:
    """Standard output: a pipe, or a device of its own."""
    if run.room is not None:
        return stack.enter_context((folder / "standard-output").open("wb"))
    if run.output == "closed":
        return stack.enter_context(closed_output())
    return stack.enter_context(open(run.output, "wb")) if run.output else subprocess.PIPE


def started(run: Run, folder: Path, endless: Sequence[Endless], stack: ExitStack) -> subprocess.Popen[bytes]:
    fails = run.input.how == "that fails"
    process = subprocess.Popen(
        [program(), *run.words],
        cwd=folder,
        stdin=stack.enter_context(failing_input(run.input.text)) if fails else subprocess.PIPE,
        stdout=output_of(run, folder, stack),
        stderr=subprocess.PIPE,
        pass_fds=[each.reads for each in endless],
        **limits_of(run),
    )
    for each in endless:
        each.start()
    return process


def communicated(run: Run, process: subprocess.Popen[bytes]) -> tuple[bytes, bytes]:
    """What a process writes to standard output, if that is a pipe, and to standard error."""
    text = None if run.input.how == "that fails" else run.input.text
    if run.by_bytes and process.stdin:
        write_by_bytes(process.stdin.fileno(), run.input.text)
        text = None
    try:
        output, error = process.communicate(text, timeout=MOST_SECONDS)
    except subprocess.TimeoutExpired as late:
        process.kill()
        raise CaseError(f"no end within {MOST_SECONDS} seconds") from late
    return output or b"", error


def contents(folder: Path) -> dict[str, bytes]:
    return {path.name: path.read_bytes() for path in folder.iterdir() if path.is_file() and not path.is_symlink()}


@contextmanager
def laid(run: Run) -> Iterator[tuple[Path, list[Endless]]]:
    """A folder with the files of a run."""
    with TemporaryDirectory() as name:
        folder = Path(name)
        copy_named(run.words, folder)
        own = [given for given in run.given if given.name != INPUT]
        for given in own:
            (folder / given.name).unlink(missing_ok=True)
        endless = [given.lay(folder) for given in own]
        yield folder, [each for each in endless if each]


def ended(run: Run) -> Ended:
    """Runs the program, in a folder of its own."""
    with laid(run) as (folder, endless), ExitStack() as stack:
        before = contents(folder)
        process = started(run, folder, endless, stack)
        output, error = communicated(run, process)
        after = contents(folder)
    output = after.pop("standard-output", output)
    made = {name: text for name, text in after.items() if before.get(name) != text}
    return Ended(process.returncode, output, error, made)


def words_of(line: str) -> list[bytes]:
    return [as_bytes(word) for word in line.split()]


def answers(schema: Path, bindings: Path, tables: Mapping[str, Path], lines: bytes, *options: str) -> bytes:
    """What the program answers to request lines over files, with further options."""
    words = ["--schema", str(schema), "--bindings", str(bindings), *options, "/dev/stdin"]
    words += [f"{name}={path}" for name, path in tables.items()]
    done = subprocess.run([program(), *words], input=lines, capture_output=True, timeout=MOST_SECONDS)
    if done.returncode or done.stderr:
        raise CaseError(f"status {done.returncode}: {done.stderr.decode()}")
    return done.stdout


# ---- whole runs


def run_of(case: Case, **devices: Any) -> Run:
    """The run of a case: the words stand in its first line, and its files behind that."""
    return Run(words_of(text_with_words(case).partition("\n")[0]), files_of(case), **devices)


@asks(r"run")
def report_run(case: Case) -> str:
    return ended(run_of(case)).told()


@asks(r"run with room for \d+")
def report_narrow_run(case: Case) -> str:
    return ended(run_of(case, room=int(case.asked.rpartition(" ")[2]))).told()


@asks(r"run with room for \d+ in a file")
def report_cut_run(case: Case) -> str:
    return ended(run_of(case, file_room=int(case.asked.split()[-4]))).told()


@asks(r"run with \d+ MiB of memory")
def report_small_run(case: Case) -> str:
    return ended(run_of(case, memory=int(case.asked.split()[2]) << 20)).told()


@asks(r"run to (closed|/dev/full)")
def report_lost_run(case: Case) -> str:
    return ended(run_of(case, output=case.asked.rpartition(" ")[2])).told()


@asks(r"run in \d+ ways")
def report_ways(case: Case) -> str:
    """The first lines of the case have the words, a line for each way: what the last one tells, if all tell the same."""
    lines = text_with_words(case).split("\n")[: int(case.asked.split()[2])]
    told = [ended(Run(words_of(words), files_of(case))).told() for words in lines]
    for words, one in zip(lines, told):
        if one != told[-1]:
            return f"{words}: {one}"
    return told[-1]


@asks(r"run alike with workers")
def report_alike(case: Case) -> str:
    """What a run without workers tells, if with each limit on the keys of a batch all numbers of workers tell and trace the same."""
    plain = run_of(case)
    for limit in ([], ["--max-batch", "1"], ["--max-batch", "2"]):
        traced = [*plain.words, *map(os.fsencode, limit), b"--trace", b"trace"]
        in_turn = ended(Run(traced, plain.given)).told()
        for workers in (b"1", b"2", b"4", b"16"):
            told = ended(Run([*traced, b"--workers", workers], plain.given)).told()
            if told != in_turn:
                return f"with {workers.decode()} workers and {limit}: {told}"
    return ended(plain).told()


# ---- lines that are served


def limits(case: Case) -> list[str]:
    """The words for the limits that a case sets: on the bytes of an answer, and on the work of a line."""
    options = {"--max-answer": r" within (\d+)", "--max-work": r" of (\d+) work"}
    found = {option: re.search(limit, case.asked) for option, limit in options.items()}
    return [word for option, limit in found.items() if limit for word in (option, limit[1])]


def sample_words(*options: str) -> list[bytes]:
    """The words of a run that serves standard input over the files of the sample world."""
    words = (FILES / "sample.words").read_text().replace("requests.jsonl", "/dev/stdin").split()
    return [os.fsencode(word) for word in [*options, *words]]


def serving(case: Case, text: bytes, how: str = "", **devices: Any) -> Run:
    """A run over the sample world, the one in the program or, if there is a limit, the one in files."""
    words = limits(case)
    return Run(sample_words(*words) if words else [], [Given(INPUT, how, text)], **devices)


def served(run: Run) -> str:
    """What is written, and behind it how it ended where it didn't come to the end."""
    done = ended(run)
    return done.output.decode() if done.status == 0 and not done.error else done.told()


@asks(r"serve( within \d+)?( of \d+ work)?")
def report_lines(case: Case) -> str:
    return served(serving(case, as_bytes(case.text)))


@asks(r"serve by bytes")
def report_bytes(case: Case) -> str:
    return served(serving(case, as_bytes(case.text), by_bytes=True))


@asks(r"serve the lines")
def report_devices(case: Case) -> str:
    """How many bytes of the answers in the second file are written where the lines of the first are served, and how that ended."""
    room, _, fails = case.text.removeprefix("room for ").partition(", ")
    done = ended(serving(case, case.file_bytes(0), "that fails" if fails else "", room=int(room)))
    of = "" if case.file_bytes(1).startswith(done.output) else " of other answers"
    return f"{len(done.output)} bytes{of}, {done.end()}"


def next_line(process: subprocess.Popen[bytes]) -> bytes:
    """The next line that a process writes, if it comes soon."""
    assert process.stdout
    if not select.select([process.stdout], [], [], MOST_WAIT)[0]:
        process.kill()
        raise CaseError(f"no answer within {MOST_WAIT} seconds")
    return process.stdout.readline()


def in_turn(process: subprocess.Popen[bytes], lines: Sequence[bytes], trace: Path) -> Iterator[str]:
    """Each answer, which is awaited before the next line is written, and how many lines the trace has by then, if there is one."""
    assert process.stdin and process.stdout
    for line in lines:
        process.stdin.write(line + b"\n")
        process.stdin.flush()
        yield next_line(process).decode()
        if trace.exists():
            yield f"{len(trace.read_bytes().splitlines())} traced\n"
    process.stdin.close()
    yield process.stdout.read().decode()


@asks(r"serve in turn( with .*)?")
def report_turns(case: Case) -> str:
    options = case.asked.partition(" with ")[2].split()
    run = Run(sample_words(*options) if options else [])
    with laid(run) as (folder, _):
        pipe = subprocess.PIPE
        process = subprocess.Popen([program(), *run.words], cwd=folder, stdin=pipe, stdout=pipe, stderr=subprocess.STDOUT, bufsize=0)
        told = "".join(in_turn(process, as_bytes(case.text).split(b"\n"), folder / "trace"))
        return f"{told}status {process.wait(MOST_SECONDS)}"


@asks(r"most threads with \d+ workers")
def report_threads(case: Case) -> str:
    """The most threads that a run is seen to have while it answers the line again and again: it is looked at until it has one for each
    worker, and then as often again."""
    workers = int(case.asked.split()[3])
    words = sample_words("--max-batch", "1", "--workers", str(workers))
    line = as_bytes(case.text) + b"\n"
    with laid(Run(words)) as (folder, _), TemporaryDirectory() as room:
        lines = Path(room) / "lines"
        lines.write_bytes(MOST_LINES * line)
        with lines.open("rb") as given:
            process = subprocess.Popen([program(), *words], cwd=folder, stdin=given, stdout=subprocess.DEVNULL, stderr=subprocess.DEVNULL)
        try:
            seen = [0]
            while max(seen) < workers and process.poll() is None:
                seen.append(threads_of(process.pid))
            seen += [threads_of(process.pid) for _ in seen]
        finally:
            process.kill()
            process.wait()
        return str(max(seen))


def threads_of(process: int) -> int:
    try:
        return len(os.listdir(f"/proc/{process}/task"))
    except FileNotFoundError:
        return 0


# ---- request lines


def request_answers(lines: Sequence[bytes]) -> list[bytes]:
    """What is answered to request lines over a table of which the rows `a` and `b` show which query was read."""
    table = {"rows": FILES / "request.csv"}
    text = b"".join(line + b"\n" for line in lines)
    return answers(FILES / "request.graphql", FILES / "request.bindings", table, text).split(b"\n")[:-1]


def is_read_alike(line: bytes, answer: bytes, plain: bytes) -> bool:
    """Whether a line is answered as what `json` reads of it, and refused where that is no request."""
    return answer == plain and (read_line(line) is not None or answer == NO_REQUEST)


@asks(r"request")
def report_request(case: Case) -> str:
    """The answer to a line; or else the first of its fronts and changes that isn't answered as what `json` reads of it."""
    line = as_bytes(case.text)
    lines = [line, *fronts_of(line), *changes_of(line)]
    found = request_answers(lines)
    plain = request_answers([written(read_line(each)) for each in lines])
    for each, answer, other in zip(lines, found, plain, strict=True):
        if not is_read_alike(each, answer, other):
            return f"{answer.decode()} to {each!r}"
    return found[0].decode()


@asks(r"request of several lines")
def report_request_lines(case: Case) -> str:
    return b"\n".join(request_answers(as_bytes(case.text).split(b"\n"))).decode()


@asks(r"fronts of a request")
def report_fronts(case: Case) -> str:
    """The answer to a line behind the first of its fronts that is a request too, or `none` where none of them is."""
    line = as_bytes(case.text)
    *found, last = request_answers([*fronts_of(line), line])
    asked = [f"{len(front)} bytes" for front, answer in zip(fronts_of(line), found, strict=True) if answer != NO_REQUEST]
    return f"{asked[0] if asked else 'none'}, and at last {last.decode()}"


# ---- worlds


def world_words(line: str) -> list[str]:
    """The words of a run over the world of a line `LIMIT SCHEMA BINDINGS [NAME=F]..`, whose requests are standard input."""
    limit, schema, bindings, *tables = line.split(" ")
    limits = [] if limit == "-" else ["--max-batch", limit]
    return ["--explain", *limits, "--schema", schema, "--bindings", bindings, "/dev/stdin", *tables]


def world_run(line: str, given: Sequence[Given], query: str) -> Ended:
    request = json.dumps({"query": query}).encode()
    return ended(Run([os.fsencode(word) for word in world_words(line)], [*given, Given(INPUT, "", request)]))


@asks(r"world")
def report_world(case: Case) -> str:
    """The name of a world's root type, or why there is no world."""
    return world_run(case.text.partition("\n")[0], given_files(case.text), "{__typename}").told()


@asks(r"both worlds")
def report_both(case: Case) -> str:
    """What is answered to a query over the world that is built into the program, if that over the same world in files is the same."""
    request = Given(INPUT, "", json.dumps({"query": case.text}).encode())
    built_in, files = (served(Run(words, [request])) for words in ([], sample_words()))
    return built_in.removesuffix("\n") if built_in == files else f"{built_in}and over files {files}"


SEEN = "type Query { rows(one: ID, two: ID): [Row] } type Row { text: String }"


def key_of(text: str) -> tuple[str, str]:
    """How a field's line says a key that is written so, and the field's arguments."""
    if text == "all":
        return "all", ""
    if pair := re.fullmatch(r"\((.*),(.*)\)", text):
        return "arg one and arg two", f'(one:"{pair[1]}",two:"{pair[2]}")'
    return "arg one", f'(one:"{text}")'


@asks(r"loaded")
def report_loaded(case: Case) -> str:
    """The texts in a column of a key's rows by a loader, as a field over it gives them: each ended by `;`, with `-` for null."""
    line = case.file_text(0).rstrip()
    column, key, loader = re.split(" of | by ", case.text)
    limit, _, bindings, *tables = line.split(" ")
    loaders = [each for each in (FILES / bindings).read_text().splitlines() if not each.startswith("field ")]
    written_key, arguments = key_of(key)
    lines = [*loaders, f"field Query.rows many {loader} {written_key}", f"field Row.text column {column}"]
    given = [Given("seen.graphql", "", SEEN.encode()), Given("seen.bindings", "", "\n".join(lines).encode())]
    done = world_run(" ".join([limit, "seen.graphql", "seen.bindings", *tables]), given, f"{{rows{arguments}{{text}}}}")
    if done.status:
        return done.told()
    rows = json.loads(done.output)["data"]["rows"]
    return "".join(f"{'-' if row['text'] is None else row['text']};" for row in rows)
