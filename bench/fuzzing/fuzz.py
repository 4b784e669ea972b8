#!/usr/bin/env python3
"""Runs the built program on random input: fuzz.py PROGRAM [--cases N] [--seed S] [--jobs J] [--workers W].

A case is a document, a request line, a schema, a bindings text or a table: of random bytes, of random tokens, a tree of the
grammar, or one of those with a few bytes changed. Documents and request lines go to the program many lines a run, over the
files of examples/; schemas, bindings and tables a run each. A case fails where the program is ended by a signal, doesn't end,
ends with a status that docs/USING.md doesn't name for it, leaves a line without an answer, or writes a line that is no answer.
Each case that fails is written to standard output with what was seen, as short as dropping lines makes it. The last line
counts the cases of each kind and the failures, and the status is 1 where there is one. Equal seeds give equal cases.
"""
import argparse
import collections
import json
import multiprocessing
import os
import random
import subprocess
import sys
import tempfile

EXAMPLES = os.path.join(os.path.dirname(os.path.abspath(__file__)), "..", "..", "examples")
TABLES = ("users", "posts", "named", "likes")
LINES = 20_000  # request lines of one run
SECONDS = 120  # for one run

PUNCTUATORS = ["{", "}", "(", ")", "[", "]", ":", "=", "!", "$", "@", "|", "&", "...", ","]
WORDS = [
    "query", "fragment", "on", "mutation", "subscription", "true", "false", "null", "type", "interface", "union", "enum",
    "schema", "implements", "scalar", "input", "directive", "extend", "skip", "include", "if", "deprecated", "reason",
    "user", "users", "usersByIds", "named", "posts", "liked", "best", "author", "name", "id", "ids", "title", "model",
    "__typename", "__schema", "User", "Post", "Bot", "Named", "Query", "ID", "Int", "String", "Boolean", "Float", "F0", "F1", "A",
]
LITERALS = [
    "0", "1", "2", "-1", "-0", "01", "1.5", "1e9", "1e", "2147483648", "99999999999999999999", '""', '"1"', '"\\u00e9"',
    '"\\ud83d\\ude00"', '"\\ud83d"', '"\\x"', '"a', '"""b"""', '"""', '"""\n  a\n\tb\n"""', "# note\n", "\ufeff", "\n", "\r", " ", "\t", "é",
]
TOKENS = PUNCTUATORS * 3 + WORDS * 2 + LITERALS
FIELDS = {
    "Query": [("user", "(id:1)", "User"), ("usersByIds", "(ids:[1,2,9])", "User"), ("users", "", "User"), ("named", "(id:2)", "Named")],
    "User": [("id", "", None), ("name", "", None), ("best", "", "User"), ("posts", "", "Post"), ("liked", "", "Post")],
    "Named": [("name", "", None), ("__typename", "", None)],
    "Post": [("id", "", None), ("title", "", None), ("author", "", "User")],
    "Bot": [("id", "", None), ("model", "", None)],
}
BINDINGS_WORDS = [
    "bindings", "1", "2", "loader", "field", "one", "each", "many", "via", "by", "fold", "arg", "column", "all", "and", "both", "#", "",
    "userById", "allUsers", "postsByAuthor", "namedById", "likesByUser", "postById", "users", "posts", "named", "likes",
    "Query.user", "Query.usersByIds", "Query.users", "Query.named", "User.best", "User.posts", "User.liked", "Post.author",
    "User.name", "id", "ids", "author", "user", "post", "best", "nope", ".", "User.", "\t",
]
# lines of version 2
BOTH = ("loader both likes by user post", "loader both likes by user post fold", "loader both likes by user user", "loader both likes by user nope")
SECOND = [
    "field User.best one both column id and column best", "field Query.user one both arg id and arg id", "field User.posts many both column id and column id",
    "field User.liked via likesByUser column id postById post userById author", "field User.liked via both column id and column id postById post",
]
CELLS = ["", "1", "2", "3", "Ada", "User", "Bot", "Cat", '"a,b"', '"a""b"', '"a\nb"', '"open', "é", "\x00", "1.0", "-1", "id", "name"]


def selection(draw, parent, depth):
    """A selection set of the grammar, mostly valid over examples/schema.graphql."""
    parts = []
    for _ in range(draw.choice((1, 1, 2, 3))):
        kind = draw.random()
        if kind < 0.1:
            parts.append("..." + draw.choice(("F0", "F1", "F2")))
        elif kind < 0.2 and depth:
            on = draw.choice(("User", "Bot", "Named", "Post", parent))
            parts.append(f"...on {on}" + selection(draw, on, depth - 1))
        elif kind < 0.25 and depth:
            parts.append("..." + directive(draw) + selection(draw, parent, depth - 1))
        else:
            name, arguments, of_type = draw.choice(FIELDS[parent])
            alias = draw.choice(("", "", "", "a:", "name:"))
            below = selection(draw, of_type, depth - 1) if of_type and depth else "{__typename}" if of_type else ""
            parts.append(alias + name + arguments + directive(draw) + below)
    return "{" + " ".join(parts) + "}"


def directive(draw):
    if draw.random() > 0.08:
        return ""
    return draw.choice(("@skip(if:$b)", "@include(if:true)", "@skip(if:false)", "@skip(if:1)", "@nope"))


def tree(draw):
    """A document of the grammar."""
    head = draw.choice(("", "query", "query A", "query A($b:Boolean!=true)", "query($b:Boolean=null)"))
    text = head + selection(draw, "Query", draw.randrange(6))
    for number in range(draw.choice((0, 0, 1, 2))):
        on = draw.choice(("User", "Query", "Named", "Post"))
        text += f" fragment F{number} on {on}" + selection(draw, on, draw.randrange(3))
    return text


def tokens(draw):
    return draw.choice(("", " ")).join(draw.choices(TOKENS, k=draw.randrange(40)))


def changed(draw, text):
    """The text with some characters dropped, doubled or put in."""
    letters = list(text)
    for _ in range(draw.randrange(1, 4)):
        at = draw.randrange(len(letters) + 1)
        letters[at : at + draw.randrange(3)] = draw.choice((draw.choice(TOKENS), "", letters[at : at + 1] * 2))
    return "".join(letters)


def document(draw):
    kind = draw.random()
    if kind < 0.5:
        return tree(draw)
    return changed(draw, tree(draw)) if kind < 0.8 else tokens(draw)


def request(draw):
    """A request object, with members that may be of the wrong kind."""
    members = {"query": document(draw)}
    if draw.random() < 0.5:
        members["variables"] = draw.choice(({}, None, {"b": draw.choice((True, None, 1, "x", []))}, [], 1))
    if draw.random() < 0.2:
        members["operationName"] = draw.choice(("A", "", None, 1))
    if draw.random() < 0.05:
        members["query"] = draw.choice((None, 1, [], {}))
    return json.dumps(members, ensure_ascii=draw.random() < 0.5)


def array(draw):
    """An array of requests, and of values that are none."""
    values = [request(draw) if draw.random() < 0.8 else draw.choice(("1", "null", "[]", "{}", '"a"')) for _ in range(draw.choice((0, 1, 2, 3, 16, 17)))]
    return "[" + ",".join(values) + "]"


def line(draw):
    """A request line without its line feed: bytes, JSON, or JSON with characters changed."""
    kind = draw.random()
    if kind < 0.1:
        return draw.randbytes(draw.randrange(60)).replace(b"\n", b"")
    text = array(draw) if draw.random() < 0.2 else request(draw)
    if kind < 0.25:
        text = changed(draw, text)
    return text.replace("\n", " ").encode("utf-8", "surrogatepass")


def schema(draw):
    whole = EXAMPLE["schema"]
    kind = draw.random()
    if kind < 0.6:
        return changed(draw, whole)
    if kind < 0.8:
        return tokens(draw)
    return " ".join(draw.sample(whole.split(), draw.randrange(len(whole.split()))))


def bindings(draw):
    lines = EXAMPLE["bindings"].split("\n")
    if draw.random() < 0.5:
        lines = ["bindings 2", draw.choice(BOTH), *lines[1:], *draw.sample(SECOND, draw.randrange(3))]
    kind = draw.random()
    if kind < 0.5:
        for _ in range(draw.randrange(1, 3)):
            words = lines[draw.randrange(1, len(lines))].split(" ")
            words[draw.randrange(len(words))] = draw.choice(BINDINGS_WORDS)
            lines.insert(draw.randrange(len(lines) + 1), " ".join(words))
    elif kind < 0.7:
        draw.shuffle(lines)
    elif kind < 0.9:
        return changed(draw, "\n".join(lines))
    else:
        lines = [" ".join(draw.choices(BINDINGS_WORDS, k=draw.randrange(8))) for _ in range(draw.randrange(12))]
    return "\n".join(lines)


def table(draw):
    header = "id,name,best" if draw.random() < 0.7 else ",".join(draw.choices(CELLS, k=draw.randrange(4)))
    rows = [",".join(draw.choices(CELLS, k=draw.choice((3, 3, 3, 2, 4)))) for _ in range(draw.randrange(6))]
    return draw.choice(("\n", "\n", "\r\n", "\r")).join([header, *rows]) + draw.choice(("", "\n"))


def is_answer(text):
    """Whether a line is an answer or a refusal, or an array of them, as docs/USING.md has it."""
    try:
        value = json.loads(text)
    except ValueError:
        return False
    if isinstance(value, list):
        return 1 <= len(value) <= 16 and all(is_one_answer(it) for it in value)
    return is_one_answer(value)


def is_one_answer(value):
    if not isinstance(value, dict) or list(value) not in (["data"], ["errors"], ["errors", "data"]):
        return False
    errors = value.get("errors", [{"message": ""}])
    return isinstance(errors, list) and all(isinstance(it, dict) and isinstance(it.get("message"), str) for it in errors) and errors


def ran(program, folder, requests, **files):
    """The status, standard output and standard error of a run over the files of examples/, of which some are given."""
    words = list(program)
    for name in ("schema", "bindings"):
        words += [f"--{name}", files.get(name) or EXAMPLE_FILE[name]]
    words += [requests] + [f"{name}={files.get(name) or EXAMPLE_FILE[name]}" for name in TABLES]
    try:
        run = subprocess.run(words, stdin=subprocess.DEVNULL, capture_output=True, timeout=SECONDS, cwd=folder)
        return run.returncode, run.stdout, run.stderr
    except subprocess.TimeoutExpired:
        return "no end", b"", b""


def fault_of_lines(program, folder, lines):
    """What is wrong with the answers to some request lines, and the lines that it is about."""
    file = f"{folder}/requests.jsonl"
    with open(file, "wb") as it:
        it.write(b"".join(each + b"\n" for each in lines))
    status, out, said = ran(program, folder, file)
    if status != 0:
        return f"status {status}, {said[:200]!r}", None
    answers = out.split(b"\n")
    if len(answers) != len(lines) + 1 or answers[-1]:
        return f"{len(answers) - 1} answers to {len(lines)} lines", None
    for asked, answer in zip(lines, answers):
        if not is_answer(answer):
            return f"no answer: {answer[:200]!r}", [asked]
    return None, None


def shortest(program, folder, lines):
    """As few of the lines as still show a fault."""
    while len(lines) > 1:
        half = len(lines) // 2
        for part in (lines[:half], lines[half:]):
            if fault_of_lines(program, folder, part)[0]:
                lines = part
                break
        else:
            return lines
    return lines


def fuzz_lines(job):
    program, kind, seed, count = job
    draw = random.Random(f"{kind} {seed}")
    if kind == "document":
        lines = [json.dumps({"query": document(draw)}).encode() for _ in range(count)]
    else:
        lines = [line(draw) for _ in range(count)]
    with tempfile.TemporaryDirectory() as folder:
        fault, about = fault_of_lines(program, folder, lines)
        if fault is None:
            return kind, count, []
        about = about or shortest(program, folder, lines)
        return kind, count, [(fault, [it[:2000] for it in about[:3]])]


def fuzz_file(job):
    """Schemas, bindings or tables, a run each, with one request behind them."""
    program, kind, seed, count = job
    draw, found = random.Random(f"{kind} {seed}"), []
    make = {"schema": schema, "bindings": bindings, "table": table}[kind]
    with tempfile.TemporaryDirectory() as folder:
        requests, file = f"{folder}/requests.jsonl", f"{folder}/{kind}"
        with open(requests, "w") as it:
            it.write('{"query":"{users{id name best{id}}}"}\n')
        for _ in range(count):
            data = draw.randbytes(draw.randrange(80)) if draw.random() < 0.05 else make(draw).encode("utf-8", "surrogatepass")
            with open(file, "wb") as it:
                it.write(data)
            status, out, said = ran(program, folder, requests, **{"users" if kind == "table" else kind: file})
            fine = status == 0 and out.count(b"\n") == 1 and is_answer(out) and not said
            refused = status in (3, 4) and not out and said.count(b"\n") == 1 and (status == 3 or said == b"X2 ReadFault\n")
            if not fine and not refused:
                found.append((f"status {status}, {out[:200]!r}, {said[:200]!r}", [data[:2000]]))
    return kind, count, found


def jobs(program, cases, seed):
    """Of 20 cases 9 are documents, 10 request lines, and one a file."""
    for kind, share, size, work in (
        ("document", 0.45, LINES, fuzz_lines),
        ("request line", 0.5, LINES, fuzz_lines),
        ("schema", 0.02, 250, fuzz_file),
        ("bindings", 0.02, 250, fuzz_file),
        ("table", 0.01, 250, fuzz_file),
    ):
        left = round(cases * share)
        for number in range(-(-left // size)):
            yield work, (program, kind, f"{seed} {number}", min(size, left - number * size))


def work(job):
    return job[0](job[1])


EXAMPLE_FILE = {name: os.path.join(EXAMPLES, f"{name}.csv") for name in TABLES}
EXAMPLE_FILE.update(schema=os.path.join(EXAMPLES, "schema.graphql"), bindings=os.path.join(EXAMPLES, "bindings.txt"))
EXAMPLE = {}
for name in ("schema", "bindings"):
    with open(EXAMPLE_FILE[name]) as it:
        EXAMPLE[name] = it.read()


def main():
    words = argparse.ArgumentParser(description=__doc__.split("\n")[0])
    words.add_argument("program")
    words.add_argument("--cases", type=int, default=1_000_000)
    words.add_argument("--seed", type=int, default=1)
    words.add_argument("--jobs", type=int, default=os.cpu_count())
    words.add_argument("--workers", type=int, help="the program's own option")
    given = words.parse_args()
    program = [os.path.abspath(given.program)] + (["--workers", str(given.workers)] if given.workers else [])
    counts, failures = collections.Counter(), 0
    with multiprocessing.Pool(given.jobs) as pool:
        for kind, count, found in pool.imap_unordered(work, jobs(program, given.cases, given.seed)):
            counts[kind] += count
            failures += len(found)
            for fault, about in found:
                print(f"{kind}: {fault}", *(f"  {it!r}" for it in about), sep="\n", flush=True)
    kinds = ", ".join(f"{count:,} of kind {kind}" for kind, count in sorted(counts.items()))
    seed = f"seed {given.seed}" + (f", {given.workers} workers" if given.workers else "")
    print(f"{seed}: {sum(counts.values()):,} cases ({kinds}), {failures} failures")
    return 1 if failures else 0


if __name__ == "__main__":
    sys.exit(main())
