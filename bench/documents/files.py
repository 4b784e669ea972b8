#!/usr/bin/env python3
"""Runs the built program over files that never end, and over tables that RFC 4180 doesn't allow.

    bench/documents/files.py PROGRAM

Run it at the top of the repository: the other files are those of `examples/`. Each case has a status and a line on standard
error or output that docs/BINDINGS.md and docs/USING.md give it; the script prints what came, with the time and the peak of
resident memory, and ends with status 1 where it isn't that. No run may take more than 512 MiB of memory.
"""
import os
import resource
import subprocess
import sys
import tempfile
import time

EXAMPLES = os.path.abspath("examples")
LIMIT = 512 << 20
MARK = b"\xef\xbb\xbf"


def text(name):
    with open(os.path.join(EXAMPLES, name), "rb") as file:
        return file.read()


USERS = b"id,name,best\n1,Ada,2\n2,Bob,1\n"
ONE = b'{"query":"{users{id name}}"}\n'


def users(rows):
    """The answer over these users."""
    inside = ",".join('{"id":"%s","name":"%s"}' % row for row in rows)
    return '{"data":{"users":[' + inside + "]}}"


# name, the files that differ (bytes, or a path), status, what stands on standard error or output
CASES = [
    ("a schema without an end", {"schema.graphql": "/dev/zero"}, 3, "S1 Syntax"),
    ("a schema of one byte too many", {"schema.graphql": text("schema.graphql").ljust((1 << 20) + 1)}, 3, "S1 Syntax"),
    ("a schema as long as may be", {"schema.graphql": text("schema.graphql").ljust(1 << 20)}, 0, users([("1", "Ada"), ("2", "Bob")])),
    ("a long schema whose character is cut", {"schema.graphql": b"#" + "\u00e9".encode() * (1 << 20)}, 3, "S1 Syntax"),
    ("a schema of no text without an end", {"schema.graphql": "/dev/urandom"}, 4, "X2 ReadFault"),
    ("bindings without an end", {"bindings.txt": "/dev/zero"}, 4, "X2 ReadFault"),
    ("a table of lines without an end", {"users.csv": ["yes", "1,Ada,"]}, 3, "C"),
    ("a quote that is never closed", {"users.csv": USERS + b'3,"Cy,\n4,D,\n'}, 3, "C4 BadRecord"),
    ("the same in the last field", {"users.csv": b'id,best,name\n1,,Ada\n2,,"Bob\n3,,Cy\n'}, 0, users([("1", "Ada"), ("2", "Bob\\n3,,Cy\\n")])),
    ("text after a closing quote", {"users.csv": b'id,name,best\n1,"Ada"x,\n'}, 0, users([("1", "Adax")])),
    ("blank lines", {"users.csv": b"\n\nid,name,best\n\n1,Ada,\n\n\n2,Bob,\n\n"}, 0, users([("1", "Ada"), ("2", "Bob")])),
    ("a mark before a table", {"users.csv": MARK + USERS}, 0, users([("1", "Ada"), ("2", "Bob")])),
    ("a mark before the schema", {"schema.graphql": MARK + text("schema.graphql")}, 0, users([("1", "Ada"), ("2", "Bob")])),
    ("a mark before the bindings", {"bindings.txt": MARK + text("bindings.txt")}, 3, "S8 BadBinding"),
]


def run(program, folder, files):
    """One run: seconds, peak memory in MiB, the status and what was written."""
    words, waiting, pipes = {}, [], []
    for name in ["schema.graphql", "bindings.txt", "users.csv", "posts.csv", "named.csv", "likes.csv"]:
        given = files.get(name, USERS if name == "users.csv" else None)
        words[name] = os.path.join(EXAMPLES, name)
        if isinstance(given, str):
            words[name] = given
        elif isinstance(given, list):
            writer = subprocess.Popen(given, stdout=subprocess.PIPE, stderr=subprocess.DEVNULL)
            waiting.append(writer)
            pipes.append(writer.stdout.fileno())
            words[name] = f"/dev/fd/{writer.stdout.fileno()}"
        elif given is not None:
            words[name] = os.path.join(folder, name)
            with open(words[name], "wb") as file:
                file.write(given)
    requests = os.path.join(folder, "requests.jsonl")
    with open(requests, "wb") as file:
        file.write(ONE)
    line = ["--schema", words["schema.graphql"], "--bindings", words["bindings.txt"], requests]
    line += [f"{t}={words[t + '.csv']}" for t in ["users", "posts", "named", "likes"]]

    def limit():
        resource.setrlimit(resource.RLIMIT_AS, (LIMIT, LIMIT))
    with tempfile.NamedTemporaryFile("r") as memory:
        start = time.perf_counter()
        done = subprocess.run(["time", "-q", "-f", "%M", "-o", memory.name, program] + line, stdin=subprocess.DEVNULL, capture_output=True, pass_fds=pipes, preexec_fn=limit, timeout=120)
        seconds = time.perf_counter() - start
        peak = int(memory.read().split()[-1]) / 1024
    for writer in waiting:
        writer.stdout.close()
        writer.kill()
        writer.wait()
    return seconds, peak, done.returncode, (done.stdout or done.stderr).decode("utf-8", "replace").strip()


def main():
    program = os.path.abspath(sys.argv[1])
    failed = False
    print(f"{'files':<40} {'ms':>7} {'MiB':>7}  status and text")
    for name, files, status, told in CASES:
        with tempfile.TemporaryDirectory() as folder:
            seconds, peak, code, output = run(program, folder, files)
        right = code == status and output.startswith(told)
        failed = failed or not right
        print(f"{name:<40} {seconds * 1000:>7.0f} {peak:>7.1f}  {'' if right else 'NOT SO: '}{code} {output[:80]}", flush=True)
    sys.exit(1 if failed else 0)


if __name__ == "__main__":
    main()
