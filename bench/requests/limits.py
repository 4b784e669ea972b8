#!/usr/bin/env python3
"""Tells how much memory answers take that are too long: limits.py PROGRAM [DEPTH].

Over two users that are each other's best, a query of DEPTH fragments (22 unless given) asks each level for the next one twice, so that
1 KB of query asks for an answer of some 100 MB, and one level less for half of it. It is answered without a limit and with
`--max-answer 1000000`, with and without an error elsewhere in the answer. Each run answers a short request after it. GNU time tells
the peak resident memory, as in measure.py."""
import json
import os
import subprocess
import sys
import tempfile

program = os.path.abspath(sys.argv[1])
depth = int(sys.argv[2]) if len(sys.argv) > 2 else 22
LIMIT = "1000000"
FILES = {
    "schema.graphql": "type Query { user(id: ID!): User }\ntype User { id: ID! name: String! best: User }\n",
    "bindings.txt": "bindings 1\nloader userById users by id\nfield Query.user one userById arg id\nfield User.best one userById column best\n",
    "users.csv": "id,name,best\n1,Ada,2\n2,Bob,1\n3,,1\n",
}
SHORT = {"query": "{user(id:1){name}}"}


def doubled(levels, also=""):
    """A query whose answer doubles at each of `levels` levels."""
    inner = " ".join(f"fragment F{at} on User{{a:best{{...F{at + 1}}} b:best{{...F{at + 1}}}}}" for at in range(levels))
    return {"query": f"{{{also}user(id:1){{...F0}}}} {inner} fragment F{levels} on User{{name}}"}


def run(folder, request, words):
    """The peak memory in MB of a run of this request and a short one, the bytes of its answer, and whether the short one was answered."""
    with open(f"{folder}/requests.jsonl", "w") as out:
        out.writelines(json.dumps(each) + "\n" for each in (request, SHORT))
    command = [program, "--schema", "schema.graphql", "--bindings", "bindings.txt", *words, "requests.jsonl", "users=users.csv"]
    with open(f"{folder}/answers", "w+b") as answers:
        status = subprocess.run(["time", "-q", "-f", "%M", "-o", "memory", *command], cwd=folder, stdout=answers).returncode
        size = answers.seek(0, os.SEEK_END)
        answers.seek(max(0, size - 200))
        last = answers.read().splitlines()[-1]
    short = json.loads(last) == {"data": {"user": {"name": "Ada"}}}
    with open(f"{folder}/memory", encoding="utf-8") as memory:
        peak = int(memory.read()) / 1000
    return peak, size - len(last) - 2, short and status == 0


with tempfile.TemporaryDirectory() as folder:
    for name, text in FILES.items():
        with open(f"{folder}/{name}", "w") as out:
            out.write(text)
    print("a short request alone: %.1f MB" % run(folder, SHORT, [])[0])
    cases = [("without errors", depth, ""), ("without errors, a level less", depth - 1, "")]
    cases += [("with an error", depth - 4, "lost:user(id:3){name} "), ("with an error, a level less", depth - 5, "lost:user(id:3){name} ")]
    for name, levels, also in cases:
        for words in ([], ["--max-answer", LIMIT]):
            peak, size, goes_on = run(folder, doubled(levels, also), words)
            print(f"{name}, {' '.join(words) or 'no limit'}: {peak:.1f} MB, an answer of {size} bytes" + ("" if goes_on else ", and the next line was lost"))
