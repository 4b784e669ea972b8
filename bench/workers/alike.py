#!/usr/bin/env python3
"""Holds answers with workers to answers in turn, byte by byte: alike.py PROGRAM [REQUESTS] [SEED].

The built program answers REQUESTS random requests over examples/ (5,000 if left out) without --workers, and then with several
numbers of workers and limits of keys in a batch. Status, standard output and standard error have to be those of the run in
turn without a limit. The requests are those of bench/comparing, which has to be importable (it needs graphql-core). The first
line that differs is printed for each run in which one does, the last line counts, and the status is 1 where one differs.
"""
import json
import os
import random
import subprocess
import sys

HERE = os.path.dirname(os.path.abspath(__file__))
sys.path.insert(0, os.path.join(HERE, "..", "comparing"))
sys.dont_write_bytecode = True

from compare import EXAMPLES, NAMES, Request  # noqa: E402

WORKERS = ("1", "2", "5", "16")
LIMITS = (None, "1", "3")


def run(program, lines, *options):
    """Status, standard output and standard error of the program on these request lines."""
    words = [program, "--schema", f"{EXAMPLES}/schema.graphql", "--bindings", f"{EXAMPLES}/bindings.txt", *options]
    words += ["/dev/stdin"] + [f"{name}={EXAMPLES}/{name}.csv" for name in NAMES]
    ran = subprocess.run(words, input=lines, capture_output=True, check=False)
    return ran.returncode, ran.stdout, ran.stderr


def first_difference(requests, wanted, found):
    for request, want, answer in zip(requests, wanted[1].splitlines(), found[1].splitlines()):
        if want != answer:
            return f"{request}\n  in turn  {want.decode()}\n  answered {answer.decode()}"
    return f"  status {found[0]}, {len(found[1])} bytes, {found[2][:200]!r}"


def main():
    program, count, seed = os.path.abspath(sys.argv[1]), *(int(it) for it in [*sys.argv[2:], "5000", "1"][:2])
    draw = random.Random(seed)
    written = (Request(draw).written() for _ in range(count))
    requests = [json.dumps({"query": query, "variables": values}) for query, values in written]
    lines = "".join(request + "\n" for request in requests).encode()
    wanted = run(program, lines)
    if wanted[0] != 0 or wanted[1].count(b"\n") != count:
        sys.exit(f"in turn: status {wanted[0]}, {wanted[2].decode()}")
    runs = differing = 0
    for workers in WORKERS:
        for limit in LIMITS:
            options = ["--workers", workers] + (["--max-batch", limit] if limit else [])
            found = run(program, lines, *options)
            runs += 1
            if found != wanted:
                differing += 1
                print(" ".join(options), first_difference(requests, wanted, found), sep="\n")
    answered = sum(b'"data":' in line for line in wanted[1].splitlines())
    print(f"seed {seed}: {count} requests, {answered} of them executed, {len(wanted[1])} bytes; {runs} runs, {differing} differ")
    return 1 if differing else 0


if __name__ == "__main__":
    sys.exit(main())
