#!/usr/bin/env python3
"""Holds arrays of requests to the same requests a line each: arrays.py PROGRAM [ARRAYS] [SEED].

The built program answers ARRAYS lines (2,000 if left out), each an array of 0 to 18 values: random requests over examples/,
and among them values that are none. The answer line has to be what the values are answered with a line each, in brackets and
with commas between; for no value, and for more than 16, it has to be the one refusal. In turn and with several numbers of
workers and limits of keys in a batch. The requests are those of bench/comparing (it needs graphql-core). The first line that
differs is printed for each run in which one does, the last line counts, and the status is 1 where one differs.
"""
import json
import os
import random
import sys

from alike import LIMITS, Request, run

WORKERS = (None, "1", "2", "5", "16")
NO_REQUEST = b'{"errors":[{"message":"not a request"}]}'
NONE = ("1", '"query"', "null", "[]", '[{"query":"{users{id}}"}]', "{}", '{"query":1}', '{"query":"{users{id}}","operationName":1}')


def value(draw):
    """A request, or now and then a value that is none."""
    if draw.random() < 0.1:
        return draw.choice(NONE)
    query, values = Request(draw).written()
    return json.dumps({"query": query, "variables": values} if values or draw.random() < 0.5 else {"query": query})


def main():
    program, count, seed = os.path.abspath(sys.argv[1]), *(int(it) for it in [*sys.argv[2:], "2000", "1"][:2])
    draw = random.Random(seed)
    arrays = [[value(draw) for _ in range(draw.choice((0, 1, 1, 2, 3, 5, 8, 16, 17, 18)))] for _ in range(count)]
    status, alone, fault = run(program, "".join(it + "\n" for array in arrays for it in array).encode())
    if status != 0:
        sys.exit(f"a line each: status {status}, {fault.decode()}")
    answers = iter(alone.splitlines())
    wanted = []
    for array in arrays:
        own = [next(answers) for _ in array]
        # (an array by itself is a line of several requests, and in an array it is none)
        own = [NO_REQUEST if it.startswith("[") else answer for it, answer in zip(array, own)]
        wanted.append(b"[" + b",".join(own) + b"]" if 1 <= len(array) <= 16 else NO_REQUEST)
    lines = "".join("[" + ",".join(array) + "]\n" for array in arrays).encode()
    runs = differing = 0
    for workers in WORKERS:
        for limit in LIMITS:
            options = (["--workers", workers] if workers else []) + (["--max-batch", limit] if limit else [])
            status, found, fault = run(program, lines, *options)
            runs += 1
            if (status, found, fault) != (0, b"".join(it + b"\n" for it in wanted), b""):
                differing += 1
                print(options, f"status {status}, {fault[:200]!r}")
                for array, want, answer in zip(arrays, wanted, found.splitlines()):
                    if want != answer:
                        print(f"{array}\n  alone    {want.decode()}\n  together {answer.decode()}")
                        break
    print(f"seed {seed}: {count} arrays, {sum(map(len, arrays))} values, {len(alone)} bytes; {runs} runs, {differing} differ")
    return 1 if differing else 0


if __name__ == "__main__":
    sys.exit(main())
