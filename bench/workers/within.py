#!/usr/bin/env python3
"""Holds answers within a limit to answers without one, byte by byte: within.py PROGRAM [LINES] [SEED].

The built program answers LINES lines (2,000 if left out), each a random request over examples/ or an array of up to 16 values, first
without a limit. With --max-answer each answer that has data and more bytes than the limit has to be the one refusal, and all else has to
be as it was, whatever the number of workers. The limits are some lengths of answers, one less and one more. The requests are those of
bench/comparing (it needs graphql-core). The first line that differs is printed for each run in which one does, the last line counts, and
the status is 1 where one differs.
"""
import json
import os
import random
import sys

from alike import run
from arrays import NO_REQUEST, value

WORKERS = (None, "1", "2", "16")
TOO_LONG = b'{"errors":[{"message":"answer too long"}]}'


def within(most, answer):
    """The answer of one request, or its refusal where it is an answer of data that is too long."""
    return TOO_LONG if len(answer) > most and "data" in json.loads(answer) else answer


def main():
    program, count, seed = os.path.abspath(sys.argv[1]), *(int(it) for it in [*sys.argv[2:], "2000", "1"][:2])
    draw = random.Random(seed)
    lines = [[value(draw) for _ in range(draw.choice((1, 1, 2, 3, 8, 16)))] for _ in range(count)]
    # (a line of one value is that value itself, half of the time)
    whole = [len(line) > 1 or draw.random() < 0.5 for line in lines]
    status, alone, fault = run(program, "".join(it + "\n" for line in lines for it in line).encode())
    if status != 0:
        sys.exit(f"a line each: status {status}, {fault.decode()}")
    answers = iter(alone.splitlines())
    own = [[next(answers) for _ in line] for line in lines]
    lengths = sorted({len(it) for line in own for it in line})
    limits = {n + more for n in draw.sample(lengths, min(12, len(lengths))) for more in (-1, 0, 1)} | {1, 41, 42, 43, 4_294_967_295}
    asked = "".join(("[" + ",".join(line) + "]" if array else line[0]) + "\n" for line, array in zip(lines, whole)).encode()
    runs = differing = refused = 0
    for most in sorted(it for it in limits if it > 0):
        wanted = []
        for line, array, found in zip(lines, whole, own):
            # (an array by itself is a line of several requests, and in an array it is none)
            each = [NO_REQUEST if array and it.startswith("[") else within(most, answer) for it, answer in zip(line, found) if array or not it.startswith("[")]
            wanted.append(b"[" + b",".join(each) + b"]" if array else each[0] if each else None)
        for workers in WORKERS:
            status, found, fault = run(program, asked, "--max-answer", str(most), *(["--workers", workers] if workers else []))
            runs += 1
            pairs = list(zip(lines, wanted, found.splitlines()))
            refused += found.count(TOO_LONG)
            wrong = [it for it in pairs if it[1] is not None and it[1] != it[2]]
            if wrong or status != 0 or len(pairs) != count:
                differing += 1
                print(f"--max-answer {most} --workers {workers}: status {status}, {fault[:200]!r}")
                for line, want, answer in wrong[:1]:
                    print(f"{line}\n  without  {want.decode()}\n  within   {answer.decode()}")
    print(f"seed {seed}: {count} lines, {sum(map(len, lines))} values, {len(alone)} bytes; {runs} runs, {refused} answers refused, {differing} runs differ")
    return 1 if differing else 0


if __name__ == "__main__":
    sys.exit(main())
