#!/usr/bin/env python3
"""Holds the answers of one build to those of another, byte by byte: builds.py BEFORE AFTER [REQUESTS] [SEED].

Both built programs answer the same REQUESTS random requests over examples/ (10,000 if left out), of which some come again and some
stand in arrays, with several limits on answers and batches and several numbers of workers. It prints the options with which they
differ, the last line counts, and the status is 1 where some differ.
"""
import json
import os
import random
import subprocess
import sys

sys.dont_write_bytecode = True

from compare import EXAMPLES, NAMES, Request  # noqa: E402

MODES = (
    "",
    "--max-answer 60",
    "--max-answer 300",
    "--max-answer 2000",
    "--max-batch 1",
    "--max-batch 3",
    "--workers 2",
    "--workers 5 --max-batch 2",
    "--workers 3 --max-answer 200",
)


class Lines:
    """Random lines, of which a quarter of the requests are some that came before."""

    def __init__(self, draw):
        self.draw, self.before = draw, []

    def request(self):
        if self.before and self.draw.random() < 0.25:
            return self.draw.choice(self.before[-400:])
        query, values = Request(self.draw).written()
        request = {"query": query}
        if values or self.draw.random() < 0.7:
            request["variables"] = values
        elif self.draw.random() < 0.3:
            request["variables"] = request["operationName"] = None
        self.before.append(request)
        return request

    def some(self, count):
        while count > 0:
            several = self.draw.randint(2, 6) if self.draw.random() < 0.08 else 1
            values = [self.request() if self.draw.random() < 0.97 else 7 for _ in range(several)]
            yield json.dumps(values if several > 1 else values[0])
            count -= several


def answers(program, lines, mode):
    words = [program, "--schema", f"{EXAMPLES}/schema.graphql", "--bindings", f"{EXAMPLES}/bindings.txt", *mode.split()]
    words += ["/dev/stdin"] + [f"{name}={EXAMPLES}/{name}.csv" for name in NAMES]
    ran = subprocess.run(words, input=lines, capture_output=True, check=False)
    return ran.returncode, ran.stdout, ran.stderr


def main():
    before, after = map(os.path.abspath, sys.argv[1:3])
    count, seed = (int(it) for it in [*sys.argv[3:], *["10000", "1"][len(sys.argv) - 3 :]])
    lines = "".join(line + "\n" for line in Lines(random.Random(seed)).some(count)).encode()
    differing = [mode for mode in MODES if answers(before, lines, mode) != answers(after, lines, mode)]
    for mode in differing:
        print("they differ with", mode or "no options")
    print(f"seed {seed}: {count} requests in {lines.count(10)} lines; {len(MODES)} modes, {len(differing)} differ")
    return 1 if differing else 0


if __name__ == "__main__":
    sys.exit(main())
