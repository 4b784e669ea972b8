#!/usr/bin/env python3
"""Times the program on each request file of a world that make_world.py wrote: measure.py PROGRAM FOLDER.

Of three runs the least time counts. The time on an empty request file, which is that of reading schema, bindings and
tables and of indexing them, is told first and taken off the others. GNU time starts the program: a process that an
interpreter starts itself is charged with the interpreter's own memory at first."""
import os
import subprocess
import sys
import time

program, folder = os.path.abspath(sys.argv[1]), sys.argv[2]
os.chdir(folder)
TABLES = [f"{name}={name}.csv" for name in ("users", "posts", "likes")]
open("empty.jsonl", "w").close()


def run(requests):
    """Seconds, the greatest resident memory in kB, and the bytes and lines of the answers."""
    words = [program, "--schema", "schema.graphql", "--bindings", "bindings.txt", requests] + TABLES
    with open("answers.out", "wb") as out:
        start = time.perf_counter()
        status = subprocess.run(["time", "-q", "-f", "%M", "-o", "memory.out", *words], stdout=out).returncode
        seconds = time.perf_counter() - start
    if status != 0:
        sys.exit(f"{requests}: status {status}")
    with open("memory.out", encoding="utf-8") as memory:
        peak = int(memory.read())
    with open("answers.out", "rb") as answers:
        lines = answers.readlines()
    return seconds, peak, sum(map(len, lines)), max(map(len, lines), default=0), len(lines)


def least(requests):
    runs = [run(requests) for _ in range(3)]
    return min(runs)


idle, memory, _, _, _ = least("empty.jsonl")
files = sum(os.path.getsize(name + ".csv") for name in ("users", "posts", "likes"))
print(f"start    {idle * 1000:8.1f} ms  {memory / 1024:7.1f} MiB  tables {files / 2**20:.1f} MiB")
for name in sorted(os.listdir(".")):
    if name.endswith(".jsonl") and name != "empty.jsonl":
        seconds, memory, size, longest, lines = least(name)
        print(
            f"{name[:-6]:12} {(seconds - idle) * 1000:8.1f} ms  {memory / 1024:7.1f} MiB"
            f"  {lines} answers, {size / 2**20:.2f} MiB, longest {longest / 2**20:.2f} MiB"
        )
