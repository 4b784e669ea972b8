#!/usr/bin/env python3
"""Compares the C host over tables in memory with the program on a world of requests/make_world.py:

    measure.py HOST PROGRAM FOLDER [NAME..]

HOST is the host that clients/test builds (tables_host), PROGRAM the built query_cli. Of each NAME.jsonl both have to write the same answers.
Instructions are counted by valgrind, those of an empty file are taken off; of the times the least of five runs counts, with the same done.
While instructions are counted libc copies by vectors alone, since valgrind counts a string instruction once for each byte."""

import os
import re
import subprocess
import sys
import time

TABLES = [f"{name}={name}.csv" for name in ("users", "posts", "likes")]
VECTORS = "glibc.cpu.x86_rep_movsb_threshold=1000000000:glibc.cpu.x86_rep_stosb_threshold=1000000000"


def words_of(host: str, program: str, name: str) -> list[list[str]]:
    files = ["schema.graphql", "bindings.txt"]
    return [[host, *files, name, *TABLES], [program, "--schema", files[0], "--bindings", files[1], name, *TABLES]]


def output(words: list[str]) -> bytes:
    return subprocess.run(words, stdout=subprocess.PIPE, check=True).stdout


def instructions(words: list[str]) -> int:
    counted = ["valgrind", "--tool=callgrind", "--callgrind-out-file=/dev/null", *words]
    by_vectors = {**os.environ, "GLIBC_TUNABLES": VECTORS}
    said = subprocess.run(counted, env=by_vectors, stdout=subprocess.DEVNULL, stderr=subprocess.PIPE, text=True, check=True).stderr
    return int(re.search(r"Collected : (\d+)", said)[1])


def seconds(words: list[str]) -> float:
    start = time.perf_counter()
    subprocess.run(words, stdout=subprocess.DEVNULL, check=True)
    return time.perf_counter() - start


def peak(words: list[str]) -> int:
    """The greatest resident memory in kB. GNU time starts the program, since a process that Python starts is charged with Python's memory."""
    subprocess.run(["time", "-q", "-f", "%M", "-o", "memory.out", *words], stdout=subprocess.DEVNULL, check=True)
    with open("memory.out", encoding="utf-8") as memory:
        return int(memory.read())


def told(count: int, took: float, memory: int) -> str:
    return f"  {count / 1e6:9.1f} M {took * 1e3:7.1f} ms {memory / 1024:6.1f} MB"


def main(host: str, program: str, folder: str, *names: str) -> None:
    host, program = os.path.abspath(host), os.path.abspath(program)
    os.chdir(folder)
    open("empty.jsonl", "w").close()
    names = names or sorted(it[:-6] for it in os.listdir(".") if it.endswith(".jsonl") and it != "empty.jsonl")
    empty = words_of(host, program, "empty.jsonl")
    starts = [(instructions(words), min(seconds(words) for _ in range(5))) for words in empty]
    row = f"{'start':12}"
    for words, (count, least) in zip(empty, starts):
        row += told(count, least, peak(words))
    print(row)
    for name in names:
        both = words_of(host, program, f"{name}.jsonl")
        if output(both[0]) != output(both[1]):
            sys.exit(f"{name}: the answers differ")
        row = f"{name:12}"
        for words, (count, least) in zip(both, starts):
            took = min(seconds(words) for _ in range(5)) - least
            row += told(instructions(words) - count, took, peak(words))
        print(row, flush=True)


main(*sys.argv[1:])
