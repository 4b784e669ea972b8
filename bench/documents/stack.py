#!/usr/bin/env python3
"""Runs the built program on the deepest and the most winding documents, under small stacks.

    bench/documents/stack.py PROGRAM [RUNS]

Each document is the query of one request line on standard input, over the sample world. It is run under each stack of
STACKS, in KiB, and has to be answered: the answer begins as it is written beside the document, the status is 0 and there
is one line. For each document the script prints its size, the least wall time of RUNS runs (3 if left out) and the peak
of resident memory, the start of the program in both, and `crashed` or `wrong` where it wasn't answered so. The status
is 1 if that stands anywhere.
"""
import json
import os
import resource
import subprocess
import sys
import tempfile
import time

MIB = 1 << 20
STACKS = [512]
ADA = '{"data":{"user":{"name":"Ada"}}}'
MERGING = '{"errors":[{"message":"5.3.2 Field Selection Merging'


def chain(count, inside="name", on="User"):
    """So many fragments that each spread the next."""
    text = ["{user(id:1){...F0}}"]
    for i in range(count):
        text.append(f"fragment F{i} on {on}{{...F{i + 1}}}")
    return "".join(text) + f"fragment F{count} on {on}{{{inside}}}"


def nest(depth, inside):
    """So many inline fragments, one inside another."""
    return "...{" * depth + inside + "}" * depth


def chain_of_nests(count, depth):
    """`count` fragments that each spread the next inside `depth` inline fragments."""
    text = ["{user(id:1){...F0}}"]
    for i in range(count):
        text.append(f"fragment F{i} on User{{{nest(depth, f'...F{i + 1}')}}}")
    return "".join(text) + f"fragment F{count} on User{{name}}"


def repeated(head, piece, tail, size=MIB):
    """As many pieces as fit."""
    return head + piece * ((size - len(head) - len(tail)) // len(piece)) + tail


def fields(depth, inside):
    """`depth` fields, one inside another."""
    return "best{" * depth + inside + "}" * depth


def levels_by_fragments(count):
    """Each fragment has a field with the next: `count` levels and one."""
    text = ["{user(id:1){...F0}}"]
    for i in range(count):
        text.append(f"fragment F{i} on User{{best{{...F{i + 1}}}}}")
    return "".join(text) + f"fragment F{count} on User{{name}}"


def lists(depth):
    """So many lists in lists, of one item each."""
    return "{user(id:2){" + "posts{author{" * depth + "name" + "}}" * depth + "}}"


def in_list(depth, value):
    return "[" * depth + value + "]" * depth


def in_object(depth, value):
    return "{a:" * depth + value + "}" * depth


def long_chain(size=MIB):
    """As long a chain as fits."""
    return chain((size - 200) // 34)


# name, document, how the answer begins
DOCUMENTS = [
    ("a chain of fragments, 1 MiB", long_chain(), ADA),
    ("the same, whose last has a clash", chain((MIB - 200) // 34, "name name:id"), MERGING),
    ("120 inline fragments", "{user(id:1){" + nest(120, "name") + "}}", ADA),
    ("5,000 times 10 inline fragments in a chain", chain_of_nests(5000, 10), ADA),
    ("346 times 100 inline fragments in a chain", chain_of_nests(346, 100), ADA),
    ("1,000 times 125 inline fragments in a chain", chain_of_nests(1000, 125), ADA),
    ("1,000 times 100 inline fragments in a chain, 1 MiB", chain_of_nests((MIB - 2000) // 531, 100), ADA),
    ("2,000 times 100 inline fragments round a spread", "{user(id:1){" + nest(100, "...F") * 2000 + "}}fragment F on User{name}", ADA),
    ("inline fragments side by side, 1 MiB", repeated("{user(id:1){", "...{...F}", "}}fragment F on User{name}"), ADA),
    ("spreads below 120 fields, 1 MiB", "{user(id:1){" + fields(120, repeated("", "...F ", "", MIB - 800)) + "}}fragment F on User{name}", '{"data":{"user":{"best":'),
    ("100 inline fragments below 20 fields", "{user(id:1){" + fields(20, nest(100, "name")) + "}}", '{"data":{"user":{"best":'),
    ("a clash in each of many sets, 1 MiB", repeated("{user(id:1){", "...{...F}", "}}fragment F on User{a:id a:name}"), MERGING),
    ("a clash below 100 inline fragments, 1 MiB", repeated("{user(id:1){", nest(100, "...F"), "}}fragment F on User{a:id a:name}"), MERGING),
    ("126 levels of fields", "{user(id:1){" + fields(125, "name") + "}}", '{"data":{"user":{"best":'),
    ("126 levels by fragments", levels_by_fragments(126), '{"data":{"user":{"best":'),
    ("62 lists in lists", lists(62), '{"data":{"user":{"posts":[{"author":'),
    ("directives, 1 MiB", repeated("{user(id:1){", "...F@include(if:true)", "}}fragment F on User{name}"), ADA),
    ("120 lists in a value", "{user(id:" + in_list(120, "1") + "){name}}", '{"errors":[{"message":"5.6.1 '),
    ("120 objects in a value", "{user(id:" + in_object(120, "1") + "){name}}", '{"errors":[{"message":"5.6.1 '),
    ("lists 120 deep, 1 MiB", repeated("{usersByIds(ids:[", in_list(120, "1") + " ", "]){name}}"), '{"errors":[{"message":"5.6.1 '),
    ("120 lists in a variable's type", "query($a:" + in_list(120, "Int") + "){user(id:1){name}}", '{"errors":[{"message":"5.8.2 '),
    ("128 brackets and one", "{user(id:1){" + nest(127, "name") + "}}", '{"errors":[{"message":"too deep'),
]


def run(program, path, stack):
    """One run: seconds, peak memory in MiB, the status and the output."""
    def limit():
        resource.setrlimit(resource.RLIMIT_STACK, (stack * 1024, stack * 1024))
    with open(path, "rb") as request, tempfile.TemporaryFile() as out, tempfile.NamedTemporaryFile("r") as memory:
        words = ["time", "-q", "-f", "%M", "-o", memory.name, program]
        start = time.perf_counter()
        status = subprocess.run(words, stdin=request, stdout=out, stderr=subprocess.DEVNULL, preexec_fn=limit).returncode
        seconds = time.perf_counter() - start
        out.seek(0)
        lines = memory.read().split()
        return seconds, int(lines[-1]) / 1024 if lines else 0, status, out.read().decode("utf-8", "replace")


def main():
    program = os.path.abspath(sys.argv[1])
    runs = int(sys.argv[2]) if len(sys.argv) > 2 else 3
    failed = False
    print(f"{'document':<52} {'KiB':>5} " + " ".join(f"{f'{s} KiB':>12}" for s in STACKS) + f" {'MiB':>7}")
    for name, document, begins in DOCUMENTS:
        with tempfile.NamedTemporaryFile(suffix=".jsonl") as request:
            request.write(json.dumps({"query": document}).encode() + b"\n")
            request.flush()
            cells, peak, told = [], 0, ""
            for stack in STACKS:
                results = [run(program, request.name, stack) for _ in range(runs)]
                status, output = results[0][2], results[0][3]
                if status != 0:
                    verdict = "crashed"
                elif not output.startswith(begins) or output.count("\n") != 1:
                    verdict, told = "wrong", output[:100].strip()
                else:
                    verdict = f"{min(r[0] for r in results) * 1000:.0f} ms"
                failed = failed or not verdict.endswith("ms")
                cells.append(verdict)
                peak = max(peak, *(r[1] for r in results))
        print(f"{name:<52} {len(document) // 1024:>5} " + " ".join(f"{c:>12}" for c in cells) + f" {peak:>7.1f}  {told}", flush=True)
    sys.exit(1 if failed else 0)


if __name__ == "__main__":
    main()
