#!/usr/bin/env python3
"""Times the built program on large documents of many shapes.

    bench/documents/measure.py PROGRAM [RUNS]

Each document is the query of one request line on standard input. For each shape and size it prints the least wall
time of RUNS runs (5 if left out) in milliseconds, the peak of resident memory in MiB, and the first bytes of the
answer. The time holds the start of the program and the reading of the line as JSON; the shape `spaces` shows both.
GNU time starts the program: a process that an interpreter starts itself is charged with the interpreter's own memory
at first.
"""
import json
import os
import subprocess
import sys
import tempfile
import time

SIZES = [16, 64, 256, 1024]


def filled(head, piece, tail, size):
    """Head, as many whole pieces as fit, tail."""
    count = max(1, (size - len(head) - len(tail)) // len(piece))
    return head + piece * count + tail


def numbered(piece, size, head="{a}"):
    """As many numbered pieces as fit."""
    parts, length, i = [head], len(head), 0
    while True:
        part = piece.replace("#", str(i))
        if length + len(part) > size:
            return "".join(parts)
        parts.append(part)
        length += len(part)
        i += 1


DEEP = "{a" * 128 + "}" * 128
SHAPES = {
    "spaces": lambda n: " " * n,
    "field list": lambda n: filled("{user(id:1){", "id name ", "}}", n),
    "one-letter fields": lambda n: filled("{user(id:1){", "a ", "}}", n),
    "aliases and arguments": lambda n: numbered(" a#:b(c:#,d:$e,f:true)@g(h:1.5e3)", n - 1, "{") + "}",
    "deep nesting": lambda n: filled("", DEEP, "", n),
    "deep lists": lambda n: filled("{a(b:1", " c:" + "[" * 120 + "1" + "]" * 120, ")}", n),
    "fragments": lambda n: numbered(" fragment F# on T{a ...F# ...on T{b}}", n),
    "variables": lambda n: numbered(" query Q#($a:[Int!]!=[1,2],$b:String=\"x\"){a}", n, "query Q{a}"),
    "long string": lambda n: filled('{a(b:"', "x", '")}', n),
    "string of escapes": lambda n: filled('{a(b:"', "\\u00e9\\n\\uD83D\\uDE00", '")}', n),
    "many strings": lambda n: filled("{a(b:[", '"a\\tb" ', "])}", n),
    "block string": lambda n: filled('{a(b:"""', "  a line of text\n", '""")}', n),
    "block string of escapes": lambda n: filled('{a(b:"""', '\\"""', '""")}', n),
    "blank lines in a block string": lambda n: filled('{a(b:"""', " \n", '""")}', n),
    "objects": lambda n: filled("{a(b:[", "{c:1,d:{e:F}}", "])}", n),
    "comments": lambda n: filled("", "# a comment\n", "{a}", n),
    "one comment": lambda n: filled("#", "x", "\n{a}", n),
    "commas": lambda n: filled("{a", ",", "}", n),
    "numbers": lambda n: filled("{a(b:[", "-12.5E+3 7 ", "])}", n),
    "one long name": lambda n: filled("{", "a", "}", n),
    "opened only": lambda n: filled("", "{a", "", n),
    "fault in the last byte": lambda n: filled("{", "abc ", "}", n - 1) + "^",
    "unclosed string": lambda n: filled('{a(b:"', "x", "", n),
    "unclosed set": lambda n: filled("{", "abc ", "", n),
}


def run(program, path):
    """One run: seconds, peak memory in MiB, and the answer."""
    with open(path, "rb") as request, tempfile.TemporaryFile() as out, tempfile.NamedTemporaryFile("r") as memory:
        words = ["time", "-q", "-f", "%M", "-o", memory.name, program]
        start = time.perf_counter()
        status = subprocess.run(words, stdin=request, stdout=out, stderr=subprocess.DEVNULL).returncode
        seconds = time.perf_counter() - start
        out.seek(0)
        return seconds, int(memory.read()) / 1024, status, out.read(72).decode("utf-8", "replace").strip()


def main():
    program = os.path.abspath(sys.argv[1])
    runs = int(sys.argv[2]) if len(sys.argv) > 2 else 5
    print(f"{'shape':<30} {'KiB':>5} {'ms':>8} {'MiB':>7}  answer")
    for name, shape in SHAPES.items():
        for size in SIZES:
            document = shape(size * 1024)
            with tempfile.NamedTemporaryFile(suffix=".jsonl") as request:
                request.write(json.dumps({"query": document}, ensure_ascii=False).encode() + b"\n")
                request.flush()
                results = [run(program, request.name) for _ in range(runs)]
            seconds = min(r[0] for r in results)
            memory = max(r[1] for r in results)
            status, answer = results[0][2], results[0][3]
            note = "" if status == 0 else f"status {status} "
            print(f"{name:<30} {size:>5} {seconds * 1000:>8.1f} {memory:>7.1f}  {note}{answer}", flush=True)


if __name__ == "__main__":
    main()
