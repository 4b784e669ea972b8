#!/usr/bin/env python3
"""Runs the built program with each of its allocations refused in turn: sweep.py PROGRAM INPUT [WORDS ..]

Each run is held to the run in which none is refused: it may end the same, or with another status, one line on standard
error and whole answer lines of the plain run before it. Whatever else comes is told as odd, and the status is then 1."""
import collections
import os
import subprocess
import sys
import tempfile

SECONDS = 60  # for one run

program, input_file, words = os.path.abspath(sys.argv[1]), sys.argv[2], sys.argv[3:]
here = os.path.dirname(os.path.abspath(__file__))
room = tempfile.mkdtemp()
refuse, told = f"{room}/refuse.so", f"{room}/told"
subprocess.run(["gcc", "-O2", "-shared", "-fPIC", "-o", refuse, f"{here}/refuse.c", "-ldl"], check=True)


def run(number, is_all=False):
    """Status, output, standard error and number of allocations of a run in which this one is refused."""
    settings = {"LD_PRELOAD": refuse, "REFUSE": str(number), "REFUSE_TOLD": told, "PATH": "/usr/bin:/bin"}
    if is_all:
        settings["REFUSE_ALL"] = "1"
    with open(input_file, "rb") as given:
        try:
            ran = subprocess.run([program, *words], stdin=given, capture_output=True, env=settings, timeout=SECONDS)
        except subprocess.TimeoutExpired as late:
            return None, late.stdout or b"", "doesn't end", 0
    with open(told) as count:
        return ran.returncode, ran.stdout, ran.stderr.decode(), int(count.read())


plain_status, plain, _, allocations = run(0)
print(f"none refused: status {plain_status}, {len(plain)} bytes, {allocations} allocations")
lines = plain.splitlines(True)
beginnings = {b"".join(lines[:count]) for count in range(len(lines) + 1)}
is_odd = False
for is_all in (False, True):
    seen = collections.Counter()
    for number in range(1, allocations + 1):
        status, written, said, _ = run(number, is_all)
        if (status, written) == (plain_status, plain):
            seen["ends the same"] += 1
        elif status and status > 0 and written in beginnings and len(said.splitlines()) == 1:
            seen[f"status {status}: {said.strip()}"] += 1
        else:
            is_odd = True
            seen[f"ODD, as at {number}: status {status}, {len(written)} bytes, {said[:100]!r}"] += 1
    print("each from it on refused:" if is_all else "that one alone refused:")
    for kind, count in seen.most_common():
        print(f"  {count:6} {kind}")
sys.exit(is_odd)
