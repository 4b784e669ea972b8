"""Runs the gate, `rt ci`, from the top of the repository, and tells how long each of its steps took.

    python3 bench/gate/time_gate.py [--anew] [NAME ..]

Its words are those of `rt ci`: with names it times these crates and those below them, on a copy. Each step is a line of `out/gate-times.tsv`:
the crate, the step (its proof, its tests, or one edit that must fail), when it began and ended in seconds from the start, what it took of a
processor in seconds, and with how many processes. The gate's own lines go to standard output, and after them the longest steps and the sums.
"""

import importlib.machinery
import importlib.util
import os
import shutil
import subprocess
import sys
import threading
import time

STARTED = time.monotonic()
TIMES = os.path.abspath("out/gate-times.tsv")
WRITING = threading.Lock()
SPENT = {}
STEPS = []


def gate():
    """Loads the command rt as a module."""
    loader = importlib.machinery.SourceFileLoader("gate", os.path.realpath(shutil.which("rt")))
    module = importlib.util.module_from_spec(importlib.util.spec_from_loader("gate", loader))
    loader.exec_module(module)
    return module


def count_processors():
    """Has each process that ends add what it took of a processor to the sum of its crate, that of its tests apart."""

    def try_wait(process, flags):
        try:
            pid, status, usage = os.wait4(process.pid, flags)
        except ChildProcessError:
            return process.pid, 0
        words = process.args if isinstance(process.args, list) else []
        if pid and "--crate-name" in words:
            of = words[words.index("--crate-name") + 1], "--test" in words
            with WRITING:
                SPENT[of] = SPENT.get(of, 0.0) + usage.ru_utime + usage.ru_stime
        return pid, status

    subprocess.Popen._try_wait = try_wait


def timed(call, step_of):
    """Returns the call, which then notes what a crate's step took, and when it began and ended."""

    def noted(crate, *words, **named):
        began = time.monotonic()
        answer = call(crate, *words, **named)
        step, jobs = step_of(*words)
        with WRITING, open(TIMES, "a", encoding="utf-8") as times:
            row = (crate.name, step, began - STARTED, time.monotonic() - STARTED, SPENT.pop((crate.name, step == "tests"), 0.0), jobs)
            STEPS.append(row)
            times.write("{}\t{}\t{:.0f}\t{:.0f}\t{:.0f}\t{}\n".format(*row))
        return answer

    return noted


def tell():
    """Writes the longest steps and the sums to standard output."""
    print(f"{'crate':24} {'step':10} {'began':>6} {'ended':>6} {'processor':>9} jobs")
    for crate, step, began, ended, took, jobs in sorted(STEPS, key=lambda row: -row[4])[:20]:
        print(f"{crate:24} {step:10} {began:6.0f} {ended:6.0f} {took:9.0f} {jobs}")
    print(f"{sum(row[4] for row in STEPS) / 60:.1f} minutes of a processor in {len(STEPS)} steps, {(time.monotonic() - STARTED) / 60:.1f} minutes in all")


def main():
    os.makedirs("out", exist_ok=True)
    with open(TIMES, "w", encoding="utf-8") as times:
        times.write("crate\tstep\tbegan\tended\tprocessor\tprocesses\n")
    count_processors()
    module = gate()
    module.Crate.ci = timed(module.Crate.ci, lambda flags, tests: ("tests" if tests else "proof", flags[-1]))
    module.must_fail = timed(module.must_fail, lambda edit, *_: (os.path.basename(edit), 1))
    status = module.main(["ci", *sys.argv[1:]])
    tell()
    return status


if __name__ == "__main__":
    sys.exit(main())
