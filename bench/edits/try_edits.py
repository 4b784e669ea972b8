"""Tries the edits that the prover has to refuse: python3 bench/edits/try_edits.py [CRATE..], from the top of the repository.

A crate's edits are those of `bench/edits/CRATE` and of `crates/CRATE/must-fail`. As many as change functions of their own are
tried in one check, and an edit counts as refused where the function that it changes fails by itself: one that only calls a
function which isn't proved is tried again once that one's edit is taken back. What is left is tried alone, as the gate does it.
The last line says how many were refused.
"""

import importlib.machinery
import importlib.util
import os
import re
import shutil
import sys
import tempfile

HEAD = re.compile(r"^\s*(?:pub(?:\([^)]*\))? )?(?:const |unsafe )*fn (\w+)")
IMPL = re.compile(r"^impl\b.*?(?:\bfor )?(\w+)(?:<[^{]*>)?(?: where .*)? \{")
FAILED = re.compile(r"^fn (\S+): (?:no proof|not proved|could not tell)(.*)", re.M)


def gate():
    """Loads the command rt as a module."""
    file = os.path.realpath(shutil.which("rt"))
    loader = importlib.machinery.SourceFileLoader("gate", file)
    module = importlib.util.module_from_spec(importlib.util.spec_from_loader("gate", loader))
    loader.exec_module(module)
    return module


def edits_of(module, crate, root):
    """The files of a crate's edits."""
    others = f"{root}/bench/edits/{crate.name}"
    found = [f"{others}/{it}" for it in sorted(os.listdir(others))] if os.path.isdir(others) else []
    return [it for it in found if it.endswith(".edit")] + module.edits_of(crate)[0]


def function_at(path, text, line):
    """The module or the type, and the name, of the function that stands at a line of a text."""
    lines, name, of = text.split("\n"), "", ""
    for at in range(line, -1, -1):
        head, impl = HEAD.match(lines[at]), IMPL.match(lines[at])
        if head and not name:
            name = head[1]
            if not lines[at].startswith(" "):
                break
        elif impl and name:
            of = impl[1]
            break
    parts = [it for it in path[len("src/") : -len(".rt")].split("/") if it not in ("lib", "main", "mod")]
    # (a check names a method by its type, in whatever file its impl stands)
    return (() if of else tuple(parts), of, name) if name else None


def functions_of(texts, before):
    """The functions that an edit changes, or None where it changes more than functions of src/."""
    found = set()
    for path, text in texts.items():
        old, new = before[path].split("\n"), text.split("\n")
        at = next((at for at, (a, b) in enumerate(zip(old, new)) if a != b), 0)
        function = function_at(path, before[path], at) if path.startswith("src/") else None
        if not function:
            return None
        found.add(function)
    return found


def is_of(found, function):
    """Whether the name of a function in what a check prints is that of a function of the text."""
    (modules, of, name), parts = function, found.split("::")[1:]
    return parts[-1] == name and tuple(parts[: len(modules)]) == modules and (not of or any(of in it for it in parts[:-1]))


def apply_together(module, edits, room):
    """Applies the edits that change functions of their own to the copy of a crate in the room."""
    taken, texts, functions = {}, {}, set()
    for edit in edits:
        changed, _ = module.read_edit(edit, room)
        if not changed:
            continue
        before = {}
        for path in changed:
            with open(f"{room}/{path}", encoding="utf-8") as it:
                before[path] = it.read()
        own = functions_of(changed, before)
        if not own or own & functions:
            continue
        functions |= own
        taken[edit] = own
        texts.update(changed)
        for path, text in changed.items():
            with open(f"{room}/{path}", "w", encoding="utf-8") as it:
                it.write(text)
    return taken, texts


def try_together(module, crate, edits, kept):
    """Returns the edits that one check of as many as possible refuses."""
    with tempfile.TemporaryDirectory(prefix="edits-") as room:
        for part in module.rtlib.PARTS:
            if os.path.isdir(f"{crate.folder}/{part}"):
                shutil.copytree(f"{crate.folder}/{part}", f"{room}/{part}")
        taken, texts = apply_together(module, edits, room)
    if len(taken) < 2:
        return []
    ran = module.checked(crate, texts, ["--jobs", "1"], kept)
    failed = [found for found, why in FAILED.findall(ran.stdout) if "it calls" not in why and "has no proof" not in why]
    return [edit for edit, own in taken.items() if any(is_of(it, function) for it in failed for function in own)]


def try_edits(module, crate, root):
    """Tries the edits of a crate and returns those that aren't refused, with their number."""
    left = edits_of(module, crate, root)
    number = len(left)
    with tempfile.TemporaryDirectory(prefix="edits-kept-") as kept:
        while True:
            refused = try_together(module, crate, left, kept)
            for edit in refused:
                print(f"{os.path.relpath(edit, root)}: refused", flush=True)
            left = [it for it in left if it not in refused]
            if not refused or not left:
                break
        passed = []
        for edit in left:
            is_refused, said = module.must_fail(crate, edit, ["--jobs", "1"], kept)
            print(f"{os.path.relpath(edit, root)}: {said.partition('.edit: ')[2]}", flush=True)
            passed += [] if is_refused else [edit]
    return passed, number


def main():
    names, sys.argv = sys.argv[1:], ["rt"]
    module, root = gate(), os.getcwd()
    module.rtlib.guarded()
    passed, number = [], 0
    for crate in module.rtlib.crates_below(root):
        if (not names or crate.name in names) and edits_of(module, crate, root):
            if any(it.build_rlib(["--jobs", "1"], anew=False) for it in crate.below()):
                return 1
            tried = try_edits(module, crate, root)
            passed, number = passed + tried[0], number + tried[1]
    print(f"{number - len(passed)} refused, {len(passed)} not refused")
    return 1 if passed else 0


if __name__ == "__main__":
    sys.exit(main())
