#!/usr/bin/env python3
"""Has `rt lib` take the libraries as `rt ci` built them, in place of proving each once more.

    clients/built.py note FILE      before rt ci: writes down the text of each library
    clients/built.py take FILE      after it: marks those that it built, of which the text is still the same
    clients/built.py lib CRATE      does what `rt lib` does in the folder of that crate

rt ci leaves the libraries that it built in crates/NAME/out/rlib, without the stamp that tells other commands what text a library was built of.
A library gets its stamp here where all of this holds: its text, that of the libraries below it, its line of crates.txt and the kit are the
same as before rt ci; rt ci built it, since it is newer than FILE and has no stamp; and the libraries below it are those of this run too. Any
other stays as it is, and rt lib builds it anew if it needs it.

rt lib asks for the text of a library once for each way that leads to it, which takes minutes here. `lib` asks for each once.
"""

import functools
import importlib.machinery
import importlib.util
import json
import os
import shutil
import sys


def kit_module():
    """The module of the kit that knows what a library is made from."""
    rt = shutil.which("rt")
    if not rt:
        sys.exit("clients/built.py: there is no rt in PATH")
    sys.dont_write_bytecode = True
    loader = importlib.machinery.SourceFileLoader("rtlib", f"{os.path.dirname(os.path.realpath(rt))}/rtlib.py")
    module = importlib.util.module_from_spec(importlib.util.spec_from_loader("rtlib", loader))
    sys.modules["rtlib"] = module
    loader.exec_module(module)
    # each is asked for once for each way that leads to a library
    module.Crate.stamp = functools.lru_cache(maxsize=None)(module.Crate.stamp)
    module.Crate.below = functools.lru_cache(maxsize=None)(module.Crate.below)
    return module


def libraries(root):
    """The libraries of the repository, lowest first."""
    return [crate for crate in kit_module().crates_below(f"{root}/crates") if crate.makes_rlib()]


def is_new(crate, noted):
    """Whether a library was built since the texts were noted, and has no stamp."""
    if os.path.exists(f"{crate.folder}/out/rlib/stamp") or not os.path.isfile(f"{crate.rlib}/format"):
        return False
    return os.stat(crate.rlib).st_mtime_ns >= os.stat(noted).st_mtime_ns


def note(crates, file):
    with open(file, "w", encoding="utf-8") as out:
        json.dump({crate.name: crate.stamp() for crate in crates}, out)


def take(crates, file):
    with open(file, encoding="utf-8") as texts:
        before = json.load(texts)
    taken = set()
    for crate in crates:
        is_same = before.get(crate.name) == crate.stamp()
        if is_same and is_new(crate, file) and all(below.name in taken for below in crate.below()):
            taken.add(crate.name)
            with open(f"{crate.folder}/out/rlib/stamp", "w", encoding="utf-8") as stamp:
                stamp.write(crate.stamp())
    left = [crate.name for crate in crates if crate.name not in taken and not crate.is_built()]
    print(f"{len(taken)} libraries are taken as rt ci built them")
    if left:
        print(f"these aren't built of the text as it is: {' '.join(left)}")


def main(words):
    if len(words) != 2 or words[0] not in ("note", "take", "lib"):
        sys.exit(__doc__)
    root = os.path.dirname(os.path.dirname(os.path.realpath(__file__)))
    if words[0] == "lib":
        os.chdir(f"{root}/crates/{words[1]}")
        sys.exit(kit_module().main("lib"))
    (note if words[0] == "note" else take)(libraries(root), words[1])


main(sys.argv[1:])
