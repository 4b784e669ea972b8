"""The wheel: it is installed into an empty folder, where the first program of docs/PYTHON.md runs by the library inside it."""

import os
import subprocess
import sys
import tempfile
import unittest
from pathlib import Path
from typing import Any

import test_page
import worlds
from rudzkvano.library import _default_path

PACK = worlds.REPOSITORY / "clients/python/pack"


def run(*words: Any, **environment: str) -> "subprocess.CompletedProcess[str]":
    return subprocess.run([*map(str, words)], capture_output=True, text=True, env={**os.environ, **environment})


class Package(unittest.TestCase):
    def setUp(self) -> None:
        folder = tempfile.TemporaryDirectory()
        self.addCleanup(folder.cleanup)
        self.folder = Path(folder.name)

    def packed(self, folder: str = "packed") -> Path:
        made = run(sys.executable, PACK, self.folder / folder)
        self.assertEqual((made.returncode, made.stderr), (0, ""))
        (wheel,) = (self.folder / folder).iterdir()
        self.assertEqual(made.stdout.splitlines()[-1], f"for Python: {wheel}")
        self.assertEqual("without the extension: " in made.stdout, "-py3-none-" in wheel.name)
        return wheel

    @unittest.skipUnless(run(sys.executable, "-m", "pip", "--version").returncode == 0, "there is no pip, so the wheel isn't installed")
    def test_the_wheel_is_installed(self) -> None:
        wheel, target = self.packed(), self.folder / "installed"
        self.assertRegex(wheel.name, r"^rudzkvano-[0-9.]+-(cp310-abi3|py3-none)-manylinux_2_\d+_x86_64\.whl$")
        installed = run(sys.executable, "-m", "pip", "install", "--quiet", "--no-index", "--no-compile", "--target", target, wheel)
        self.assertEqual(installed.returncode, 0, installed.stderr)
        program, printed = test_page.first_program()
        path = "import sys; sys.path.insert(0, sys.argv[1])\n"
        tells = "\nimport rudzkvano.library, rudzkvano.native\nprint(rudzkvano.library._default_path(), rudzkvano.native.NATIVE is not None)"
        found = run(sys.executable, "-I", "-B", "-c", path + program + tells, target, RUDZKVANO_LIBRARY="", RUDZKVANO_PURE="")
        has_extension = "-cp310-abi3-" in wheel.name
        self.assertEqual((found.stdout.strip(), found.stderr), (f"{printed}\n{target}/rudzkvano/librudzkvano_c.so {has_extension}", ""))
        self.assertEqual((target / "rudzkvano/librudzkvano_c.so").read_bytes(), Path(_default_path()).read_bytes())
        shown = run(sys.executable, "-m", "pip", "list", "--path", target, "--format", "freeze", "--disable-pip-version-check")
        self.assertRegex(shown.stdout, "^rudzkvano==[0-9.]+\n$")

    def test_the_same_files_give_the_same_wheel(self) -> None:
        self.assertEqual(self.packed("one").read_bytes(), self.packed("two").read_bytes())

    def test_no_wheel_without_a_library_that_goes_with_it(self) -> None:
        (self.folder / "no.so").write_text("nothing")
        for path in (self.folder / "none.so", self.folder / "no.so"):
            made = run(sys.executable, PACK, self.folder / "packed", RUDZKVANO_LIBRARY=str(path))
            self.assertEqual((made.returncode, made.stdout, (self.folder / "packed").exists()), (1, "", False))
            self.assertRegex(made.stderr, f"^clients/python/pack: .*{path}")


if __name__ == "__main__":
    unittest.main()
