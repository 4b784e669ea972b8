"""The first program of docs/PYTHON.md prints what the page says."""

import re
import subprocess
import sys
import textwrap
import unittest

import worlds


def first_program() -> tuple[str, str]:
    """The program, and what it prints."""
    page = worlds.read(worlds.REPOSITORY / "docs/PYTHON.md")
    block = r"((?:    .*\n|\n)+)"
    found = re.search(rf"## The first answer\n\n{block}prints\n\n{block}", page)
    assert found
    program, printed = (textwrap.dedent(part).strip() for part in found.groups())
    return program, printed


class Page(unittest.TestCase):
    def test_the_first_program(self) -> None:
        program, printed = first_program()
        run = subprocess.run([sys.executable, "-B", "-"], input=program, capture_output=True, text=True, cwd=worlds.REPOSITORY / "clients/python")
        self.assertEqual((run.stdout.strip(), run.stderr), (printed, ""))


if __name__ == "__main__":
    unittest.main()
