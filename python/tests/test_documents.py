"""The output of the examples in the documents and in examples/."""

import contextlib
import doctest
import io
import os
import re
import subprocess
import sys
import tempfile
import unittest
from pathlib import Path

from support import TOP, biblatex

LIBRARY = TOP.parent / "docs" / "LIBRARY.md"

AUTHORS = """\
Doe, Jr., J.
    1999 Both
Knuth, Donald E.
    1984 The TeXbook
    1999 Both
de La Fontaine, Jean
         Fables
"""

WORKS = """\
@book{fables, author = {Jean de La Fontaine}, title = {Fables}}
@book{both, author = {Knuth, Donald E. and Doe, Jr., J.}, title = {Both}, year = 1999}
@book{tex, author = {Donald E. Knuth}, title = {The {TeXbook}}, date = {1984-05}}
@misc{nobody, title = {Untitled}}
"""


def examples_in(text: str) -> list[tuple[str, str]]:
    """Returns each Python example of a text, with the output that follows it."""
    return re.findall(r"^```python\n(.*?)^```\n\s*^```text\n(.*?)^```$", text, re.MULTILINE | re.DOTALL)


def section(text: str, title: str) -> str:
    """Returns the section of a document with this title, or an empty text if there is none."""
    found = re.search(rf"^## {title}\n(.*?)(?=^## |\Z)", text, re.MULTILINE | re.DOTALL)
    return found[1] if found else ""


class Documents(unittest.TestCase):
    def check(self, examples: list[tuple[str, str]]) -> None:
        for code, wanted in examples:
            printed = io.StringIO()
            with contextlib.redirect_stdout(printed):
                exec(compile(code, "example", "exec"), {"__name__": "example"})
            self.assertEqual(printed.getvalue(), wanted)

    def test_readme(self) -> None:
        examples = examples_in((TOP / "README.md").read_text("utf-8"))
        self.assertEqual(len(examples), 1)
        self.check(examples)

    def test_docstrings(self) -> None:
        self.assertEqual(doctest.testmod(biblatex), doctest.TestResults(0, 4))

    @unittest.skipUnless(LIBRARY.exists(), "docs/LIBRARY.md is missing")
    def test_library_document(self) -> None:
        text = section(LIBRARY.read_text("utf-8"), "From Python")
        self.assertEqual(len(examples_in(text)), text.count("```python"))
        self.check(examples_in(text))


class Programs(unittest.TestCase):
    def test_authors(self) -> None:
        with tempfile.TemporaryDirectory() as folder:
            path = Path(folder) / "works.bib"
            path.write_text(WORKS, "utf-8")
            words = [sys.executable, str(TOP / "examples" / "authors.py"), str(path)]
            done = subprocess.run(words, env={**os.environ, "PYTHONPATH": str(TOP)}, capture_output=True, text=True)
        self.assertEqual((done.stdout, done.stderr), (AUTHORS, ""))


if __name__ == "__main__":
    unittest.main()
