"""The package of this repository, and functions for the tests. The tests are skipped without the shared library."""

import sys
import unittest
from pathlib import Path

TOP = Path(__file__).resolve().parent.parent

if not (TOP / "biblatex" / "libbiblatex.so").exists():
    raise unittest.SkipTest("the shared library is missing: python/build.sh builds it")

sys.path.insert(0, str(TOP))

import biblatex as biblatex  # noqa: E402
from biblatex import _native as native  # noqa: E402

__all__ = ["TOP", "biblatex", "byte_of", "native", "only"]


def only(text: str) -> biblatex.Entry:
    """Returns the only entry of a text."""
    (entry,) = biblatex.parse(text).entries
    return entry


def byte_of(text: str, part: str) -> int:
    """Returns the index of the first byte of `part`, which occurs once in `text`."""
    assert text.count(part) == 1
    return len(text[: text.index(part)].encode())
