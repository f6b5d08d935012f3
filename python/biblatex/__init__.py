"""Parses, checks, edits and writes BibTeX and BibLaTeX files.

    >>> import biblatex
    >>> bibliography = biblatex.parse("@book{tolkien1937, author = {J. R. R. Tolkien}, title = {The {Hobbit}}, date = {1937-09-21}}")
    >>> book = bibliography["tolkien1937"]
    >>> book["title"], str(book.people("author")[0]), book.date().year
    ('The Hobbit', 'J. R. R. Tolkien', 1937)

A text is a `str`, or `bytes` in UTF-8. A `str` that contains a lone surrogate raises a `UnicodeEncodeError`. A call raises a
`MemoryError` when out of memory. Several threads can call the library at the same time, because a call releases the
interpreter's lock while the library works.
"""

from ._bibliography import Bibliography, parse, recover
from ._edits import EditError, add_entries, format, remove_entry, rename_key, set_field, unset_field
from ._entry import Entry, Value
from ._findings import Finding, ParseError, lint
from ._native import call as _call
from ._values import Chunk, Date, Datetime, PageRange, Person, Time

__all__ = [
    "Bibliography",
    "Chunk",
    "Date",
    "Datetime",
    "EditError",
    "Entry",
    "Finding",
    "PageRange",
    "ParseError",
    "Person",
    "Time",
    "Value",
    "add_entries",
    "format",
    "lint",
    "parse",
    "recover",
    "remove_entry",
    "rename_key",
    "set_field",
    "unset_field",
    "version",
]


def version() -> str:
    """Returns the version of the library, for example `"0.1.0"`."""
    return _call("biblatex_version").decode()
