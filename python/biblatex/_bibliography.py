"""Bibliographies, and the functions that parse them."""

from __future__ import annotations

from collections.abc import Mapping
from typing import Any, Iterator, Optional

from ._entry import Entry
from ._findings import READING_CODES, Finding, ParseError, findings_with
from ._json import pause_collector, read
from ._native import NotUtf8, Refused
from ._source import Format, Source
from ._text import AnyText, as_bytes


class Bibliography(Mapping[str, Entry]):
    """A bibliography: a mapping from keys to entries, in file order. `parse` and `recover` return one.

    A name in the field `ids` of an entry finds that entry too, unless the name is a key. Iteration yields only keys.
    """

    def __init__(self, source: Source) -> None:
        self._source = source
        self._by_key: dict[str, Entry] = {}
        self._by_name: Optional[dict[str, Entry]] = None
        with pause_collector():
            for item in read(source.write(Format.JSON)):
                self._by_key[item["key"]] = Entry(item["type"], item["key"], item["fields"], source)

    def __getitem__(self, key: str) -> Entry:
        entry = self._by_key.get(key)
        if entry is None:
            entry = self._entries_by_name()[key]
        return entry

    def __iter__(self) -> Iterator[str]:
        return iter(self._by_key)

    def __len__(self) -> int:
        return len(self._by_key)

    def __repr__(self) -> str:
        return f"<Bibliography of {len(self)} {'entry' if len(self) == 1 else 'entries'}>"

    def _entries_by_name(self) -> dict[str, Entry]:
        # if two entries have the same name in `ids`, it finds the later one
        if self._by_name is None:
            names: dict[str, Entry] = {}
            for entry in self._by_key.values():
                listed = entry.value("ids")
                if isinstance(listed, list):
                    names.update({str(name): entry for name in listed})
            self._by_name = names
        return self._by_name

    @property
    def entries(self) -> tuple[Entry, ...]:
        """Returns the entries in file order."""
        return tuple(self._by_key.values())

    def to_biblatex(self) -> str:
        """Returns the bibliography in the types and fields of BibLaTeX.

        A command that the parser doesn't know is escaped: `\\emph{x}` is written `\\\\emph\\{x\\}`. Outside verbatim fields
        `~` is written `\\textasciitilde{}`. The edits, for example `set_field`, keep the source of a file. Each entry contains
        the fields that it inherits. Some values don't parse back to themselves, for example math with an unclosed brace.
        """
        return self._source.write(Format.BIBLATEX).decode()

    def to_bibtex(self) -> str:
        """Returns the bibliography in the types and fields of BibTeX.

        A command that the parser doesn't know is escaped: `\\emph{x}` is written `\\\\emph\\{x\\}`. Outside verbatim fields
        `~` is written `\\textasciitilde{}`. The edits, for example `set_field`, keep the source of a file. Each entry contains
        the fields that it inherits.
        """
        return self._source.write(Format.BIBTEX).decode()

    def to_csl(self) -> list[dict[str, Any]]:
        """Returns the entries as CSL-JSON items, the input of citation processors. `xdata` entries are left out."""
        items: list[dict[str, Any]] = read(self._source.write(Format.CSL))
        return items

    def to_csl_json(self) -> str:
        """Returns the items of `to_csl` as a JSON text: an array with one item per line."""
        return self._source.write(Format.CSL).decode()

    def to_json(self) -> str:
        """Returns the entries, with chunks and typed values, as a JSON text that docs/entries.schema.json describes."""
        return self._source.write(Format.JSON).decode()


def parse(text: AnyText) -> Bibliography:
    """Parses a text.

    Raises a `ParseError` with all errors if the text has an error or isn't UTF-8. `recover` parses the rest of such a text.
    """
    data = as_bytes(text)
    try:
        return Bibliography(Source(data, recovers=False))
    except (NotUtf8, Refused):
        raise ParseError(findings_with(data, READING_CODES)) from None


def recover(text: AnyText) -> tuple[Bibliography, list[Finding]]:
    """Parses everything in a text that can be parsed. Returns the bibliography, and the findings that make `parse` fail.

    Only the complete parts of a block that can't be parsed are kept: its key, fields or definitions. An entry with the key of
    an earlier one is left out, and so is a field whose text can't be parsed. docs/LIBRARY.md lists the effect of each error. A
    text that isn't UTF-8 is read as Windows-1252, and the spans of its chunks are byte ranges of that text in UTF-8.

    `to_biblatex` and `to_bibtex` escape each command that the parser doesn't know.
    """
    data = as_bytes(text)
    return Bibliography(Source(data, recovers=True)), findings_with(data, READING_CODES)
