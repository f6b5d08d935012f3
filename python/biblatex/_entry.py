"""Entries of a bibliography."""

from __future__ import annotations

from collections.abc import Mapping
from dataclasses import dataclass
from typing import Iterator, Optional, Union

from ._lists import comma_texts
from ._source import Source
from ._values import Chunk, Date, Json, PageRange, Person, chunk_of, date_of, page_range_of, person_of

Value = Union[int, str, list[str], list[Person], list[PageRange], Date]

# the fields that contain people
PEOPLE_FIELDS = frozenset(
    "author editor editora editorb editorc translator annotator commentator introduction foreword afterword"
    " bookauthor holder shortauthor shorteditor".split()
)

# the fields that contain dates, each with the field of its year
DATE_FIELDS = {"date": "year", "urldate": "urlyear", "eventdate": "eventyear", "origdate": "origyear"}


def _text_of(chunks: list[Json]) -> str:
    return "".join(f"${chunk['text']}$" if chunk["kind"] == "math" else chunk["text"] for chunk in chunks)


@dataclass(frozen=True, eq=False, repr=False)
class Entry(Mapping[str, str]):
    """An immutable entry of a bibliography, with the fields that it inherits by `crossref` and `xdata`.

    An entry maps field names to texts, in alphabetical order of the names. A name is in lowercase, and is otherwise that of
    the file: `journal` stays `journal`. The text of a field is that of its chunks, without TeX braces and with math between
    dollar signs. A command like `\\'e` is replaced by its character. A command that the library doesn't know is kept, and so is a
    tilde.

    Two entries are equal if they have the same type, the same key and the same fields, with chunks of the same spans.
    """

    type: str
    """The entry type, in lowercase, for example `article`."""

    key: str
    """The key that citations name."""

    _content: Mapping[str, Json]
    _source: Source

    def __getitem__(self, name: str) -> str:
        return _text_of(self._content[name]["chunks"])

    def __iter__(self) -> Iterator[str]:
        return iter(self._content)

    def __len__(self) -> int:
        return len(self._content)

    def __contains__(self, name: object) -> bool:
        return name in self._content

    def __eq__(self, other: object) -> bool:
        if not isinstance(other, Entry):
            return NotImplemented
        return (self.type, self.key, self._content) == (other.type, other.key, other._content)

    def __hash__(self) -> int:
        return hash((self.type, self.key))

    def __repr__(self) -> str:
        return f"Entry({self.type!r}, {self.key!r}, {self.fields!r})"

    @property
    def fields(self) -> dict[str, str]:
        """Returns a new dictionary from field names to texts."""
        return {name: _text_of(field["chunks"]) for name, field in self._content.items()}

    def chunks(self, name: str) -> list[Chunk]:
        """Returns the chunks of a field. Raises a `KeyError` if the entry lacks the field."""
        return [chunk_of(chunk) for chunk in self._content[name]["chunks"]]

    def value(self, name: str) -> Optional[Value]:
        """Returns the typed value of a field.

        The value is a list of `Person` for fields of people, a `Date` for fields of dates, and a list of `PageRange` for
        `pages`. It is a number for `volume`, `volumes` and `edition`, and a list of texts for `language`, `keywords`, `publisher`
        and other lists. It is a word for `langid`, `pagination`, `editortype`, `gender` and similar fields.

        Returns None if the entry lacks the field, if no field of this name has a type, or if the text isn't of that type.
        """
        content = self._content[name].get("value") if name in self._content else None
        if content is None:
            return None
        if name in PEOPLE_FIELDS:
            return [person_of(person) for person in content]
        if name in DATE_FIELDS:
            return date_of(content)
        if name == "pages":
            return [page_range_of(pages) for pages in content]
        found: Union[int, str, list[str]] = list(content) if isinstance(content, list) else content
        return found

    def people(self, name: str = "author") -> list[Person]:
        """Returns the people of a field, or an empty list if the entry lacks it.

        `and others` becomes a person with the name `others`. Raises a `ValueError` if `name` isn't a field of people.
        """
        if name not in PEOPLE_FIELDS:
            raise ValueError(f"{name!r} isn't a field of people")
        if name not in self._content:
            return []
        return [person_of(person) for person in self._content[name]["value"]]

    def date(self, name: str = "date") -> Optional[Date]:
        """Returns the date of a field: `date`, `urldate`, `eventdate` or `origdate`.

        If the entry lacks the field, the date is that of `year`, `month` and `day`, or for example of `urlyear`, `urlmonth` and
        `urlday`. An `xdata` entry has no such date. Returns None if there is no date, or if it can't be parsed. Raises a
        `ValueError` if `name` isn't one of the four fields.
        """
        if name not in DATE_FIELDS:
            raise ValueError(f"{name!r} isn't a field of a date")
        if name in self._content:
            content = self._content[name].get("value")
            return None if content is None else date_of(content)
        if DATE_FIELDS[name] not in self._content:
            return None
        return self._source.date_of_parts(self.key, name)

    @property
    def parents(self) -> list[str]:
        """Returns the keys of the entries that this entry belongs to: the key in `crossref`, then the keys in `xref`.

        The keys in `xdata` aren't included: parsing replaces the field `xdata` by the fields of the entries that it names.
        """
        parents = [self["crossref"]] if "crossref" in self else []
        return parents + (comma_texts(self.chunks("xref")) if "xref" in self else [])
