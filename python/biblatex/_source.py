"""A text, and its bibliography in the formats that the library writes."""

from __future__ import annotations

from enum import IntEnum
from typing import Any, Mapping, Optional

from ._json import read
from ._native import call
from ._values import Date, date_of_parts


class Format(IntEnum):
    """The formats, with the numbers of `enum biblatex_format` of c/biblatex.h."""

    BIBLATEX = 0
    BIBTEX = 1
    JSON = 2
    CSL = 3


_CALLS = {
    Format.BIBLATEX: "biblatex_biblatex",
    Format.BIBTEX: "biblatex_bibtex",
    Format.JSON: "biblatex_json",
    Format.CSL: "biblatex_csl",
}

# for most texts, the output is at most this many times as long as the text
_GROWTH = {Format.BIBLATEX: 2, Format.BIBTEX: 2, Format.JSON: 6, Format.CSL: 2}

# the CSL-JSON variables that contain the dates of these fields
_VARIABLES = {"date": "issued", "urldate": "accessed", "eventdate": "event-date", "origdate": "original-date"}


class Source:
    """The bytes of a text, and whether parsing recovers from errors."""

    def __init__(self, text: bytes, recovers: bool) -> None:
        self._text = text
        self._recovers = recovers
        self._dates: Optional[Mapping[str, Mapping[str, Date]]] = None

    def write(self, form: Format) -> bytes:
        """Returns the bibliography of the text in a format."""
        capacity = _GROWTH[form] * len(self._text) + 1024
        if self._recovers:
            return call("biblatex_recover", self._text, int(form), capacity=capacity)
        return call(_CALLS[form], self._text, capacity=capacity)

    def date_of_parts(self, key: str, name: str) -> Optional[Date]:
        """Returns the date of the entry `key` from the three fields that replace `name`, for example `year`, `month` and `day`.

        The library writes such a date only in CSL-JSON, so the first call parses the dates of all entries. If two threads make
        the first call at the same time, both parse the dates, and get the same ones.
        """
        if self._dates is None:
            items: list[dict[str, Any]] = read(self.write(Format.CSL))
            self._dates = {field: _dates_in(items, variable) for field, variable in _VARIABLES.items()}
        return self._dates[name].get(key)


def _dates_in(items: list[dict[str, Any]], variable: str) -> dict[str, Date]:
    dates = {}
    for item in items:
        if variable in item:
            date = date_of_parts(item[variable])
            if date is not None:
                dates[item["id"]] = date
    return dates
