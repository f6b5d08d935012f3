"""Typed values of fields, and their conversion from JSON."""

from __future__ import annotations

from dataclasses import dataclass
from typing import Any, Literal, Mapping, Optional

Json = Mapping[str, Any]


@dataclass(frozen=True)
class Chunk:
    """A part of a field's text.

    `kind` is `"normal"`, `"verbatim"` for text in braces, or `"math"` for text between dollar signs. `start` and `end` are the
    span of the chunk: a range of bytes of the text in UTF-8, counted from 0. They are None for a chunk that doesn't occur in
    the text. The start of a chunk that was joined from several chunks may be after its end.
    """

    kind: Literal["normal", "verbatim", "math"]
    text: str
    start: Optional[int] = None
    end: Optional[int] = None


@dataclass(frozen=True)
class Person:
    """A person. `name` is the family name, and a missing part of the name is empty.

    Only BibLaTeX's extended name format (`family=.., given-i=..`) sets the last four parts. They are None otherwise.
    """

    name: str
    given: str = ""
    prefix: str = ""
    suffix: str = ""
    id: Optional[str] = None
    prefix_initials: Optional[str] = None
    given_initials: Optional[str] = None
    use_prefix: Optional[bool] = None

    def __str__(self) -> str:
        """Returns the name in reading order, for example `Jean de La Fontaine` or `J. Doe, Jr.`"""
        name = " ".join(part for part in (self.given, self.prefix, self.name) if part)
        return f"{name}, {self.suffix}" if self.suffix else name


@dataclass(frozen=True)
class Time:
    """A time of day. `offset` is in minutes ahead of UTC, and None if the time has no offset."""

    hour: int
    minute: int
    second: int
    offset: Optional[int] = None

    def __str__(self) -> str:
        """Returns for example `10:20:30`, `10:20:30Z` or `10:20:30+01:00`."""
        text = f"{self.hour:02}:{self.minute:02}:{self.second:02}"
        if self.offset is None:
            return text
        if self.offset == 0:
            return text + "Z"
        hours, minutes = divmod(abs(self.offset), 60)
        return f"{text}{'-' if self.offset < 0 else '+'}{hours:02}:{minutes:02}"


@dataclass(frozen=True)
class Datetime:
    """A year, with an optional month, day and time. Months and days are counted from 1. The year before year 1 is year 0."""

    year: int
    month: Optional[int] = None
    day: Optional[int] = None
    time: Optional[Time] = None

    def __str__(self) -> str:
        """Returns the BibLaTeX notation: `1984`, `1984-05`, `1984-05-01` or `1984-05-01T10:20:30`."""
        text = f"{'-' if self.year < 0 else ''}{abs(self.year):04}"
        if self.month is not None:
            text += f"-{self.month:02}"
            if self.day is not None:
                text += f"-{self.day:02}"
        return text if self.time is None else f"{text}T{self.time}"


@dataclass(frozen=True)
class Date:
    """A date or a range of dates.

    `kind` is `"at"` for one date, which is `start`. It is `"after"` for a range with only a `start`, `"before"` for a range
    with only an `end`, and `"between"` for a range with both. A date with unknown digits (`198X`) is a range.
    """

    kind: Literal["at", "after", "before", "between"]
    start: Optional[Datetime]
    end: Optional[Datetime] = None
    uncertain: bool = False
    approximate: bool = False

    @property
    def year(self) -> int:
        """Returns the year of the start, or of the end if there is no start."""
        side = self.start or self.end
        assert side is not None, "a date has a start or an end"
        return side.year

    def __str__(self) -> str:
        """Returns the BibLaTeX notation: `1984-05`, `1984/1990`, `1984/..` or `../1990`, and `?`, `~` or `%` after it."""
        sides = {
            "at": f"{self.start}",
            "after": f"{self.start}/..",
            "before": f"../{self.end}",
            "between": f"{self.start}/{self.end}",
        }
        marks = {(False, False): "", (True, False): "?", (False, True): "~", (True, True): "%"}
        return sides[self.kind] + marks[self.uncertain, self.approximate]


@dataclass(frozen=True)
class PageRange:
    """A range of pages from `start` to `end`, both included. In a range of one page they are equal."""

    start: int
    end: int

    def __str__(self) -> str:
        """Returns for example `31--43`, or `52` for one page."""
        return str(self.start) if self.start == self.end else f"{self.start}--{self.end}"


def chunk_of(content: Json) -> Chunk:
    """Returns the chunk that a JSON object describes."""
    return Chunk(content["kind"], content["text"], content.get("start"), content.get("end"))


def person_of(content: Json) -> Person:
    """Returns the person that a JSON object describes."""
    return Person(
        content["name"],
        content["given"],
        content["prefix"],
        content["suffix"],
        content.get("id"),
        content.get("prefix-initials"),
        content.get("given-initials"),
        content.get("useprefix"),
    )


def time_of(content: Optional[Json]) -> Optional[Time]:
    """Returns the time of day that a JSON object describes, or None if there is no object."""
    if content is None:
        return None
    return Time(content["hour"], content["minute"], content["second"], content.get("offset"))


def datetime_of(content: Optional[Json]) -> Optional[Datetime]:
    """Returns the start or end of a date that a JSON object describes, or None if there is no object."""
    if content is None:
        return None
    return Datetime(content["year"], content.get("month"), content.get("day"), time_of(content.get("time")))


def date_of(content: Json) -> Date:
    """Returns the date that a JSON object describes."""
    return Date(
        content["kind"],
        datetime_of(content.get("start")),
        datetime_of(content.get("end")),
        content["uncertain"],
        content["approximate"],
    )


def date_of_parts(content: Json) -> Optional[Date]:
    """Converts a CSL-JSON date, in which the year before year 1 is -1. Returns None for a season or a literal text."""
    if "literal" in content or "season" in content:
        return None
    year, month, day = (content["date-parts"][0] + [None, None])[:3]
    return Date("at", Datetime(year if year > 0 else year + 1, month, day))


def page_range_of(content: Json) -> PageRange:
    """Returns the range of pages that a JSON object describes."""
    return PageRange(content["start"], content["end"])
