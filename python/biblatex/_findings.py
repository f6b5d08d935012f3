"""Findings of `lint`, and the error of a text that can't be parsed."""

from __future__ import annotations

from dataclasses import dataclass
from typing import Collection, Literal, Sequence

from ._json import read
from ._native import call
from ._text import AnyText, as_bytes

# the codes of the findings for which edits and `format` refuse a text
SYNTAX_CODES = frozenset({"unread-bytes", "syntax"})

# the codes of the findings for which `parse` refuses a text; for two of them, which are warnings, `recover` leaves nothing out
READING_CODES = SYNTAX_CODES | {
    "unread-field",
    "unknown-abbreviation",
    "circular-abbreviation",
    "duplicate-key",
    "circular-reference",
    "unread-date",
}


@dataclass(frozen=True)
class Finding:
    """A problem of a text, or a likely one.

    `line` and `column` are counted from 1, and `column` is in characters. `severity` is `"error"` if a part of the text isn't
    parsed as it is written, `"info"` if nothing is wrong for BibLaTeX and BibTeX skips no field, and `"warning"` otherwise.
    `code` is one of the codes in docs/BIBKIT.md, for example `"syntax"`.
    """

    line: int
    column: int
    severity: Literal["error", "warning", "info"]
    code: str
    message: str

    def __str__(self) -> str:
        """Returns the position and the message, for example `3:12: turing1950: expected comma`."""
        return f"{self.line}:{self.column}: {self.message}"


class ParseError(ValueError):
    """Raised when a text can't be parsed.

    `findings` contains each finding that makes parsing fail, in the order of `lint`. `line` and `column` are the position of
    the first one. `str` of the error is that of the first one, for example `3:12: turing1950: unexpected end of file`.
    """

    findings: Sequence[Finding]
    line: int
    column: int

    def __init__(self, findings: Sequence[Finding]) -> None:
        super().__init__(findings)
        self.findings = findings
        self.line = findings[0].line
        self.column = findings[0].column

    def __str__(self) -> str:
        return str(self.findings[0])


def lint(text: AnyText) -> list[Finding]:
    """Returns the findings of a text, in the order of their positions.

    No text is refused. A text that isn't UTF-8 is read as Windows-1252, and its first finding has the code `unread-bytes`.
    """
    data = as_bytes(text)
    found = read(call("biblatex_lint", data, capacity=len(data) // 2 + 4096))
    return [Finding(item["line"], item["column"], item["severity"], item["code"], item["message"]) for item in found]


def findings_with(text: bytes, codes: Collection[str]) -> list[Finding]:
    """Returns the findings of a text that have one of the codes."""
    return [finding for finding in lint(text) if finding.code in codes]
