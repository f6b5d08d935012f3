"""Texts of callers, and their bytes."""

from __future__ import annotations

from typing import TypeVar, Union

AnyText = Union[str, bytes]
Text = TypeVar("Text", str, bytes)


def as_bytes(text: AnyText) -> bytes:
    """Returns the bytes of a text. A `str` is encoded in UTF-8."""
    if isinstance(text, str):
        return text.encode("utf-8")
    if isinstance(text, bytes):
        return text
    raise TypeError(f"expected a str or bytes, not {type(text).__name__}")
