"""Calls of the shared library. Each call takes texts and numbers, and returns a text in UTF-8.

Several threads can make calls at the same time: ctypes releases the interpreter's lock during a call, and the library keeps
nothing between calls.
"""

from __future__ import annotations

import ctypes
from enum import IntEnum
from functools import lru_cache
from pathlib import Path
from typing import Callable, Union, cast


class Status(IntEnum):
    """The status that a call returns, from `enum biblatex_status` of c/biblatex.h."""

    DONE = 0
    TOO_SHORT = 1
    NOT_UTF8 = 2
    REFUSED = 3
    OUT_OF_MEMORY = 4
    UNKNOWN_KEY = 5
    KEY_IS_THERE = 6
    NOT_A_KEY = 7
    NOT_A_NAME = 8
    NOT_IN_BRACES = 9
    DEFINITION_IS_THERE = 10
    NO_FIELD_LEFT = 11
    NOT_BARE = 12
    UNBALANCED_QUOTES = 13


class NotUtf8(Exception):
    """Raised when a text isn't UTF-8."""


class Refused(Exception):
    """Raised when a text has an error, or when no format has the number."""


class EditRefused(Exception):
    """Raised when an edit is refused. `status` is the reason."""

    def __init__(self, status: Status) -> None:
        super().__init__(status)
        self.status = status


def _load() -> ctypes.CDLL:
    path = Path(__file__).with_name("libbiblatex.so")
    try:
        return ctypes.CDLL(str(path))
    except OSError as error:
        raise ImportError(f"biblatex: can't load the shared library, which build.sh builds: {error}") from error


_LIBRARY = _load()


@lru_cache(maxsize=None)
def _function(name: str) -> Callable[..., int]:
    function = getattr(_LIBRARY, name)
    function.restype = ctypes.c_uint32
    return cast(Callable[..., int], function)


def _words(arguments: tuple[Union[bytes, int], ...]) -> list[object]:
    words: list[object] = []
    for argument in arguments:
        if isinstance(argument, int):
            words.append(ctypes.c_uint32(argument))
        else:
            words += [ctypes.c_char_p(argument), ctypes.c_size_t(len(argument))]
    return words


def _raise_unless_done(name: str, status: int) -> None:
    if status == Status.NOT_UTF8:
        raise NotUtf8
    if status == Status.REFUSED:
        raise Refused
    if status == Status.OUT_OF_MEMORY:
        raise MemoryError
    if Status.UNKNOWN_KEY <= status <= Status.UNBALANCED_QUOTES:
        raise EditRefused(Status(status))
    if status != Status.DONE:
        raise RuntimeError(f"{name} returned the unknown status {status}")


def call(name: str, *arguments: Union[bytes, int], capacity: int = 256) -> bytes:
    """Returns the text that the call `name` writes.

    `capacity` is the size of the first buffer, in bytes. If the buffer is too short, the call is repeated with a buffer of
    the size that it returned, and takes twice the time.
    """
    function = _function(name)
    words = _words(arguments)
    size = ctypes.c_size_t(max(capacity, 1))
    status: int = Status.TOO_SHORT
    while status == Status.TOO_SHORT:
        buffer = bytearray(size.value)
        start = ctypes.c_char.from_buffer(buffer)
        status = function(*words, ctypes.byref(start), ctypes.c_size_t(len(buffer)), ctypes.byref(size))
    _raise_unless_done(name, status)
    return bytes(memoryview(buffer)[: size.value])
