"""The JSON that the library writes."""

from __future__ import annotations

import gc
import json
from contextlib import contextmanager
from typing import Any, Iterator


@contextmanager
def pause_collector() -> Iterator[None]:
    """Pauses the garbage collector of reference cycles. Parsing JSON creates no cycles.

    The collector would visit all parsed values again and again, which takes longer than parsing them.
    """
    was_enabled = gc.isenabled()
    gc.disable()
    try:
        yield
    finally:
        if was_enabled:
            gc.enable()


def read(data: bytes) -> Any:
    """Returns the value of a JSON text."""
    with pause_collector():
        return json.loads(data)
