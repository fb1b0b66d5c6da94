"""Where in the caller's Python something was made."""

from __future__ import annotations

import sys
from typing import NamedTuple


class Place(NamedTuple):
    """A line of a Python file."""

    file: str
    line: int

    def __str__(self) -> str:
        return f"{self.file}:{self.line}"


def place_of_caller() -> Place:
    """The innermost line that is being run outside this module."""
    package, frame = __name__.partition(".")[0], sys._getframe(1)
    while frame.f_back is not None and frame.f_globals.get("__name__", "").partition(".")[0] == package:
        frame = frame.f_back
    return Place(frame.f_code.co_filename, frame.f_lineno)
