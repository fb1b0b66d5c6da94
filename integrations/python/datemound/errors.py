"""The errors of this module. All are a `DatemoundError`."""

from __future__ import annotations

from .places import Place


class DatemoundError(Exception):
    """What every error of this module is."""


class ModelError(DatemoundError):
    """A mistake in the Python that makes a model, and what to write instead."""


class RefusedError(DatemoundError):
    """`gdp` refuses the model, or can't rewrite it for the route.

    `cause` is the word of the manual (`Number`, `Limit`, `no bound`, ..), `line` the line of the model's text, `item` the row, variable,
    proposition or block that stands there, and `place` the line of the Python file that made it; each None where there is none.
    """

    def __init__(self, message: str, cause: str, line: int | None, item: object, place: Place | None) -> None:
        super().__init__(message)
        self.cause, self.line, self.item, self.place = cause, line, item, place


class ProgramError(DatemoundError):
    """`gdp` isn't there, couldn't do its work, or answered what the manual doesn't have; `status` is its exit status, if it ran."""

    def __init__(self, message: str, status: int | None = None) -> None:
        super().__init__(message)
        self.status = status
