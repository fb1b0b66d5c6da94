"""A row of the end-to-end table, and the texts that many rows share."""

import dataclasses

from full_model import point

FULL = "a full device"
GONE = "a pipe that nobody reads"
CLOSED = "a closed stream"

MODEL = b"gdp 1\nvar x real 0 10\nrow 2 x <= 7\n"


@dataclasses.dataclass
class Case:
    """A row. `out` and `err` are bytes to compare, or what the stream leads to; `files` are relative, None is a folder;
    `stdin` is a list of pieces that are written to it; `room` is the most address space that the program has."""

    name: str
    words: list
    files: dict
    status: int
    out: object = b""
    err: object = b""
    stdin: object = None
    room: int = 0
    is_long: bool = False


def at(*values):
    """The text of a point of a model whose variables are x, y and z, as far as values are given."""
    return point("xyz"[: len(values)], values)


def tested(name, model, at_point, status, out=b"", err=b"", **more):
    """A row of `test M P` on these two texts."""
    return Case(name, ["test", "M", "P"], {"M": model, "P": at_point}, status, out, err, **more)
