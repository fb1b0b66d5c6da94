"""Names of variables, Booleans and disjuncts."""

from __future__ import annotations

import re

from .errors import ModelError

RESERVED = frozenset("not and or implies equivalent xor exactly atleast atmost inf end".split())

_NAME = re.compile(r"[A-Za-z_][A-Za-z0-9_.]*")


def checked_name(name: object) -> str:
    """The name itself, where it is one: a letter or `_`, then letters, digits, `_` and `.`, and no reserved word.

    Errors: a `ModelError` where it isn't. That it has at most 64 bytes is left to `gdp`.
    """
    if not isinstance(name, str):
        raise ModelError(f"{name!r} is no name: the first argument is the name, as text")
    if not _NAME.fullmatch(name):
        raise ModelError(f"{name!r} is no name: write a letter or '_', then letters, digits, '_' and '.'")
    if name in RESERVED:
        raise ModelError(f"{name!r} is a reserved word and no name: write '{name}_' or another word")
    return name
