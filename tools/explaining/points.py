"""Finds the place in a refused line of a point."""

import re

from .finding import Finding, near, parts_of, quoted
from .lines import bare
from .models import Context
from .tokens import RESERVED

NAME = re.compile(r"[A-Za-z_][A-Za-z0-9_.]*")
NUMBER = re.compile(r"-?[0-9]+")


def place_of(line: bytes, at: int, parts: list[tuple[int, str]]) -> int:
    """The place of a word, or the end of the line."""
    return parts[at][0] if at < len(parts) else len(line.rstrip(b" \t"))


def met(at: int, parts: list[tuple[int, str]]) -> str:
    return quoted(parts[at][1].encode("latin-1").decode("utf-8", "surrogateescape")) if at < len(parts) else "the end of the line"


def form(line: bytes, seen: int, ended: bool) -> Finding:
    """Why a line below the header has no form; `seen` lines with words stand above it."""
    parts = parts_of(line)
    word = parts[0][1]

    def at(number: int, wanted: list[str], what: str) -> Finding:
        return Finding(place_of(line, number, parts), met(number, parts), wanted, what)

    if ended:
        return at(0, ["the end of the text"], "after the end")
    if seen == 1:
        if word == "over" and len(parts) > 1 and re.fullmatch("[0-9]+", parts[1][1]):
            return at(2, ["the end of the line"], "over")
        return at(1 if word == "over" else 0, ["a whole number, at least 1"] if word == "over" else ["`over D`"], "over")
    if word == "over":
        return at(0, ["`val`", "`on`", "`end`"], "second over")
    if word not in ("val", "on", "end"):
        return at(0, ["`val`", "`on`", "`end`"], "first word")
    if word == "end":
        return at(1, ["the end of the line"], "after the end")
    if len(parts) < 2 or not NAME.fullmatch(parts[1][1]) or parts[1][1] in RESERVED:
        return at(1, ["a variable" if word == "val" else "a Boolean or an indicator"], "name")
    if word == "on":
        return at(2, ["the end of the line"], "after a name")
    if len(parts) < 3 or not NUMBER.fullmatch(parts[2][1]):
        return at(2, ["a whole number, with `-` directly before it or without"], "value")
    return at(3, ["the end of the line"], "after a value")


def missing(line: bytes | None, lines: list[bytes], context: Context) -> Finding:
    """What isn't there at `end`, or at the end of the text (without a line)."""
    words = [part for part in (bare(one).split() for one in lines) if part]
    if line is None:
        wanted = "`over D`" if len(words) < 2 else "`end`"
        return Finding(0, "the end of the text", [wanted], "over" if len(words) < 2 else "no end")
    given = {one[1].decode("latin-1") for one in words if one[0] == b"val" and len(one) > 1}
    left = [name for name in context.of_kind("variable") if name not in given]
    listed = ", ".join(quoted(f"val {name} N") for name in left[:5]) + (f" and {len(left) - 5} more" if len(left) > 5 else "")
    return Finding(parts_of(line)[0][0], f"`end`, and {len(left)} variable{'s have' if len(left) > 1 else ' has'} no value", [listed], "no value")


def unknown(line: bytes, context: Context) -> Finding:
    place, name = parts_of(line)[1]
    is_value = parts_of(line)[0][1] == "val"
    kinds = ("variable",) if is_value else ("boolean", "indicator")
    wanted = ["a variable of the model" if is_value else "a Boolean or an indicator of the model"]
    if name in context.names:
        return Finding(place, f"{context.called(name)} of the model", wanted, context.names[name][0])
    like = near(name, context.of_kind(*kinds))
    return Finding(place, f"{quoted(name)}, which the model does not declare{f'; it has {quoted(like)}' if like else ''}", wanted, "misspelled" if like else "unknown")


def find(lines: list[bytes], number: int, cause: str, context: Context) -> Finding | None:
    """The place in the refused line of a point of the model that the context is of."""
    is_past = number > len(lines)
    line = b"" if is_past else bare(lines[number - 1])
    above = [bare(one).split() for one in lines[: number - 1]]
    above = [words for words in above if words]
    parts = parts_of(line)
    if cause == "Header":
        first = place_of(line, 0, parts)
        return Finding(first, met(0, parts) if parts else "the end of the text, which has no line with a word", ["`gdp-point 1` as the first line"], "header" if parts else "empty text")
    if cause == "Missing":
        return missing(None if is_past else line, lines[: number - 1], context)
    if is_past or not parts:
        return None
    if cause == "Form":
        return form(line, len(above), any(words == [b"end"] for words in above))
    if cause == "NameTwice":
        name = parts[1][1]
        first = next((at for at, one in enumerate(lines, 1) if bare(one).split()[1:2] == [name.encode("latin-1")] and bare(one).split()[0] in (b"val", b"on")), 0)
        return Finding(parts[1][0], f"{quoted(name)}, which has a line already, {first}", ["another name"], "twice")
    if cause == "NameUnknown":
        return unknown(line, context)
    if cause == "Number":
        at = 1 if parts[0][1] == "over" else 2
        wanted = "1 to 2^127 - 1" if at == 1 else "-2^127 to 2^127 - 1"
        return Finding(place_of(line, at, parts), met(at, parts), [f"a number from {wanted}"], "great number")
    return None
