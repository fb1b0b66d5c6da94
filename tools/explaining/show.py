"""Prints a line with a caret under a place, whatever its bytes are and however long it is."""

import unicodedata

from .finding import escaped

# The columns that are shown in all, and of these before the place.
WHOLE, BEFORE = 96, 56


def cell(character: str) -> str:
    """What stands on the screen for a character: itself, a blank for a tab, an escape for what doesn't print."""
    return " " if character == "\t" else character if character.isprintable() else escaped(character)


def width(text: str) -> int:
    """The columns that a text takes: two for each wide character, none for a combining one."""
    return sum(0 if unicodedata.combining(c) else 2 if unicodedata.east_asian_width(c) in "WF" else 1 for c in text)


def column(line: bytes, place: int) -> int:
    """The column of a place, counted in characters from 1."""
    return len(line[:place].decode("utf-8", "surrogateescape")) + 1


def fitting(cells: list[str], most: int) -> int:
    """How many of the cells fit in so many columns."""
    taken = 0
    for at, one in enumerate(cells):
        taken += width(one)
        if taken > most:
            return at
    return len(cells)


def window(line: bytes, place: int) -> tuple[str, str]:
    """The line, cut round the place where it is long, and below it the caret."""
    head = line[max(0, place - 4 * BEFORE) : place].decode("utf-8", "surrogateescape")
    tail = line[place : place + 4 * WHOLE].decode("utf-8", "surrogateescape")
    before, after = [cell(c) for c in head], [cell(c) for c in tail]
    first = len(before) - fitting(before[::-1], BEFORE)
    shown = ("..." if first > 0 or place > 4 * BEFORE else "") + "".join(before[first:])
    last = fitting(after, WHOLE - width(shown))
    is_cut = last < len(after) or place + 4 * WHOLE < len(line)
    return shown + "".join(after[:last]) + ("..." if is_cut else ""), " " * width(shown) + "^"
