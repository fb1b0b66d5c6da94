"""What is found in a refused line."""

import dataclasses
import re


@dataclasses.dataclass
class Finding:
    """The place in the line, in bytes; what stands there and what may; the kind of mistake, which the table of slips cites."""

    place: int
    met: str
    wanted: list[str] = dataclasses.field(default_factory=list)
    what: str = ""


class Stop(Exception):
    """A line can't go on at a place: holds the finding."""

    def __init__(self, finding: Finding):
        super().__init__(finding.met)
        self.finding = finding


def quoted(text: str, most: int = 40) -> str:
    """A piece of a text in backticks, printable and not long."""
    shown = "".join(c if c.isprintable() else escaped(c) for c in text[:most])
    return f"`{shown}{'..' if len(text) > most else ''}`"


def escaped(character: str) -> str:
    """A character that doesn't print, as an escape; a byte that is no UTF-8 came as a surrogate."""
    code = ord(character)
    if 0xDC80 <= code <= 0xDCFF:
        code -= 0xDC00
    return f"\\x{code:02x}" if code < 0x100 else f"\\u{code:04x}" if code < 0x10000 else f"\\U{code:08x}"


def character_at(line: bytes, place: int) -> str:
    """What to say of the byte at a place that nothing may begin with."""
    text = line[place : place + 4].decode("utf-8", "surrogateescape")
    if not text:
        return "the end of the line"
    first = text[0]
    code = ord(first)
    if 0xDC80 <= code <= 0xDCFF:
        return f"the byte {line[place]}, which is not ASCII"
    if code > 126:
        return f"{quoted(first)} (U+{code:04X}), which is not ASCII"
    if first == "\r":
        return "a carriage return that no newline follows"
    return f"the byte {code}, which doesn't print" if code < 32 else quoted(first)


def either(parts: list[str]) -> str:
    """`a, b or c`."""
    return " or ".join([*([", ".join(parts[:-1])] if parts[1:] else []), *parts[-1:]])


def near(name: str, known: list[str]) -> str:
    """Of the known names one that is spelled much alike, or the empty text."""
    import difflib

    folded = {one.lower(): one for one in known}
    if name.lower() in folded:
        return folded[name.lower()]
    close = difflib.get_close_matches(name[:64], known, n=1, cutoff=0.75)
    return close[0] if close else ""


def parts_of(line: bytes) -> list[tuple[int, str]]:
    """The words of a line between blanks, each with its place."""
    return [(found.start(), found.group().decode("latin-1")) for found in re.finditer(rb"[^ \t]+", line)]
