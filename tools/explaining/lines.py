"""The lines of a text, as the manual says."""


def lines_of(text: bytes) -> list[bytes]:
    """The lines, without their newlines and the carriage return before each."""
    lines = text.split(b"\n")
    last = lines.pop()
    return [line.removesuffix(b"\r") for line in lines] + ([last] if last else [])


def bare(line: bytes) -> bytes:
    """A line without its comment."""
    return line.partition(b"#")[0]


def first_word(text: bytes) -> bytes:
    """The first word of the first line that has one, without comments."""
    for line in text[:100_000].split(b"\n"):
        words = bare(line).split()
        if words:
            return words[0]
    return b""
