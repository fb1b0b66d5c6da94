"""A picture as SVG text: lines of letters that are all equally wide, boxes, and what is stacked of them.

All text is set in a fixed-width font, so a line's length follows from its number of letters and nothing overlaps. The same pieces always
give the same bytes.
"""

from collections.abc import Sequence
from dataclasses import dataclass, field
from html import escape

LETTER = 7.9  # the width of a letter
LINE = 19  # the height of a line
WIDTH = 860  # of a picture
EDGE = 16  # around it
MOST_LINES = 4  # of a text that is broken
STYLE = """\
text { font: 13px "DejaVu Sans Mono", Menlo, Consolas, "Liberation Mono", monospace; fill: #1b1b1b }
.strong { font-weight: bold }
.faint { fill: #5c5c5c }
.wrong { font-weight: bold; fill: #a40000 }
.title { font-size: 15px; font-weight: bold }
.light { fill: #ffffff; font-weight: bold }
.side { font-size: 11px; fill: #1b1b1b }
.paper { fill: #ffffff }
.taken { fill: #ffffff; stroke: #1f3f66; stroke-width: 2.5 }
.head { fill: #1f3f66 }
.left { fill: #f4f4f4; stroke: #8a8a8a; stroke-dasharray: 5 4 }
.open { fill: #ffffff; stroke: #1b1b1b }
.choice { fill: #e4ebf3; stroke: #1b1b1b; stroke-width: 0.8 }
.line { fill: none; stroke: #1b1b1b; stroke-width: 1 }
.path { fill: none; stroke: #1f3f66; stroke-width: 3.5 }
.solid { fill: #1b1b1b; stroke: #1b1b1b }
.hollow { fill: #ffffff; stroke: #1b1b1b; stroke-width: 1.3 }"""


def number(value: float) -> str:
    """A length as it is written, with one place at most."""
    return f"{value:.1f}".removesuffix(".0")


@dataclass
class Canvas:
    """The elements of a picture in the order in which they are drawn."""

    elements: list[str] = field(default_factory=list)

    def text(self, x: float, y: float, words: str, style: str = "") -> None:
        """Writes a line whose top is at y."""
        kind = f' class="{style}"' if style else ""
        self.elements.append(f'<text x="{number(x)}" y="{number(y + 14)}"{kind}>{escape(words, quote=False)}</text>')

    def box(self, x: float, y: float, width: float, height: float, style: str, round_by: int = 0) -> None:
        """Draws a rectangle."""
        corner = f' rx="{round_by}"' if round_by else ""
        self.elements.append(f'<rect x="{number(x)}" y="{number(y)}" width="{number(width)}" height="{number(height)}"{corner} class="{style}"/>')

    def path(self, steps: str, style: str) -> None:
        """Draws lines by SVG's path words."""
        self.elements.append(f'<path d="{steps}" class="{style}"/>')

    def svg(self, height: float, title: str) -> str:
        """The picture's text."""
        size = f'width="{WIDTH}" height="{number(height)}" viewBox="0 0 {WIDTH} {number(height)}"'
        head = f'<svg xmlns="http://www.w3.org/2000/svg" {size} role="img">\n<title>{escape(title, quote=False)}</title>\n<style>\n{STYLE}\n</style>\n'
        paper = f'<rect width="{WIDTH}" height="{number(height)}" class="paper"/>\n'
        return head + paper + "".join(element + "\n" for element in self.elements) + "</svg>\n"


class Piece:
    """What can be drawn: how wide it would like to be, and, at a width, how high it is."""

    def natural(self) -> float:
        """The width that it needs if nothing is broken."""
        raise NotImplementedError

    def height(self, width: float) -> float:
        """The height at this width."""
        raise NotImplementedError

    def draw(self, canvas: Canvas, x: float, y: float, width: float) -> None:
        """Draws it with its corner at x and y."""
        raise NotImplementedError


def broken(words: Sequence[str], letters: int, most: int = MOST_LINES) -> list[str]:
    """The words set in lines of at most so many letters; where there would be too many lines, some before the last word are counted."""
    lines = [""]
    for at, word in enumerate(words):
        word = cut(word, letters)
        joined = f"{lines[-1]} {word}" if lines[-1] else word
        if len(joined) <= letters:
            lines[-1] = joined
        elif len(lines) < most:
            lines.append(word)
        else:
            shown, last = lines[-1].split(" "), cut(words[-1], letters // 2)
            hidden = len(words) - 1 - at
            while shown and len(" ".join([*shown, f"… {hidden} more … {last}"])) > letters:
                shown.pop()
                hidden += 1
            lines[-1] = " ".join([*shown, f"… {hidden} more … {last}"])
            break
    return lines


def cut(word: str, letters: int) -> str:
    """A word cut to so many letters."""
    return word if len(word) <= letters else word[: max(letters - 1, 1)] + "…"


@dataclass
class Text(Piece):
    """Words with a mark before them and a note after them, if there is room for it."""

    words: Sequence[str]
    mark: str = ""
    note: str = ""
    style: str = ""
    indent: int = 2
    most: int = MOST_LINES

    def natural(self) -> float:
        note = len(self.note) + 2 if self.note else 0
        return (self.indent + sum(map(len, self.words)) + len(self.words) - 1 + note) * LETTER

    def lines(self, width: float) -> list[str]:
        """The lines at this width."""
        return broken(self.words, max(int(width / LETTER) - self.indent, 8), self.most)

    def height(self, width: float) -> float:
        return LINE * len(self.lines(width))

    def draw(self, canvas: Canvas, x: float, y: float, width: float) -> None:
        lines = self.lines(width)
        if self.mark:
            canvas.text(x, y, self.mark, self.style)
        for at, line in enumerate(lines):
            canvas.text(x + self.indent * LETTER, y + at * LINE, line, self.style)
        if self.note and (self.indent + len(lines[-1]) + 2 + len(self.note)) * LETTER <= width:
            canvas.text(x + (self.indent + len(lines[-1]) + 2) * LETTER, y + (len(lines) - 1) * LINE, self.note, "faint")


@dataclass
class Stack(Piece):
    """Pieces below one another."""

    pieces: Sequence[Piece]
    gap: float = 0

    def natural(self) -> float:
        return max((piece.natural() for piece in self.pieces), default=0)

    def height(self, width: float) -> float:
        return sum(piece.height(width) for piece in self.pieces) + self.gap * max(len(self.pieces) - 1, 0)

    def draw(self, canvas: Canvas, x: float, y: float, width: float) -> None:
        for piece in self.pieces:
            piece.draw(canvas, x, y, width)
            y += piece.height(width) + self.gap


@dataclass
class Flow(Piece):
    """Pieces beside one another, in as many lines as they need, each line stretched to the width."""

    pieces: Sequence[Piece]
    gap: float = 10

    def natural(self) -> float:
        return sum(piece.natural() for piece in self.pieces) + self.gap * max(len(self.pieces) - 1, 0)

    def lines(self, width: float) -> list[list[tuple[Piece, float]]]:
        """The lines, each piece with its width; they have about as many pieces each, where these fit."""
        lines = self.filled(width, len(self.pieces))
        even = self.filled(width, -(-len(self.pieces) // max(len(lines), 1)))
        return [self.stretched(line, width) for line in (even if len(even) == len(lines) else lines)]

    def filled(self, width: float, most: int) -> list[list[Piece]]:
        """The lines, each with as many pieces as fit, and so many at most."""
        lines: list[list[Piece]] = []
        room = -1.0
        for piece in self.pieces:
            needed = min(piece.natural(), width)
            if needed > room or len(lines[-1]) == most:
                lines.append([])
                room = width
            lines[-1].append(piece)
            room -= needed + self.gap
        return lines

    def stretched(self, line: list[Piece], width: float) -> list[tuple[Piece, float]]:
        """A line's pieces with their widths, which share out what is left."""
        needed = [min(piece.natural(), width) for piece in line]
        left = (width - sum(needed) - self.gap * (len(line) - 1)) / len(line)
        return [(piece, size + left) for piece, size in zip(line, needed)]

    def height(self, width: float) -> float:
        lines = self.lines(width)
        return sum(max(piece.height(size) for piece, size in line) for line in lines) + self.gap * max(len(lines) - 1, 0)

    def draw(self, canvas: Canvas, x: float, y: float, width: float) -> None:
        for line in self.lines(width):
            tallest, at = max(piece.height(size) for piece, size in line), x
            for piece, size in line:
                if isinstance(piece, Box):
                    piece.draw_to(canvas, at, y, size, tallest)
                else:
                    piece.draw(canvas, at, y, size)
                at += size + self.gap
            y += tallest + self.gap


@dataclass
class Box(Piece):
    """A frame with a heading around a piece."""

    head: str
    inner: Piece
    style: str
    head_style: str = "strong"
    pad: float = 8

    def natural(self) -> float:
        return max(self.inner.natural(), len(self.head) * LETTER) + 2 * self.pad + 2

    def lines(self, width: float) -> list[str]:
        """The lines of the heading."""
        return broken(self.head.split(" "), max(int((width - 2 * self.pad) / LETTER), 8))

    def height(self, width: float) -> float:
        inner = self.inner.height(width - 2 * self.pad)
        return LINE * len(self.lines(width)) + 6 + (inner + self.pad if inner else 2)

    def draw(self, canvas: Canvas, x: float, y: float, width: float) -> None:
        self.draw_to(canvas, x, y, width, self.height(width))

    def draw_to(self, canvas: Canvas, x: float, y: float, width: float, height: float) -> None:
        """Draws it at a height that may be more than it needs."""
        lines = self.lines(width)
        canvas.box(x, y, width, height, self.style, 4)
        if self.head_style == "light":
            canvas.box(x, y, width, LINE * len(lines) + 4, "head", 4)
        for at, line in enumerate(lines):
            canvas.text(x + self.pad, y + 2 + at * LINE, line, self.head_style)
        self.inner.draw(canvas, x + self.pad, y + LINE * len(lines) + 6, width - 2 * self.pad)


def picture(piece: Piece, title: str) -> str:
    """The SVG text of a piece at the width of a page."""
    canvas = Canvas()
    width = WIDTH - 2 * EDGE
    piece.draw(canvas, EDGE, EDGE, width)
    return canvas.svg(piece.height(width) + 2 * EDGE, title)
