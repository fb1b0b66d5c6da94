"""The picture of a plan: its goal, its variables with their bounds, and its rows in the boxes of its choices.

With a point or an answer the values stand at the variables, what is taken has a filled heading and a thick frame, and what holds with
nothing to spare is marked. A plan that is longer than a page is folded, further and further, until it fits one.
"""

from collections.abc import Iterable, Sequence
from dataclasses import dataclass
from fractions import Fraction

from .picture import LETTER, LINE, WIDTH, EDGE, Box, Canvas, Flow, Piece, Stack, Text, broken, picture
from .texts import Block, Choice, Logic, Model, Option, Point, Row, Variable

PAGE = 1180  # the height of a page at this width
BAR = 84  # the length of the bar between two bounds
NAME = 26  # the most letters of a variable's name
TIGHT, FAILS, TAKEN = "■", "✗", "✓"


@dataclass
class Fold:
    """How much of a plan is shown."""

    items: int  # rows and propositions of a block
    lines: int  # of a row
    variables: int
    choices: int  # of a block
    options: int  # of a choice
    depth: int  # of choices in one another
    shows_left: bool  # whether what isn't taken is shown with its rows
    is_brief: bool  # whether of a choice only the names are shown


FOLDS = (
    Fold(1000, 4, 500, 200, 200, 8, True, False),
    Fold(1000, 4, 500, 200, 200, 8, False, False),
    Fold(12, 4, 60, 12, 12, 8, False, False),
    Fold(12, 4, 60, 200, 12, 8, False, True),
    Fold(6, 3, 30, 60, 6, 8, False, True),
    Fold(3, 2, 21, 48, 3, 1, False, True),
    Fold(2, 2, 12, 24, 3, 1, False, True),
    Fold(2, 2, 9, 6, 2, 1, False, True),
)


def told(value: Fraction) -> str:
    """A number as a planner reads it: whole, with up to four places, or rounded and marked so."""
    if value.denominator == 1:
        text = f"{value.numerator:,}"
    elif 10**4 % value.denominator == 0:
        text = f"{float(value):,.4f}".rstrip("0")
    else:
        text = f"≈{float(value):,.2f}"
    text = text if len(text) <= 16 else f"≈{float(value):.3e}"
    return text.replace("-", "−")


def short(name: str, letters: int = NAME) -> str:
    """A name cut to so many letters."""
    return name if len(name) <= letters else name[: letters - 1] + "…"


def several(count: int, what: str) -> str:
    """A count with its word."""
    return f"{count:,} {what}" + ("" if count == 1 else "s")


@dataclass
class Quantity:
    """A variable, its value where there is one, and what a step of an endless answer adds to it."""

    variable: Variable
    value: Fraction | None
    step: Fraction = Fraction(0)

    def fails(self) -> bool:
        """Whether the value isn't one that the variable may have."""
        value, low, high = self.value, self.variable.low, self.variable.high
        if value is None:
            return False
        return (low is not None and value < low) or (high is not None and value > high) or (self.variable.is_whole and value.denominator != 1)

    def cells(self) -> tuple[str, str, str, str]:
        """Its name, its value and its bounds, as they are written."""
        low, high = self.variable.low, self.variable.high
        value = "" if self.value is None else told(self.value) + (" " + FAILS if self.fails() else "")
        if self.step:
            value += f" {'+' if self.step > 0 else '−'} {told(abs(self.step))} k"
        above = (told(high) if high is not None else "∞") + (", whole" if self.variable.is_whole else "")
        return short(self.variable.name), value, told(low) if low is not None else "−∞", above

    def draw(self, canvas: Canvas, x: float, y: float, letters: Sequence[int]) -> None:
        """Draws it in one line, with the cells so many letters wide."""
        name, value, below, above = self.cells()
        style = "wrong" if self.fails() else "strong" if self.value else ""
        canvas.text(x, y, name, style)
        x += (letters[0] + 2) * LETTER
        if value:
            canvas.text(x + (letters[1] - len(value)) * LETTER, y, value, style)
            x += (letters[1] + 3) * LETTER
        canvas.text(x + (letters[2] - len(below)) * LETTER, y, below, "faint")
        x, middle = x + (letters[2] + 1.5) * LETTER, y + LINE / 2
        low, high = self.variable.low, self.variable.high
        canvas.path(f"M{x:.1f} {middle:.1f}h{BAR}", "line")
        for end, at in ((low, x), (high, x + BAR)):
            if end is not None:
                canvas.path(f"M{at:.1f} {middle - 4:.1f}v8", "line")
        canvas.text(x + BAR + 1.5 * LETTER, y, above, "faint")
        if self.value is None or self.fails():
            return
        if self.value in (low, high):
            canvas.box(x + (BAR if self.value == high else 0) - 5, middle - 5, 10, 10, "solid")
        elif low is not None and high is not None:
            canvas.box(x + float((self.value - low) / (high - low)) * BAR - 4, middle - 4, 8, 8, "hollow", 4)


@dataclass
class Grid(Piece):
    """Variables in as many columns as there is room for, read downwards."""

    items: Sequence[Quantity]

    def letters(self) -> list[int]:
        """How wide each cell is, in letters."""
        return [max(len(cell) for cell in cells) for cells in zip(*(item.cells() for item in self.items))]

    def natural(self) -> float:
        return (sum(self.letters()) + 11) * LETTER + BAR

    def columns(self, width: float) -> int:
        """How many columns there are: none has fewer than three lines if there are more than one."""
        return max(1, min(int(width / self.natural()), len(self.items) // 3))

    def height(self, width: float) -> float:
        return -(-len(self.items) // self.columns(width)) * LINE

    def draw(self, canvas: Canvas, x: float, y: float, width: float) -> None:
        columns, letters = self.columns(width), self.letters()
        deep = -(-len(self.items) // columns)
        for at, item in enumerate(self.items):
            item.draw(canvas, x + at // deep * (width / columns), y + at % deep * LINE, letters)


class Plan:
    """A model with a point, or without one, to be shown so far unfolded."""

    def __init__(self, model: Model, point: Point | None, verdict: str) -> None:
        self.model, self.point, self.verdict, self.fold = model, point, verdict, FOLDS[0]
        self.spares: dict[int, Fraction] = {}  # of the rows that were reckoned, by their lines

    def spare(self, row: Row, point: Point) -> Fraction:
        """What a row has to spare."""
        if row.line not in self.spares:
            self.spares[row.line] = row.spare(point.values)
        return self.spares[row.line]

    def row(self, row: Row, in_force: bool) -> Text:
        """A row, marked where it is tight or fails."""
        most = self.fold.lines
        if self.point is None:
            return Text(row.words(), most=most)
        if not in_force:
            return Text(row.words(), style="faint", most=most)
        spare = self.spare(row, self.point)
        if spare < 0:
            return Text(row.words(), FAILS, f"fails by {told(-spare)}", "wrong", most=most)
        if row.relation == "=":
            return Text(row.words(), most=most)
        if spare == 0:
            return Text(row.words(), TIGHT, style="strong", most=most)
        return Text(row.words(), note=f"spare {told(spare)}", most=most)

    def proposition(self, logic: Logic, in_force: bool) -> Text:
        """A proposition, marked where it fails."""
        words, most = ["logic", *logic.words()], self.fold.lines
        if self.point is None or not in_force:
            return Text(words, style="" if self.point is None else "faint", most=most)
        holds = logic.holds(self.point.truths)
        return Text(words, "" if holds else FAILS, style="" if holds else "wrong", most=most)

    def listed(self, pieces: list[Text], what: str) -> list[Text]:
        """The pieces of a block that are shown, those that are marked first to be kept, and a word on the rest."""
        if len(pieces) <= self.fold.items:
            return pieces
        order = sorted(range(len(pieces)), key=lambda at: (not pieces[at].mark, at))[: self.fold.items]
        rest = [piece for at, piece in enumerate(pieces) if at not in order]
        marked = sum(bool(piece.mark) for piece in rest)
        note = f"… {several(len(rest), 'more ' + what)}" + (f", {marked} of them marked" if marked else "")
        return [*(pieces[at] for at in sorted(order)), Text(note.split(" "), style="faint")]

    def block(self, block: Block, in_force: bool, depth: int) -> Stack:
        """What a block holds: rows, propositions, and then choices."""
        rows = self.listed([self.row(row, in_force) for row in block.rows], "row")
        logic = self.listed([self.proposition(logic, in_force) for logic in block.logic], "proposition")
        pieces: list[Piece] = [Stack([*rows, *logic])] if rows or logic else []
        if depth >= self.fold.depth and block.choices:
            return Stack([*pieces, Text([f"… {several(count(block)[1], 'choice')}"], style="faint")], 6)
        shown = block.choices[: self.fold.choices]
        boxes: list[Piece] = [self.choice(choice, in_force, depth) for choice in shown]
        pieces += [Flow(boxes)] if self.fold.is_brief and boxes else boxes
        if len(shown) < len(block.choices):
            pieces.append(Text(f"… {several(len(block.choices) - len(shown), 'more choice')}".split(" "), style="faint"))
        return Stack(pieces, 8)

    def choice(self, choice: Choice, in_force: bool, depth: int) -> Box:
        """A disjunction: its options beside one another."""
        head = {"xor": "exactly one of", "or": "one or more of"}[choice.mode]
        style = "strong"
        if self.point is not None and in_force:
            number = sum(option.name in self.point.truths for option in choice.options)
            if number == 0 or (choice.mode == "xor" and number > 1):
                head, style = f"{FAILS} {number} taken, not {head}", "wrong"
        if self.fold.is_brief:
            return Box(f"{head} {len(choice.options)}", self.brief(choice, in_force, depth), "choice", style)
        options = sorted(choice.options, key=lambda option: not self.is_taken(option))[: self.fold.options]
        boxes: list[Piece] = [self.option(option, in_force, depth) for option in choice.options if option in options]
        if len(options) < len(choice.options):
            boxes.append(Text(f"… {several(len(choice.options) - len(options), 'more')}".removesuffix("s").split(" "), style="faint"))
        return Box(head, Flow(boxes), "choice", style)

    def brief(self, choice: Choice, in_force: bool, depth: int) -> Stack:
        """The names of a choice's options, or of those that are taken, with what is marked in them."""
        named = [option for option in choice.options if self.point is None or self.is_taken(option)]
        shown = named[: self.fold.options]
        rest = [Text([f"… {len(named) - len(shown)} more"], style="faint", indent=0)] if len(shown) < len(named) else []
        if self.point is None:
            return Stack([*(Text([option.name], indent=0) for option in shown), *rest])
        return Stack([*(self.brief_option(option, in_force, depth) for option in shown), *rest], 4)

    def brief_option(self, option: Option, in_force: bool, depth: int) -> Box:
        """An option that is taken: its rows and propositions are counted, its choices shown."""
        pieces = [self.row(row, in_force) for row in option.rows] + [self.proposition(logic, in_force) for logic in option.logic]
        told_of = [several(len(option.rows), "row")] if option.rows else []
        for mark in (TIGHT, FAILS):
            number = sum(piece.mark == mark for piece in pieces)
            told_of += [f"{number} {mark}"] if number else []
        inner: list[Piece] = [Text([", ".join(told_of)], style="faint", indent=0)] if told_of else []
        below = self.block(Option(choices=option.choices), in_force, depth + 1)
        return Box(f"{TAKEN if in_force else FAILS} {option.name}", Stack([*inner, *below.pieces], 4), "taken", "light")

    def is_taken(self, option: Option) -> bool:
        """Whether the point takes it."""
        return self.point is not None and option.name in self.point.truths

    def option(self, option: Option, in_force: bool, depth: int) -> Box:
        """A disjunct with what it holds."""
        if self.point is None:
            return Box(option.name, self.block(option, True, depth + 1), "open")
        if self.is_taken(option):
            mark = TAKEN if in_force else FAILS
            return Box(f"{mark} {option.name}", self.block(option, in_force, depth + 1), "taken", "light")
        if self.fold.shows_left:
            return Box(option.name, self.block(option, False, depth + 1), "left", "faint")
        return Box(option.name, self.counts(option), "left", "faint")

    def counts(self, block: Block) -> Piece:
        """What is folded away, counted."""
        rows, choices = count(block)
        words = [several(rows, "row")] if rows else []
        words += [several(choices, "choice")] if choices else []
        return Text(["… " + ", ".join(words)], style="faint") if words else Stack([])

    def heading(self) -> list[Piece]:
        """What is planned, the verdict and the goal."""
        pieces: list[Piece] = [Heading(self.model.title)] if self.model.title else []
        if self.verdict:
            pieces.append(Text(self.verdict.split(" "), style="strong" if self.verdict[0] != FAILS else "wrong", indent=0))
        goal = self.model.goal.words() if self.model.sense else []
        if goal and self.point is not None:
            value = told(self.model.goal.value(self.point.values))
            goal = [*goal, value.replace("≈", "≈ ") if "≈" in value else f"= {value}"]
        if goal:
            pieces.append(Text([self.model.sense, *goal], style="strong", indent=0, most=self.fold.lines))
        return pieces

    def quantities(self) -> list[Piece]:
        """The variables with their values, and the Booleans that are no indicators."""
        values = self.point.values if self.point is not None else {}
        steps = self.point.steps if self.point is not None else {}
        items = [Quantity(variable, values.get(variable.name), steps.get(variable.name, Fraction(0))) for variable in self.model.variables]
        order = sorted(range(len(items)), key=lambda at: (not values.get(items[at].variable.name), at))[: self.fold.variables]
        pieces: list[Piece] = [Grid([items[at] for at in sorted(order)])]
        if len(order) < len(items):
            pieces.append(Text(f"… {several(len(items) - len(order), 'more variable')}".split(" "), style="faint", indent=0))
        if self.model.plain:
            truths = self.point.truths if self.point is not None else set()
            told_of = [f"{TAKEN} {name}" if name in truths else f"not {name}" if self.point else name for name in self.model.plain]
            pieces.append(Text(("Booleans: " + ", ".join(told_of)).split(" "), indent=0))
        return pieces

    def legend(self) -> Piece:
        """What the marks say."""
        if self.point is None:
            return Stack([])
        words = [f"{TIGHT} nothing to spare (nor has an equation)"]
        if self.model.choices:
            left = [] if self.fold.is_brief else ["dashed: not taken, so its rows need not hold"]
            words = [f"{TAKEN} taken", *words, *left]
        if self.point.steps:
            words.append("k: any whole number from 0 on")
        if self.verdict.startswith(FAILS):
            words.append(f"{FAILS} fails")
        return Text([*(f"{word} ·" for word in words[:-1]), words[-1]], style="faint", indent=0)

    def piece(self, fold: Fold) -> Stack:
        """The whole picture, so far folded."""
        self.fold = fold
        parts = [Stack(self.heading(), 2), Stack(self.quantities(), 4), self.block(self.model, True, 0), self.legend()]
        return Stack([part for part in parts if part.height(WIDTH)], 12)


@dataclass
class Heading(Piece):
    """The first sentence of a model, in greater letters."""

    words: str

    def lines(self, width: float) -> list[str]:
        """Its lines."""
        return broken(self.words.split(), int(width / LETTER / 1.16), 2)

    def natural(self) -> float:
        return len(self.words) * LETTER * 1.16

    def height(self, width: float) -> float:
        return 21 * len(self.lines(width)) + 3

    def draw(self, canvas: Canvas, x: float, y: float, width: float) -> None:
        for at, line in enumerate(self.lines(width)):
            canvas.text(x, y + 21 * at, line, "title")


def count(block: Block) -> tuple[int, int]:
    """The rows and the choices of a block, with all that is below it."""
    rows, choices = len(block.rows), len(block.choices)
    for option in options_of(block):
        below = count(option)
        rows, choices = rows + below[0], choices + below[1]
    return rows, choices


def options_of(block: Block) -> Iterable[Option]:
    """The disjuncts directly in a block."""
    return (option for choice in block.choices for option in choice.options)


def plan_picture(model: Model, point: Point | None, verdict: str) -> str:
    """The SVG text of a plan, folded so far that it fits a page."""
    plan = Plan(model, point, verdict)
    for fold in FOLDS:
        piece = plan.piece(fold)
        if piece.height(WIDTH - 2 * EDGE) <= PAGE:
            break
    return picture(piece, model.title or "a plan")
