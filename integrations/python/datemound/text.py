"""The canonical text of a model, line by line, with what each line came from."""

from __future__ import annotations

from typing import TYPE_CHECKING, NamedTuple, Union

from .blocks import Block, Disjunct, Disjunction
from .errors import ModelError
from .expressions import Row, Sum, Var
from .places import Place
from .propositions import Atom, Boolean, Proposition

if TYPE_CHECKING:
    from .model import Model

MOST_DEEP = 8


class Goal:
    """What is to be as small or as great as possible."""

    __slots__ = ("sense", "expression", "place")

    def __init__(self, sense: str, expression: Sum, place: Place) -> None:
        self.sense, self.expression, self.place = sense, expression, place

    def text(self) -> str:
        """The goal's line in a model's text."""
        return f"{self.sense} {self.expression}"


#: What a line of the text comes from.
Item = Union[Var, Boolean, Goal, Row, Disjunction, Disjunct, Proposition, None]


class Line(NamedTuple):
    """A line of the text, and what it came from; None for the first line and for a goal that nobody set."""

    text: str
    item: Item


class Text:
    """The text of a model as it was when this was made. `str` gives the text itself."""

    def __init__(self, model: Model) -> None:
        writer = _Writer(model)
        writer.write()
        self.lines: list[Line] = writer.lines
        self.variables = {var.name: var for var in writer.variables}
        self.truths: dict[str, Atom] = writer.declared

    def __str__(self) -> str:
        return "".join(f"{line.text}\n" for line in self.lines)

    def item_at(self, line: int) -> Item:
        """What the line of this number came from, counted from 1; None where there is no such line, or nothing made it."""
        return self.lines[line - 1].item if 1 <= line <= len(self.lines) else None


class _Writer:
    """Collects what a model has, tests names and places, and writes the lines."""

    def __init__(self, model: Model) -> None:
        self.model = model
        self.lines: list[Line] = []
        self.disjuncts: dict[str, Disjunct] = {}
        variables: dict[Var, None] = dict.fromkeys(var for var in model.declared if isinstance(var, Var))
        booleans: dict[Boolean, None] = dict.fromkeys(item for item in model.declared if isinstance(item, Boolean))
        if model.goal:
            variables.update(dict.fromkeys(model.goal.expression.terms))
        self.collect(model, variables, booleans, 0)
        self.variables = sorted(variables, key=lambda var: var.serial)
        self.booleans = sorted(booleans, key=lambda boolean: boolean.serial)
        self.refuse_names_twice()
        # Those that may be named at the line that is written next.
        self.declared: dict[str, Atom] = {}

    def collect(self, block: Block, variables: dict[Var, None], booleans: dict[Boolean, None], depth: int) -> None:
        """Finds the variables, Booleans and disjuncts of a block."""
        for row in block.rows:
            variables.update(dict.fromkeys(row.terms))
        for proposition in block.propositions:
            booleans.update(dict.fromkeys(atom for atom in proposition.atoms() if isinstance(atom, Boolean)))
        for disjunction in block.disjunctions:
            for disjunct in disjunction.disjuncts:
                self.enter(disjunct, depth + 1)
                self.collect(disjunct, variables, booleans, depth + 1)

    def enter(self, disjunct: Disjunct, depth: int) -> None:
        known = self.disjuncts.get(disjunct.name)
        if known is disjunct:
            raise ModelError(f"the {_kind(disjunct)} made at {disjunct.place} stands in the model twice: make one for each place")
        if known is not None:
            raise ModelError(_twice(known, disjunct))
        if depth > MOST_DEEP:
            raise ModelError(f"the {_kind(disjunct)} made at {disjunct.place} stands more than {MOST_DEEP} disjuncts deep")
        self.disjuncts[disjunct.name] = disjunct

    def refuse_names_twice(self) -> None:
        found: dict[str, Var | Atom] = {}
        everything: list[Var | Atom] = [*self.variables, *self.booleans, *self.disjuncts.values()]
        for named in everything:
            if named.name in found:
                raise ModelError(_twice(found[named.name], named))
            found[named.name] = named

    def write(self) -> None:
        self.put("gdp 1", None)
        for var in self.variables:
            self.put(var.text(), var)
        for boolean in self.booleans:
            self.put(f"boolean {boolean.name}", boolean)
            self.declared[boolean.name] = boolean
        goal = self.model.goal
        self.put(goal.text() if goal else "min 0", goal)
        self.block(self.model)

    def block(self, block: Block) -> None:
        for row in block.rows:
            self.put(row.text(), row)
        for disjunction in block.disjunctions:
            self.put(disjunction.text(), disjunction)
            for disjunct in disjunction.disjuncts:
                self.put(f"disjunct {disjunct.name}", disjunct)
                self.declared[disjunct.name] = disjunct
                self.block(disjunct)
                self.put("end", disjunct)
            self.put("end", disjunction)
        for proposition in block.propositions:
            for atom in proposition.atoms():
                if self.declared.get(atom.name) is not atom:
                    raise ModelError(self.why_unknown(atom, block))
            self.put(f"logic {proposition.text()}", proposition)

    def why_unknown(self, atom: Atom, block: Block) -> str:
        known = self.disjuncts.get(atom.name)
        if known is not None and known is not atom:
            return f"{_twice(known, atom)}; the second stands in no Disjunction of the model"
        if known is None:
            return f"logic names the {_kind(atom)} made at {atom.place}, which stands in no Disjunction of the model"
        own = block.name if isinstance(block, Disjunct) else ""
        return (
            f"logic in the Disjunct {own!r} names the Disjunct {atom.name!r}, which comes later in the model: "
            f"add the Disjunction of {atom.name!r} first, or say it outside: implies({own}, ..)"
        )

    def put(self, text: str, item: Item) -> None:
        self.lines.append(Line(text, item))


def _kind(named: Var | Atom) -> str:
    return f"{type(named).__name__} {named.name!r}"


def _twice(first: Var | Atom, second: Var | Atom) -> str:
    made = [f"the {type(named).__name__} made at {named.place}" for named in (first, second)]
    return f"the name {first.name!r} is taken twice: by {made[0]} and {made[1]}"


def place_of(item: Item) -> Place | None:
    """The line of Python that made an item."""
    return None if item is None else item.place


def named_item(item: Item) -> str:
    """An item in a message: its line, not too long, and where it was made."""
    if item is None:
        return ""
    text = f"disjunct {item.name}" if isinstance(item, Disjunct) else f"boolean {item.name}" if isinstance(item, Boolean) else item.text()
    if isinstance(item, Proposition) and not isinstance(item, Atom):
        text = f"logic {text}"
    return f"`{text if len(text) <= 200 else text[:200] + ' ..'}`, made at {item.place}"
