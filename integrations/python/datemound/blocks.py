"""What rows, choices and logic stand in: disjunctions, disjuncts, and what models and disjuncts have in common."""

from __future__ import annotations

from typing import Any, Iterable, Iterator, NoReturn, Self, Union

from .errors import ModelError
from .expressions import Linear, Row
from .places import place_of_caller
from .propositions import Atom, Connective, Proposition

#: What is added to a model or a disjunct: a row, a proposition, a disjunction, or a list (or another iterable) of such.
Items = Union[Row, Proposition, "Disjunction", Iterable["Items"]]


class Block:
    """Rows, disjunctions and propositions that hold together. They are tested and written in this order."""

    def __init__(self, items: Iterable[Items] = ()) -> None:
        self.rows: list[Row] = []
        self.disjunctions: list[Disjunction] = []
        self.propositions: list[Proposition] = []
        self.add(*items)

    def add(self, *items: Items) -> None:
        """Adds rows, propositions and disjunctions, which hold where the block does.

        A Boolean or a disjunct added by itself says that it is true. Errors: a `ModelError` for anything else, and then nothing is added.
        """
        for item in list(_opened(items)):
            if isinstance(item, Row):
                self.rows.append(item)
            elif isinstance(item, Disjunction):
                self.disjunctions.append(item)
            else:
                self.propositions.append(item)

    def __setattr__(self, name: str, value: object) -> None:
        """Refuses what would only look as if it were added: `block.c = x <= 3`."""
        if isinstance(value, (Row, Connective, Disjunction)):
            raise ModelError(f"`.{name} = {value!r}` adds nothing: write .add(..) for what is to hold")
        super().__setattr__(name, value)

    def __iadd__(self, item: Items) -> Self:
        """`block += item` is `block.add(item)`."""
        self.add(item)
        return self


class Disjunct(Atom, Block):
    """A block that holds where it is taken: `Disjunct("old_line", product == 2 * feed, fixed == 10)`.

    It is a proposition too, true where it is taken. What it holds may also be added later, by `add`. Errors: a `ModelError` for a bad name
    or for what is no row, proposition or disjunction.
    """

    def __init__(self, name: str, *items: Items) -> None:
        Atom.__init__(self, name)
        Block.__init__(self, items)


class Disjunction:
    """A choice: of its disjuncts exactly one is taken, or with `xor=False` one at least.

    `Disjunction(a, b)`, or with a list, `Disjunction([a, b], xor=False)`. It holds in a model, or in a disjunct, once it is added there.
    Errors: a `ModelError` where one is no disjunct, or there is none.
    """

    __slots__ = ("disjuncts", "xor", "place")

    def __init__(self, *disjuncts: Disjunct | Iterable[Disjunct], xor: bool = True) -> None:
        found: list[Disjunct] = []
        for part in disjuncts:
            found += [part] if not isinstance(part, Iterable) else part
        for disjunct in found:
            if not isinstance(disjunct, Disjunct):
                raise ModelError(f"{disjunct!r} is no Disjunct: a Disjunction has Disjuncts, each with a name: Disjunct('name', rows)")
        if not found:
            raise ModelError("a Disjunction has one Disjunct at least")
        self.disjuncts = tuple(found)
        self.xor = bool(xor)
        self.place = place_of_caller()

    def text(self) -> str:
        """The first line of the disjunction in a model's text."""
        return f"disjunction {'xor' if self.xor else 'or'}"

    def __bool__(self) -> NoReturn:
        raise ModelError("a Disjunction has no truth value of Python: add it to the model")

    def __repr__(self) -> str:
        return f"<{self.text()}: {', '.join(disjunct.name for disjunct in self.disjuncts)}>"


def _opened(items: Iterable[Items]) -> Iterator[Row | Proposition | Disjunction]:
    """The items, those of lists among them one by one."""
    for item in items:
        if isinstance(item, (Row, Proposition, Disjunction)):
            yield item
        elif isinstance(item, Iterable) and not isinstance(item, (str, bytes)):
            yield from _opened(item)
        else:
            raise ModelError(_why_no_item(item))


def _why_no_item(item: Any) -> str:
    if isinstance(item, bool):
        return f"{item} is a truth value of Python: a comparison in which no variable stands makes one, and no row"
    if isinstance(item, Linear):
        return f"{item} is a sum and no row: compare it by <=, == or >=, or make it the goal by minimize or maximize"
    if isinstance(item, str):
        return f"{item!r} is text and no row; rows have no names"
    if item is None:
        return "None is no row: a function that makes rows has to return them"
    return f"{item!r} is no row, proposition or disjunction"
