"""Booleans, and the logic over them and over disjuncts.

A proposition is a `Boolean`, a `Disjunct` (it is taken), or a connective: `land`, `lor`, `lnot`, `implies`, `equivalent`, `xor`, `exactly`,
`atleast`, `atmost`. It holds in a model, or in a disjunct, once it is added there.
"""

from __future__ import annotations

import itertools
from typing import Iterable, Iterator, NoReturn, Union

from .errors import ModelError
from .names import checked_name
from .places import Place, place_of_caller

#: A proposition, or a list (or another iterable) of them.
Propositions = Union["Proposition", Iterable["Propositions"]]

MOST_LEVELS, MOST_NODES = 16, 5_000

_SERIALS = itertools.count()


class Proposition:
    """What is true or false in a plan. `levels` and `nodes` are its depth and its size, a name having one of each; `place` is
    the line of Python that made it."""

    __slots__ = ()
    __hash__ = object.__hash__

    levels: int
    nodes: int
    place: Place

    def text(self) -> str:
        """The proposition in a model's text, without the word `logic`."""
        raise NotImplementedError

    def atoms(self) -> Iterator[Atom]:
        """The Booleans and disjuncts that it names, each as often as it stands."""
        raise NotImplementedError

    def __invert__(self) -> Connective:
        return lnot(self)

    def land(self, *others: Propositions) -> Connective:
        """`p.land(q)` is `land(p, q)`, and so with the other connectives that Pyomo has as methods."""
        return land(self, *others)

    def lor(self, *others: Propositions) -> Connective:
        return lor(self, *others)

    def implies(self, conclusion: Proposition) -> Connective:
        return implies(self, conclusion)

    def equivalent_to(self, other: Proposition) -> Connective:
        return equivalent(self, other)

    def xor(self, other: Proposition) -> Connective:
        return xor(self, other)

    def __bool__(self) -> NoReturn:
        raise ModelError(
            f"{self} is used as a truth value of Python, but is known only once the model is solved: write land(a, b), lor(a, b) and lnot(a) "
            "for `a and b`, `a or b` and `not a`"
        )

    def __eq__(self, other: object) -> NoReturn:
        raise ModelError("propositions are not compared by == and !=: write equivalent(a, b) or xor(a, b)")

    __ne__ = __eq__

    def refuse_as_number(self, *_: object) -> NoReturn:
        """Errors: a `ModelError` always."""
        raise ModelError(
            f"{self} is no number, so it stands in no sum and no row: put the row into a Disjunct where it is to hold only then, "
            "or count by exactly, atleast and atmost"
        )

    __add__ = __radd__ = __sub__ = __rsub__ = __mul__ = __rmul__ = __neg__ = __le__ = __ge__ = __lt__ = __gt__ = refuse_as_number

    def __str__(self) -> str:
        return self.text()

    def __repr__(self) -> str:
        return f"<{self.text()}>"


class Atom(Proposition):
    """A proposition that is a name: a Boolean, or a disjunct."""

    __slots__ = ("name", "place", "serial")

    levels = nodes = 1

    def __init__(self, name: str) -> None:
        self.name = checked_name(name)
        self.place = place_of_caller()
        self.serial = next(_SERIALS)

    def text(self) -> str:
        return self.name

    def atoms(self) -> Iterator[Atom]:
        yield self


class Boolean(Atom):
    """A truth value of a model that enforces nothing by itself: `Boolean("night_shift")`.

    In a model's text Booleans stand in the order in which they were made. Errors: a `ModelError` for a bad name.
    """

    __slots__ = ()


class Connective(Proposition):
    """A word with propositions below it, and before them a number where the word counts."""

    __slots__ = ("word", "number", "arguments", "place", "levels", "nodes")

    def __init__(self, word: str, number: int | None, arguments: tuple[Proposition, ...]) -> None:
        self.word, self.number, self.arguments = word, number, arguments
        self.place = place_of_caller()
        self.levels = 1 + max(argument.levels for argument in arguments)
        self.nodes = 1 + sum(argument.nodes for argument in arguments)
        if self.levels > MOST_LEVELS:
            raise ModelError(f"{word}: the proposition has more than {MOST_LEVELS} levels, a name having one and lnot(p) one more than p")
        if self.nodes > MOST_NODES:
            raise ModelError(f"{word}: the proposition has more than {MOST_NODES:,} names and connectives")

    def text(self) -> str:
        number = [] if self.number is None else [str(self.number)]
        return f"{self.word}({', '.join(number + [argument.text() for argument in self.arguments])})"

    def atoms(self) -> Iterator[Atom]:
        for argument in self.arguments:
            yield from argument.atoms()


def land(*parts: Propositions) -> Connective:
    """All of them are true."""
    return Connective("and", None, _listed("land", parts))


def lor(*parts: Propositions) -> Connective:
    """One of them at least is true."""
    return Connective("or", None, _listed("lor", parts))


def lnot(part: Proposition) -> Connective:
    """It is false."""
    return Connective("not", None, _listed("lnot", (part,), 1))


def implies(condition: Proposition, conclusion: Proposition) -> Connective:
    """Where the first is true, the second is."""
    return Connective("implies", None, _listed("implies", (condition, conclusion), 2))


def equivalent(one: Proposition, other: Proposition) -> Connective:
    """Both are true, or both are false."""
    return Connective("equivalent", None, _listed("equivalent", (one, other), 2))


def xor(one: Proposition, other: Proposition) -> Connective:
    """One of the two is true and the other isn't. For more than two write `exactly(1, ..)`."""
    return Connective("xor", None, _listed("xor", (one, other), 2))


def exactly(number: int, *parts: Propositions) -> Connective:
    """This many of them are true."""
    return Connective("exactly", _counted("exactly", number), _listed("exactly", parts))


def atleast(number: int, *parts: Propositions) -> Connective:
    """This many of them or more are true."""
    return Connective("atleast", _counted("atleast", number), _listed("atleast", parts))


def atmost(number: int, *parts: Propositions) -> Connective:
    """This many of them or fewer are true."""
    return Connective("atmost", _counted("atmost", number), _listed("atmost", parts))


def _counted(word: str, number: object) -> int:
    if isinstance(number, bool) or not isinstance(number, int) or not 0 <= number <= 1000:
        raise ModelError(f"{word} has a whole number from 0 to 1000 first, and then the propositions: {word}(1, a, b)")
    return number


def _listed(word: str, parts: Iterable[Propositions], count: int | None = None) -> tuple[Proposition, ...]:
    """The propositions of a connective, lists among them opened. Errors: a `ModelError` where one is none, or there are too few."""
    found = tuple(_opened(word, parts))
    if count is not None and len(found) != count:
        hint = "; for more than two write exactly(1, ..)" if word == "xor" else ""
        raise ModelError(f"{word} has {count} argument{'s' if count > 1 else ''}, and here are {len(found)}{hint}")
    if not found:
        raise ModelError(f"{word} has no proposition: it needs one at least")
    return found


def _opened(word: str, parts: Iterable[Propositions]) -> Iterator[Proposition]:
    for part in parts:
        if isinstance(part, Proposition):
            yield part
        elif isinstance(part, Iterable) and not isinstance(part, (str, bytes)):
            yield from _opened(word, part)
        else:
            raise ModelError(f"{word}: {part!r} is no proposition: write a Boolean, a Disjunct or a connective over them")
