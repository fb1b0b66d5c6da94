"""What `gdp` answers, read: results with exact numbers, tests of points, and verdicts on certificates."""

from __future__ import annotations

import re
from dataclasses import dataclass, field
from fractions import Fraction
from math import lcm
from typing import Any, Iterator, Mapping, TypeVar, Union

from . import calls
from .calls import ANSWER, MODEL, MOST_STEPS, POINT, ROUTES
from .errors import ModelError
from .exact import Number, exact
from .expressions import Var
from .places import Place
from .propositions import Atom
from .text import Item, Text, named_item, place_of

T = TypeVar("T")

#: A point: of each variable its number, and of Booleans and disjuncts whether they are true, by the objects or their names.
Point = Mapping[Any, Union[Number, bool]]


class ByName(Mapping[str, T]):
    """What a result gives each name, in the order of the model; an object of the model may be asked by itself: `values[feed]`."""

    def __init__(self, found: Mapping[str, T], why_missing: str) -> None:
        self._found, self._why = dict(found), why_missing

    def __getitem__(self, key: str | Var | Atom) -> T:
        name = key if isinstance(key, str) else key.name
        if name not in self._found:
            raise KeyError(self._why or f"{name} is not in the model")
        return self._found[name]

    def __iter__(self) -> Iterator[str]:
        return iter(self._found)

    def __len__(self) -> int:
        return len(self._found)

    def __repr__(self) -> str:
        return f"{{{', '.join(f'{name}: {value}' for name, value in self._found.items())}}}"


@dataclass(frozen=True)
class Stop:
    """Why and where a search gave up.

    `reason` is the word of the log: `steps`, or where a number would leave 128 bits (`entry`, `over`, `ray`, `leaf`, `sum`, `raysum`,
    `value`), with the numbers of the place; of `sum` and `raysum` the item at whose test that is.
    """

    reason: str
    numbers: tuple[int, ...]
    item: Item = None

    @property
    def place(self) -> Place | None:
        """The line of Python that made the item."""
        return place_of(self.item)

    def __str__(self) -> str:
        if self.reason == "steps":
            return "the steps are used up and one more is due: give more, try another route, or give closer bounds"
        at = f" at {named_item(self.item)}" if self.item is not None else ""
        where = " ".join([self.reason, *map(str, self.numbers)])
        return f"a number would leave 128 bits ({where}){at}: write coarser numbers, take units alike in size, or try another route"


@dataclass(frozen=True)
class Verdict:
    """What `gdp check` says of a certificate: `text` is `accepted`, `rejected: ..` or `wide: ..`. It is true where it is accepted."""

    text: str

    @property
    def is_accepted(self) -> bool:
        return self.text == "accepted"

    def __bool__(self) -> bool:
        return self.is_accepted

    def __str__(self) -> str:
        return self.text


@dataclass(frozen=True)
class PointTest:
    """What `gdp test` says of a point: `status` is `holds`, `fails` or `wide` (a number leaves 128 bits). It is true where the point holds.

    `item` is the variable, row, proposition, disjunction or disjunct whose test decides, and `place` the line of Python that made it.
    """

    status: str
    item: Item = None

    @property
    def place(self) -> Place | None:
        return place_of(self.item)

    def __bool__(self) -> bool:
        return self.status == "holds"

    def __str__(self) -> str:
        return self.status if self.item is None else f"{self.status} at {named_item(self.item)}"


@dataclass(frozen=True)
class Result:
    """What `gdp solve` answers.

    `status` is `best` (the point has the objective, and no point has a better one), `empty` (there is no point), `endless` (from the point
    on, adding `step` again and again, the objective gets better without end) or `gave_up` (nothing is claimed; `stop` says why and where, `log`
    is the search).
    `objective` is the best value, or None. `values` has each variable's number and `truths` whether each Boolean and disjunct is true; both
    are empty where there is no point. Numbers are a `Fraction`, in the units of the model. `certificate` is the answer's text with its proof, or
    None after a give-up. `text` is all that the program wrote.
    """

    status: str
    route: str
    text: str = field(repr=False)
    model_text: Text = field(repr=False, compare=False)
    objective: Fraction | None = None
    values: ByName[Fraction] = field(default_factory=lambda: ByName({}, ""))
    truths: ByName[bool] = field(default_factory=lambda: ByName({}, ""))
    step: ByName[Fraction] = field(default_factory=lambda: ByName({}, ""), repr=False)
    stop: Stop | None = None

    @property
    def certificate(self) -> str | None:
        return self.text if self.stop is None else None

    @property
    def log(self) -> str | None:
        return None if self.stop is None else self.text

    def check(self) -> Verdict:
        """Whether the certificate holds, by `gdp check`, which stands on no part of the solver.

        Errors: a `ModelError` after a give-up, where there is none; a `ProgramError`.
        """
        if self.certificate is None:
            raise ModelError(f"there is no certificate to check: {self.stop}")
        return checked(self.model_text, self.certificate)

    def __getitem__(self, key: str | Var | Atom) -> Fraction | bool:
        """The value of a variable, or whether a Boolean or a disjunct is true."""
        name = key if isinstance(key, str) else key.name
        return self.truths[name] if name in self.truths else self.values[name]

    def __str__(self) -> str:
        """The claim, the values, and the Booleans and disjuncts that are true, a line each; a fraction also as a decimal."""
        lines = [f"gave up: {self.stop}" if self.stop else self.status]
        if self.objective is not None:
            lines = [f"best {_shown(self.objective)}"]
        lines += [f"  {name} = {_shown(value)}" for name, value in self.values.items()]
        lines += [f"  {name}" for name, is_true in self.truths.items() if is_true]
        lines += [f"  step {name} = {value}" for name, value in self.step.items() if value]
        return "\n".join(lines)


def solved(text: Text, route: str, steps: int, progress: bool | None) -> Result:
    """Solves the model of a text."""
    if route not in ROUTES:
        raise ModelError(f"{route!r} is no route: write one of {', '.join(ROUTES)}")
    if isinstance(steps, bool) or not isinstance(steps, int) or not 1 <= steps <= MOST_STEPS:
        raise ModelError(f"steps={steps!r}: the most steps are a whole number from 1 to {MOST_STEPS:,}")
    ran = calls.ask(text, ["solve", route, str(steps), MODEL], progress=progress)
    try:
        return _gave_up(text, route, ran.out) if ran.status == 3 else _answered(text, route, ran.out)
    except (ValueError, IndexError, KeyError):
        raise calls.unexpected(ran) from None


def tested(text: Text, point: Result | Point) -> PointTest:
    """Tests a point of the model of a text."""
    ran = calls.ask(text, ["test", MODEL, POINT], {POINT: point_text(text, point)})
    found = re.fullmatch(r"(holds|fails|wide)(?: at line ([0-9]+))?\n", ran.out)
    if found is None:
        raise calls.unexpected(ran)
    return PointTest(found[1], text.item_at(int(found[2])) if found[2] else None)


def checked(text: Text, certificate: str) -> Verdict:
    """Checks an answer's text against the model of a text."""
    ran = calls.ask(text, ["check", MODEL, ANSWER], {ANSWER: certificate})
    if not re.fullmatch(r"accepted\n|(rejected|wide): .*\n", ran.out):
        raise calls.unexpected(ran)
    return Verdict(ran.out.strip())


def point_text(text: Text, point: Result | Point) -> str:
    """The text of a point. Errors: a `ModelError` where a variable has no number, or a key is not of the model."""
    if isinstance(point, Result):
        if not point.values:
            raise ModelError(f"this result has no point to test: it is {point.status}")
        return point_text(text, {name: point[name] for name in (*point.values, *point.truths)})
    values: dict[str, Fraction] = {}
    truths: list[str] = []
    for key, value in point.items():
        name = _name_in(text, key)
        if name in text.variables:
            values[name] = exact(value)
        elif not isinstance(value, bool):
            raise ModelError(f"{name} is a Boolean or a Disjunct, so the point says True or False of it, and not {value!r}")
        elif value:
            truths.append(name)
    missing = [name for name in text.variables if name not in values]
    if missing:
        raise ModelError(f"the point has no number for {', '.join(missing)}")
    over = lcm(*(value.denominator for value in values.values()))
    lines = ["gdp-point 1", f"over {over}"]
    lines += [f"val {name} {values[name] * over}" for name in text.variables]
    lines += [f"on {name}" for name in text.truths if name in truths]
    return "".join(f"{line}\n" for line in [*lines, "end"])


def _shown(number: Fraction) -> str:
    """A number, and in parentheses, where it is a fraction, its decimal, which is said where it is rounded."""
    if number.denominator == 1:
        return str(number)
    decimal = format(float(number), ".8g")
    return f"{number} ({'' if Fraction(decimal) == number else 'about '}{decimal})"


def _name_in(text: Text, key: object) -> str:
    name = key if isinstance(key, str) else key.name if isinstance(key, (Var, Atom)) else None
    if name is None:
        raise ModelError(f"{key!r} is no variable, Boolean, Disjunct or name of one")
    found = text.variables[name] if name in text.variables else text.truths.get(name)
    if found is None or not isinstance(key, str) and found is not key:
        raise ModelError(f"{name} is not in the model")
    return name


def _gave_up(text: Text, route: str, log: str) -> Result:
    header, *_, last = log.splitlines()
    word, reason, *numbers = last.split(" ")
    if header != "gdp-log 1" or word != "stop":
        raise ValueError(last)
    found = tuple(map(int, numbers))
    item = text.item_at(found[0]) if reason in ("sum", "raysum") else None
    stop = Stop(reason, found, item)
    why = f"the search gave up: {stop}"
    return Result("gave_up", route, log, text, values=ByName({}, why), truths=ByName({}, why), step=ByName({}, why), stop=stop)


def _answered(text: Text, route: str, answer: str) -> Result:
    header, _, claim, *rest = answer.splitlines()
    status, _, value = claim.partition(" ")
    if header != "gdp-answer 1" or status not in ("best", "empty", "endless"):
        raise ValueError(claim)
    if status == "empty":
        why = "the model is empty: it has no point"
        return Result(status, route, answer, text, values=ByName({}, why), truths=ByName({}, why), step=ByName({}, why))
    over = int(rest[0].removeprefix("over "))
    values, steps, on = {}, {}, set()
    for line in rest[1:]:
        word, _, told = line.partition(" ")
        name, _, number = told.partition(" ")
        if word == "val":
            values[name] = Fraction(int(number), over)
        elif word == "step":
            steps[name] = Fraction(int(number))
        elif word == "on":
            on.add(name)
        else:
            break
    truths = {name: name in on for name in text.truths}
    objective = Fraction(value) if status == "best" else None
    ray = ByName(steps, "" if steps else "only an endless result has steps")
    return Result(status, route, answer, text, objective, ByName(values, ""), ByName(truths, ""), ray)
