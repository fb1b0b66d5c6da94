"""Variables, sums of them, and the rows that comparisons make.

All is immutable. A sum of whole and exact numbers times variables is made with `+`, `-`, `*` and `/`, a row with `<=`, `==` or `>=`.
"""

from __future__ import annotations

import itertools
from fractions import Fraction
from math import lcm
from typing import Iterable, Mapping, NoReturn

from .errors import ModelError
from .exact import Number, exact
from .names import checked_name
from .places import place_of_caller
from .propositions import Proposition

_SERIALS = itertools.count()

_ZERO, _ONE = Fraction(0), Fraction(1)


class Linear:
    """A sum of numbers times variables, and of a number: what variables and the sums of them are."""

    __slots__ = ()
    __hash__ = object.__hash__
    # Numbers of numpy leave the operators to this class.
    __array_ufunc__ = None

    terms: Mapping[Var, Fraction]
    constant: Fraction

    def __add__(self, other: Linear | Number) -> Sum:
        return _added(self, _ONE, as_linear(other))

    __radd__ = __add__

    def __sub__(self, other: Linear | Number) -> Sum:
        return _added(self, -_ONE, as_linear(other))

    def __rsub__(self, other: Linear | Number) -> Sum:
        return _added(as_linear(other), -_ONE, self)

    def __neg__(self) -> Sum:
        return _times(self, -_ONE)

    def __pos__(self) -> Sum:
        return _times(self, _ONE)

    def __mul__(self, other: Linear | Number) -> Sum:
        factor = as_linear(other)
        if factor.terms and self.terms:
            raise ModelError(f"({self}) * ({factor}) is a product of variables: rows and goals are linear, so one factor has to be a number")
        return _times(self, factor.constant) if self.terms else _times(factor, self.constant)

    __rmul__ = __mul__

    def __truediv__(self, other: Number) -> Sum:
        divisor = as_linear(other)
        if divisor.terms:
            raise ModelError(f"({self}) / ({divisor}) divides by a variable: rows and goals are linear, so the divisor has to be a number")
        if not divisor.constant:
            raise ModelError(f"({self}) / 0 is a division by 0")
        return _times(self, 1 / divisor.constant)

    def __rtruediv__(self, other: object) -> NoReturn:
        raise ModelError(f"{other} / ({self}) divides by a variable: rows and goals are linear, so the divisor has to be a number")

    def __pow__(self, other: object) -> NoReturn:
        raise ModelError(f"({self}) ** {other} is a power of a variable: rows and goals are linear")

    def __le__(self, other: Linear | Number) -> Row:
        return Row(self, "<=", as_linear(other))

    def __ge__(self, other: Linear | Number) -> Row:
        return Row(self, ">=", as_linear(other))

    def __eq__(self, other: Linear | Number) -> Row:  # type: ignore[override]
        return Row(self, "=", as_linear(other))

    def __ne__(self, other: object) -> NoReturn:
        raise ModelError("there are no rows with !=: write a Disjunction of one Disjunct below and one above")

    def __lt__(self, other: object) -> NoReturn:
        raise ModelError("there are no rows with <: write <=, and for a whole variable x < 5 is x <= 4")

    def __gt__(self, other: object) -> NoReturn:
        raise ModelError("there are no rows with >: write >=, and for a whole variable x > 5 is x >= 6")

    def __bool__(self) -> NoReturn:
        raise ModelError(f"{self} has no truth value: it is a sum of variables, whose values are known only once the model is solved")

    def __str__(self) -> str:
        text = sum_text(self.terms)
        if not text:
            return str(self.constant)
        sign = "-" if self.constant < 0 else "+"
        return f"{text} {sign} {abs(self.constant)}" if self.constant else text


class Var(Linear):
    """A quantity of a model: `Var("feed", 0, 100)` lies from 0 to 100, both included.

    `low` and `high` are in the unit of the quantity, which is yours to choose and to keep; None leaves that side open. `bounds=(low, high)`
    says both at once. With `whole=True` its values are whole numbers. In a model's text variables stand in the order in which they were made.

    Errors: a `ModelError` for a bad name or number, and where `low` exceeds `high`.
    """

    __slots__ = ("name", "low", "high", "whole", "place", "serial")

    def __init__(
        self,
        name: str,
        low: Number | None = None,
        high: Number | None = None,
        *,
        bounds: tuple[Number | None, Number | None] | None = None,
        whole: bool = False,
    ) -> None:
        self.name = checked_name(name)
        if bounds is not None:
            if low is not None or high is not None:
                raise ModelError(f"Var({name!r}) has its bounds twice: write low and high, or bounds=(low, high)")
            if not isinstance(bounds, (tuple, list)) or len(bounds) != 2:
                raise ModelError(f"Var({name!r}): bounds are a pair (low, high), with None where a side is open")
            low, high = bounds
        self.low = None if low is None else exact(low)
        self.high = None if high is None else exact(high)
        if self.low is not None and self.high is not None and self.low > self.high:
            raise ModelError(f"Var({name!r}): the low bound {self.low} exceeds the high bound {self.high}")
        self.whole = bool(whole)
        self.place = place_of_caller()
        self.serial = next(_SERIALS)

    @property
    def terms(self) -> Mapping[Var, Fraction]:  # type: ignore[override]
        return {self: _ONE}

    @property
    def constant(self) -> Fraction:  # type: ignore[override]
        return _ZERO

    def text(self) -> str:
        """The variable's line in a model's text."""
        low = "-inf" if self.low is None else self.low
        high = "inf" if self.high is None else self.high
        return f"var {self.name} {'int' if self.whole else 'real'} {low} {high}"

    def __str__(self) -> str:
        return self.name

    def __repr__(self) -> str:
        return f"<{self.text()}>"


class Sum(Linear):
    """A sum as operators make it. No number in `terms` is 0."""

    __slots__ = ("terms", "constant")

    def __init__(self, terms: Mapping[Var, Fraction], constant: Fraction) -> None:
        self.terms = {var: number for var, number in terms.items() if number}
        self.constant = constant

    def __repr__(self) -> str:
        return f"<{self}>"


class Row:
    """A constraint as a comparison makes it: the sum of `terms` stands in `relation` (`<=`, `>=` or `=`) to the number `right`.

    `place` is the line of Python that made it. A row holds in a model, or in a disjunct, once it is added there.
    """

    __slots__ = ("terms", "relation", "right", "place")

    def __init__(self, left: Linear, relation: str, right: Linear) -> None:
        difference = _added(left, -_ONE, right)
        self.terms, self.relation, self.right = difference.terms, relation, -difference.constant
        self.place = place_of_caller()

    def text(self) -> str:
        """The row's line in a model's text: in whole numbers, by the least factor that makes them whole."""
        scale = lcm(self.right.denominator, *(number.denominator for number in self.terms.values()))
        whole = {var: number * scale for var, number in self.terms.items()}
        return f"row {sum_text(whole) or '0'} {self.relation} {self.right * scale}"

    def __repr__(self) -> str:
        return f"<{self.text()}>"

    def __bool__(self) -> NoReturn:
        raise ModelError(
            f"`{self.text()}` is used as a truth value, which a row has not: a chained comparison such as 0 <= x <= 10 is two rows, 0 <= x and "
            "x <= 10, each added by itself, or the bounds of the variable; `if`, `and`, `or`, `not` and `in` can't look into a row"
        )

    def _not_compared(self, other: object) -> NoReturn:
        raise ModelError(f"`{self.text()}` is compared once more: (0 <= x) <= 10 is two rows, 0 <= x and x <= 10, each added by itself")

    __le__ = __ge__ = __lt__ = __gt__ = _not_compared


def as_linear(value: Linear | Number) -> Linear:
    """The sum that a sum, a variable or a number is. Errors: a `ModelError` where it is none of them."""
    if isinstance(value, Proposition):
        value.refuse_as_number()
    return value if isinstance(value, Linear) else Sum({}, exact(value))


def quicksum(parts: Iterable[Linear | Number]) -> Sum:
    """The sum of many parts, in time linear in their terms; Python's `sum` gives the same and takes the square of it."""
    terms: dict[Var, Fraction] = {}
    constant = _ZERO
    for part in map(as_linear, parts):
        if part.constant:
            constant += part.constant
        for var, number in part.terms.items():
            terms[var] = terms[var] + number if var in terms else number
    return Sum(terms, constant)


def sum_text(terms: Mapping[Var, Fraction]) -> str:
    """Terms as the canonical text has them, in the order of the variables; nothing where there are none."""
    text = ""
    for var in sorted(terms, key=lambda var: var.serial):
        number = terms[var]
        if text:
            text += " - " if number < 0 else " + "
        elif number < 0:
            text = "-"
        text += f"{abs(number)} {var.name}"
    return text


def _added(left: Linear, factor: Fraction, right: Linear) -> Sum:
    terms = dict(left.terms)
    for var, number in right.terms.items():
        terms[var] = terms.get(var, _ZERO) + factor * number
    return Sum(terms, left.constant + factor * right.constant)


def _times(expression: Linear, factor: Fraction) -> Sum:
    if isinstance(expression, Var):
        return Sum({expression: factor}, _ZERO)
    return Sum({var: factor * number for var, number in expression.terms.items()}, factor * expression.constant)
