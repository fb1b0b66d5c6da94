"""Exact numbers: what may be written for one, and why a float may not."""

from __future__ import annotations

import math
import numbers
import re
from decimal import Decimal
from fractions import Fraction
from typing import Union

from .errors import ModelError

#: What may be written for a number. Text is digits (`"40"`), a fraction (`"3/5"`) or a decimal (`"0.75"`), with or without a sign.
Number = Union[int, Fraction, Decimal, str]

_TEXT = re.compile(r"[-+]?[0-9]+(?:[./][0-9]+)?")


def exact(value: object) -> Fraction:
    """The number that is written, exactly.

    Errors: a `ModelError` for a float, a truth value, a text that is no number, or anything else.
    """
    if type(value) is int:
        return Fraction(value)
    if isinstance(value, bool):
        raise ModelError(f"{value} is a truth value of Python and no number: write {int(value)}")
    if isinstance(value, float):
        raise ModelError(_about_float(value))
    if isinstance(value, numbers.Rational):
        return Fraction(int(value.numerator), int(value.denominator))
    if isinstance(value, Decimal):
        if not value.is_finite():
            raise ModelError(f"{value!r} is no finite number; as a bound None leaves that side open")
        return Fraction(value)
    if isinstance(value, str):
        return _of_text(value)
    raise ModelError(f"{_shown(value)} is no number: write an int, a Fraction, a Decimal, or text such as '0.75' or '3/5'")


def as_printed(value: float) -> Fraction:
    """The decimal that a float prints as, exactly: `as_printed(0.1)` is one tenth.

    For numbers that come from elsewhere as floats. Errors: a `ModelError` where it is infinite or no number.
    """
    if not math.isfinite(value):
        raise ModelError(f"{value!r} is no finite number; as a bound None leaves that side open")
    return Fraction(repr(float(value)))


def _of_text(text: str) -> Fraction:
    if not _TEXT.fullmatch(text.strip(" \t")):
        raise ModelError(f"{text!r} is no number: write digits ('40'), a fraction ('3/5') or a decimal ('0.75'), without blanks or exponent")
    try:
        return Fraction(text)
    except ZeroDivisionError:
        raise ModelError(f"{text!r} is no number: its denominator is 0") from None


def _about_float(value: float) -> str:
    if not math.isfinite(value):
        return f"{value!r} is a float and no number; as a bound None leaves that side open"
    value = float(value)
    printed = format(Decimal(repr(value)), "f")
    found = Fraction(printed)
    holds = "" if Fraction(value) == found else f", and holds {Decimal(value):.20g} and not {printed}"
    return (
        f"{value!r} is a float{holds}: write {printed!r} in quotes, Decimal({printed!r}) or Fraction({found.numerator}, {found.denominator}); "
        f"as_printed({value!r}) takes a float as the decimal that it prints as"
    )


def _shown(value: object) -> str:
    """A value in a message, not too long."""
    text = repr(value)
    return text if len(text) <= 60 else f"a {type(value).__name__}"
