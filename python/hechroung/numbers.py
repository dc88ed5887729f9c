"""Decimals and fractions in, rounded to nearest and paid for in the radius; decimals out, rounded outward.

Everything here is exact up to one rounding that is named. Floats are refused: 0.1 as a float is another number than
the decimal 0.1.
"""

from collections.abc import Iterable
from decimal import Decimal, InvalidOperation
from fractions import Fraction
from typing import NamedTuple

from .limits import UNIT

Number = int | str | Decimal | Fraction
"""What is taken for a number: a whole one, text such as "-0.0312", "1e-3" or "1/3", a Decimal, a Fraction."""

MOST_DIGITS = 1000
"""A decimal with a larger exponent, either way, is a slip and not a measurement."""


class Rounded(NamedTuple):
    """Whole units for some numbers, and the radius that pays for the rounding.

    paid is what rounding the numbers cost, in units, exactly; the radius is that and the error, rounded up once.
    """

    coefficients: tuple[int, ...]
    radius: int
    paid: Fraction


def exact(value: Number) -> Fraction:
    """The number, as a fraction. TypeError for a float or what is no number, ValueError for text that is none."""
    if isinstance(value, float):
        raise TypeError(f"{value!r} is a float, which is not the decimal it shows: write it as text, '{value!r}'")
    if isinstance(value, str):
        return _read(value)
    if isinstance(value, Decimal):
        return _of_decimal(value)
    if isinstance(value, (int, Fraction)):
        return Fraction(value)
    raise TypeError(f"{value!r} is no number: an int, text, a Decimal or a Fraction is")


def _read(text: str) -> Fraction:
    try:
        return Fraction(text) if "/" in text else _of_decimal(Decimal(text))
    except (InvalidOperation, ValueError, ZeroDivisionError):
        raise ValueError(f"{text!r} is no number: '0.25', '-1e-3' and '1/3' are") from None


def _of_decimal(value: Decimal) -> Fraction:
    _, digits, exponent = value.as_tuple()
    if not isinstance(exponent, int):
        raise ValueError(f"{value} is not finite")
    if abs(exponent) > MOST_DIGITS or len(digits) > MOST_DIGITS:
        raise ValueError("a number has at most a thousand digits")
    return Fraction(value)


def rounded(values: Iterable[Number], error: Number = 0) -> Rounded:
    """The nearest whole unit of each number, halfway to the even one, and the radius that pays.

    A polynomial with these numbers as coefficients, known to the error, differs on the box from that with the rounded
    ones by at most the radius: no monomial and no Chebyshev polynomial is above 1 there. The radius is the error and
    all that rounding left, summed exactly and rounded up once.
    """
    if isinstance(values, str):
        raise TypeError(f"a row of numbers is asked for, and not the text {values!r}")
    units = [exact(value) * UNIT for value in values]
    coefficients = tuple(round(unit) for unit in units)
    paid = sum((abs(unit - c) for unit, c in zip(units, coefficients)), Fraction(0))
    allowed = exact(error) * UNIT
    if allowed < 0:
        raise ValueError(f"an error is at least 0, and not {error}")
    total = allowed + paid
    return Rounded(coefficients, -(-total.numerator // total.denominator), paid)


def units(value: Number) -> int:
    """The number in units, where that is a whole number; ValueError where it is not.

    For points, constants and thresholds, which have no radius that could pay for a rounding.
    """
    scaled = exact(value) * UNIT
    if scaled.denominator != 1:
        below = scaled.numerator // scaled.denominator
        raise ValueError(f"{value} is no whole number of units of 1/{UNIT}: it lies between {below} and {below + 1}")
    return scaled.numerator


def outward(low: int | Fraction, high: int | Fraction, digits: int = 6) -> tuple[Decimal, Decimal]:
    """A band of units as decimals with so many digits after the point: the low end rounded down, the high end up."""
    if not isinstance(digits, int) or not 0 <= digits <= MOST_DIGITS:
        raise ValueError(f"digits after the point are 0 to {MOST_DIGITS}, and not {digits!r}")
    if not all(isinstance(end, (int, Fraction)) for end in (low, high)):
        raise TypeError(f"the ends of a band are whole units or fractions of them, and not {low!r} and {high!r}")
    scale = Fraction(10 ** digits, UNIT)
    return _decimal(_floor(low * scale), digits), _decimal(-_floor(-high * scale), digits)


def _floor(value: Fraction) -> int:
    return value.numerator // value.denominator


def _decimal(scaled: int, digits: int) -> Decimal:
    """scaled / 10^digits, with just these digits: nothing is rounded by a context."""
    return Decimal((int(scaled < 0), tuple(map(int, str(abs(scaled)))), -digits))
