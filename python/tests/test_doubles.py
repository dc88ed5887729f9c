"""Curves in doubles: every float crosses as it is, and nothing else does."""

import math
from fractions import Fraction
from itertools import product

import pytest
from hechroung import UNIT, Refused, from_doubles
from hypothesis import given
from hypothesis import strategies as st

# Floats of every size: ties of units and their neighbours, the smallest and the largest.
TIES = [math.ldexp(2 * k + 1, power) for k in range(8) for power in (-21, -20, -22)]
SIZES = [0.0, 5e-324, 2.0 ** -1022, 1.0, 0.1, 2.0 ** 10, 2.0 ** 1023, 1.7976931348623157e308]
NEIGHBOURS = [math.nextafter(tie, toward) for tie in TIES for toward in (0.0, 1.0)]
FLOATS = [sign * value for value in [*TIES, *NEIGHBOURS, *SIZES] for sign in (1.0, -1.0)]
FLOATS += [math.inf, -math.inf, math.nan, -math.nan]
CURVE = (0.5, 0.1, -2.5, 0.25)


def by_the_machine(c0, c1, c2, radius):
    """The model of a curve by fractions and by rounding, which Python makes to even; or the refusal."""
    if not all(map(math.isfinite, (c0, c1, c2, radius))) or radius < 0:
        return 16
    units = [Fraction(c) * UNIT for c in (c0, c1, c2)]
    nearest = [round(unit) for unit in units]
    largest = math.ceil(Fraction(radius) * UNIT) + sum(unit != c for unit, c in zip(units, nearest))
    if sum(map(abs, nearest)) + largest > 2 ** 30:
        return 7
    return largest, {(power,): c for power, c in enumerate(nearest) if c}


def converted(*values):
    """The same by the library."""
    try:
        model = from_doubles(*values)
        return model.radius, model.coefficients
    except Refused as refusal:
        return refusal.number


@pytest.mark.parametrize("place", [0, 1, 2, 3, None])
def test_each_float_in_each_place(place):
    for value in FLOATS:
        values = [value] * 4 if place is None else [*CURVE[:place], value, *CURVE[place + 1:]]
        assert converted(*values) == by_the_machine(*values), values


@given(*[st.floats()] * 4)
def test_any_floats(c0, c1, c2, radius):
    assert converted(c0, c1, c2, radius) == by_the_machine(c0, c1, c2, radius)


@given(*[st.floats(-300, 300)] * 3, st.floats(0, 100))
def test_any_curve(c0, c1, c2, radius):
    assert converted(c0, c1, c2, radius) == by_the_machine(c0, c1, c2, radius)


def test_what_is_no_float():
    for value, place in product([0, 1, True, 2 ** 53 + 1, Fraction(1, 2), "1.0", b"1", None, [1.0], 1j], range(4)):
        with pytest.raises(TypeError):
            from_doubles(*CURVE[:place], value, *CURVE[place + 1:])
