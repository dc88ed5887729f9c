"""Decimals in: to the nearest unit, the radius pays, rounded up once. Decimals out: rounded outward."""

from decimal import Decimal
from fractions import Fraction
from math import ceil

import pytest
from hechroung import UNIT, Ends, exact, measured, measured_curve, outward, rounded, to_powers, units
from hypothesis import example, given
from hypothesis import strategies as st

decimals = st.decimals(min_value=-1000, max_value=1000, allow_nan=False, places=9)
fractions = st.fractions(min_value=-1000, max_value=1000, max_denominator=10 ** 9)
numbers = st.one_of(decimals, fractions, st.integers(-1000, 1000), decimals.map(str), fractions.map(str))
errors = st.decimals(min_value=0, max_value=10, places=9)
HALF = Fraction(1, 2)


@given(numbers)
def test_a_number_is_taken_as_it_is(value):
    assert exact(value) == Fraction(value)


@pytest.mark.parametrize("text, value", [
    ("0.25", Fraction(1, 4)), ("-1e-3", Fraction(-1, 1000)), ("1/3", Fraction(1, 3)), (" 2 ", 2), ("+.5", HALF)])
def test_text_of_a_number(text, value):
    assert exact(text) == value


@pytest.mark.parametrize("text", ["", "x", "0,5", "1.2.3", "nan", "inf", "1/0", "0x10", "1e99999", "-1e-99999", "1u"])
def test_text_that_is_no_number(text):
    with pytest.raises(ValueError):
        exact(text)


@pytest.mark.parametrize("value", [0.5, 1.0, float("nan"), None, [1], b"1", 1j])
def test_floats_and_others_are_refused(value):
    for function in (exact, units):
        with pytest.raises(TypeError):
            function(value)
    with pytest.raises(TypeError):
        rounded([value])
    with pytest.raises(TypeError):
        rounded([1], value)
    with pytest.raises(TypeError):
        measured(1, {0: value})
    with pytest.raises(TypeError):
        outward(value, 1)


@pytest.mark.parametrize("value", [Decimal("NaN"), Decimal("Infinity"), Decimal("-sNaN")])
def test_decimals_that_are_no_numbers(value):
    with pytest.raises(ValueError):
        exact(value)


@given(st.lists(numbers, max_size=8), errors)
@example(["0.25", Fraction(1, 3)], Decimal(0))
def test_rounded_to_the_nearest_and_paid_for(values, error):
    coefficients, radius, paid = rounded(values, error)
    scaled = [Fraction(value) * UNIT for value in values]
    left = [abs(unit - coefficient) for unit, coefficient in zip(scaled, coefficients, strict=True)]
    assert all(off <= HALF for off in left)
    assert paid == sum(left)
    # Rounded up, and once: the least whole number that is enough.
    assert radius == ceil(Fraction(error) * UNIT + paid)


@given(st.integers(-10 ** 9, 10 ** 9))
def test_halfway_goes_to_the_even_unit(k):
    (coefficient,), radius, paid = rounded([Fraction(2 * k + 1, 2 * UNIT)])
    assert coefficient % 2 == 0 and coefficient in (k, k + 1)
    assert (radius, paid) == (1, HALF)


def test_whole_units_cost_nothing():
    assert rounded(["0.5", -3, Fraction(1, UNIT)]) == ((UNIT // 2, -3 * UNIT, 1), 0, 0)


def test_text_is_no_row_of_numbers():
    with pytest.raises(TypeError):
        rounded("123")


def test_an_error_is_not_negative():
    with pytest.raises(ValueError, match="at least 0"):
        rounded(["1"], "-0.1")


powers = st.dictionaries(st.tuples(st.integers(0, 3), st.integers(0, 3)), decimals, max_size=6)
coordinates = st.fractions(min_value=-1, max_value=1, max_denominator=1000)


@given(powers, errors, coordinates, coordinates)
def test_what_was_measured_is_within_the_model(terms, error, x, y):
    model = measured(2, terms, error)

    def value(coefficients):
        return sum(Fraction(c) * x ** i * y ** k for (i, k), c in coefficients.items())

    off = abs(value(terms) - value(model.coefficients) / UNIT)
    assert off + Fraction(error) <= Fraction(model.radius, UNIT)
    assert 0 not in model.coefficients.values()


@given(st.lists(st.decimals(-4, 4, places=7), max_size=16), errors, coordinates)
def test_what_was_measured_is_within_the_curve(values, error, x):
    curve = measured_curve(values, error)
    t = [Fraction(1), x]
    while len(t) < 16:
        t.append(2 * x * t[-1] - t[-2])
    off = abs(sum((UNIT * Fraction(v) - c) * t_k for v, c, t_k in zip(values, curve.coefficients, t)))
    assert off + UNIT * Fraction(error) <= curve.radius


def test_monomials_are_named_once():
    with pytest.raises(ValueError, match="twice"):
        measured(2, {(1,): "0.1", (1, 0): "0.2"})
    with pytest.raises(ValueError):
        measured(2, {(16, 0): 1})
    with pytest.raises(ValueError):
        measured(2, {(0,) * 9: 1})


@given(st.integers(-2 ** 40, 2 ** 40))
def test_units_of_whole_units(k):
    assert units(Fraction(k, UNIT)) == k
    with pytest.raises(ValueError, match=f"between {k} and {k + 1}"):
        units(Fraction(3 * k + 1, 3 * UNIT))


ends = st.one_of(st.integers(-2 ** 45, 2 ** 45), st.fractions(-2 ** 40, 2 ** 40))


@given(ends, ends, st.integers(0, 30))
@example(-1, -1, 6)
@example(0, 0, 0)
def test_outward(low, high, digits):
    below, above = outward(low, high, digits)
    step = Fraction(1, 10 ** digits)
    assert Fraction(below) <= Fraction(low) / UNIT < Fraction(below) + step
    assert Fraction(above) - step < Fraction(high) / UNIT <= Fraction(above)
    # Just these digits, and no minus before a zero.
    assert -below.as_tuple().exponent == digits == -above.as_tuple().exponent
    assert not (below == 0 and below.is_signed()) and not (above == 0 and above.is_signed())


def test_outward_by_hand():
    assert [str(end) for end in outward(-1, 1, 6)] == ["-0.000001", "0.000001"]
    assert [str(end) for end in outward(1, -1, 6)] == ["0.000000", "0.000000"]
    assert [str(end) for end in Ends(-786432, 2359296).decimals(2)] == ["-0.75", "2.25"]
    assert [str(end) for end in Ends(1, UNIT + 1).decimals(0)] == ["0", "2"]
    for digits in (-1, 1001, "6", 1.5):
        with pytest.raises(ValueError):
            outward(0, 1, digits)


def test_a_curve_in_powers_is_the_same():
    """T_0 + T_2 is 2 x²."""
    assert to_powers(measured_curve([1, 0, 1])).coefficients == {(2,): 2 * UNIT}
