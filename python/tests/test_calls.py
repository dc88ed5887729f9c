"""What calls answer: conversions, cuts, readings, the archive, quotients."""

import doctest
from fractions import Fraction

import hechroung
import pytest
from hechroung import (
    UNIT, Book, Curve, Model, Reading, Refused, Step, antiderivative, constant, cut_range, evaluate, exact_integral,
    first_contradicting, from_powers, integral, key_of, measured, multiply, propose, quotient, range_of,
    range_of_curve, restore, store, substitute, subtract, sweep, to_powers, units, variable,
)
from hypothesis import given
from hypothesis import strategies as st

n_terms = st.dictionaries(st.tuples(*[st.integers(0, 3)] * 4).map(key_of), st.integers(-2 ** 22, 2 ** 22).filter(bool),
                          max_size=9)
models = st.builds(lambda t, radius: Model(4, radius, sorted(t.items())), n_terms, st.integers(0, 1000))
points = st.lists(st.integers(-UNIT, UNIT), min_size=4, max_size=4)
# Of T_15 the sizes of the powers sum to 275,807: larger coefficients would pass the span in powers.
curves = st.builds(Curve, st.lists(st.integers(-200, 200), max_size=16), st.integers(0, 1000))


def test_the_docstring_of_the_package():
    assert doctest.testmod(hechroung).failed == 0 < doctest.testmod(hechroung).attempted


@given(models)
def test_the_archive(model):
    assert restore(store(model)) == model
    first = restore(store(model), 2)
    degrees = sorted(sum(exponents) for exponents in model.coefficients)[:2]
    assert sorted(sum(exponents) for exponents in first.coefficients) == degrees
    assert first.radius == model.radius and set(first.terms) <= set(model.terms)


@given(models, points, st.integers(0, 100))
def test_readings(model, point, miss):
    low, high = evaluate(model, point)
    assert first_contradicting(model, []) is None
    touching = [Reading(point, high, high + 5), Reading(point, low - 5, low)]
    assert first_contradicting(model, touching) is None
    beyond = [*touching, Reading(point, high + 1, high + 1 + miss), Reading(point, low - 2, low - 1)]
    assert first_contradicting(model, beyond) == 2
    assert first_contradicting(model, iter(beyond[3:])) == 0


@given(models, points, st.integers(1, 4), st.integers(0, 6))
def test_a_cut_range_is_within_the_range(model, point, i, k):
    whole, cut = range_of(model), cut_range(15, i, k, model)
    assert whole.low <= cut.low <= cut.high <= whole.high
    low, high = evaluate(model, point)
    assert cut.low <= high and low <= cut.high
    if k == 0:
        assert cut == whole


def test_a_cut_by_hand():
    """1 + x + x² lies between 3/4 and 3."""
    model = measured(1, {0: 1, 1: 1, 2: 1})
    assert range_of(model) == (0, 3 * UNIT)
    assert cut_range(2, 1, 1, model) == (3 * UNIT // 4, 3 * UNIT)
    assert range_of(model).width == 3 * UNIT


@given(curves)
def test_conversions(curve):
    powers = to_powers(curve)
    assert from_powers(powers) == curve
    low, high = range_of_curve(curve)
    assert low == curve.coefficients[0] - sum(map(abs, curve.coefficients[1:])) - curve.radius
    assert high == curve.coefficients[0] + sum(map(abs, curve.coefficients[1:])) + curve.radius


def test_a_quotient_from_a_proposal():
    f, g = measured(1, {0: 3, 1: 1}, "0.01"), measured(1, {0: 2, 1: "0.1"})
    h, w = propose(5, f, g)
    assert h.radius == w.radius == 0
    answer = quotient(5, f, g, h, w)
    # At 1/2 it is 3.5 / 2.05, within 0.01 / 2.05.
    low, high = evaluate(answer, [units("0.5")])
    assert low / UNIT <= 3.49 / 2.05 <= 3.51 / 2.05 <= high / UNIT
    assert answer.order == 5 and answer.terms == h.terms
    with pytest.raises(ValueError, match="no constant part"):
        propose(5, f, variable(1, 1))


def test_litres_of_the_guide():
    """0.2503 + 1.0201 f - 0.0312 f² t ± 0.0004, plus 0.05 t, squared and gathered."""
    curve = measured(2, {(): "0.2503", (1,): "1.0201", (2, 1): "-0.0312"}, "0.0004", order=7)
    y = curve + measured(2, {(0, 1): "0.05"})
    litres = antiderivative(7, 1, y * y)
    low, high = evaluate(litres, [UNIT, units("1/4")])
    # From 0 to 1 in f at t = 1/4, exactly: the integral of (0.2628 + 1.0201 f - 0.0078 f²)².
    a, b, c = 0.2503 + 0.05 / 4, 1.0201, -0.0312 / 4
    exact = a * a + a * b + (b * b + 2 * a * c) / 3 + b * c / 2 + c * c / 5
    assert low / UNIT < exact < high / UNIT and (high - low) / UNIT < 0.003


def test_substitution_and_products():
    x, y = variable(2, 1), variable(2, 2)
    assert substitute(3, 1, multiply(2, x, x), y) == multiply(2, y, y)
    assert subtract(x, y).coefficients == {(1, 0): UNIT, (0, 1): -UNIT}


def test_samples_of_document_01():
    """Samples 3, 6 to 9, 11 and 12, with ties to even, by single calls."""
    x, half = variable(1, 1), constant(1, UNIT // 2)
    assert constant(1, 0) == Model(1) and integral(Model(1)) == (0, 0) == range_of(Model(1))
    assert multiply(1, constant(1, 1), half) == Model(1, 1)
    assert multiply(1, constant(1, -1), half) == Model(1, 1)
    assert multiply(1, Model(1, 2), Model(1, 3)) == Model(1, 1)
    assert substitute(2, 1, multiply(2, x, x), half) == constant(1, UNIT // 4)
    line = Model.of(1, {0: 5, 1: 3})
    assert sweep(line, 3) == Model.of(1, {0: 5}, 3) and sweep(line, 2) == line
    square = Model.of(1, {2: -1})
    assert integral(square) == (-1, 0)
    assert exact_integral(square).units == Fraction(-2, 3)
    assert antiderivative(3, 1, Model.of(1, {2: 6})) == Model.of(1, {3: 2})


fields = st.builds(
    Model, st.one_of(st.integers(0, 9), st.just(255)), st.one_of(st.integers(0, 2 ** 31), st.just(2 ** 64 - 1)),
    st.lists(st.tuples(st.integers(0, 2 ** 32 - 1), st.integers(-2 ** 63, 2 ** 63 - 1)), max_size=66))
CALLS = [
    lambda f, g, d, i: hechroung.negate(f), lambda f, g, d, i: hechroung.add(f, g),
    lambda f, g, d, i: multiply(d, f, g), lambda f, g, d, i: substitute(d, i, f, g),
    lambda f, g, d, i: quotient(d, f, g, g, f), lambda f, g, d, i: antiderivative(d, i, f),
    lambda f, g, d, i: sweep(f, i), lambda f, g, d, i: range_of(f), lambda f, g, d, i: integral(f),
    lambda f, g, d, i: evaluate(f, [d] * 8), lambda f, g, d, i: cut_range(d, i, i, f),
    lambda f, g, d, i: from_powers(f), lambda f, g, d, i: store(f),
    lambda f, g, d, i: first_contradicting(f, [Reading([d] * 8, i, i)]),
    lambda f, g, d, i: Book(i, d, [f, g], [Step.input(0)]).run(),
]


@given(st.one_of(fields, models), st.one_of(fields, models), st.integers(0, 255), st.integers(0, 255))
def test_whatever_fits_is_answered_or_refused(f, g, d, i):
    for call in CALLS:
        try:
            call(f, g, d, i)
        except Refused as refusal:
            assert 1 <= refusal.number <= 17
