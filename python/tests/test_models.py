"""Models and curves as values: equality, hashes, text, operators with a stated order."""

import copy
import pickle
from dataclasses import FrozenInstanceError
from decimal import Decimal
from fractions import Fraction

import hechroung
import pytest
from hechroung import (
    UNIT, Book, Curve, Model, Reading, Refused, Step, add, add_curves, antiderivative, constant, exponents_of, key_of,
    measured, multiply, multiply_curves, negate, negate_curve, subtract, subtract_curves, substitute, sweep, variable,
)
from hypothesis import given
from hypothesis import strategies as st

N = 3
keys = st.tuples(*[st.integers(0, 3)] * N).map(key_of)
terms = st.dictionaries(keys, st.integers(-2 ** 22, 2 ** 22).filter(bool), max_size=6)
models = st.builds(lambda t, radius: Model(N, radius, sorted(t.items())), terms, st.integers(0, 1000))
curves = st.builds(Curve, st.lists(st.integers(-2 ** 22, 2 ** 22), max_size=16), st.integers(0, 1000))
orders = st.integers(9, 15)


@given(st.lists(st.integers(0, 15), max_size=8))
def test_keys_and_exponents(exponents):
    key = key_of(exponents)
    assert exponents_of(key) == tuple(exponents) + (0,) * (8 - len(exponents))
    assert exponents_of(key, len(exponents)) == tuple(exponents)
    assert f"{key:08x}" == "".join(f"{e:x}" for e in exponents).ljust(8, "0")


def test_keys_by_hand():
    assert key_of(2) == 0x2000_0000 == key_of((2,))
    assert key_of((2, 1)) == 0x2100_0000
    assert key_of(()) == 0
    for wrong in (-1, 16, (0, 16), (0,) * 9):
        with pytest.raises(ValueError):
            key_of(wrong)
    for wrong in ("2", (1.0,), None):
        with pytest.raises(TypeError):
            key_of(wrong)


@given(models, orders)
def test_text_of_a_model(model, order):
    assert eval(repr(model)) == model
    stated = eval(repr(model.with_order(order)))
    assert (stated, stated.order) == (model, order)
    assert Model.of(N, model.coefficients, model.radius) == model


def test_a_model_as_it_is_read():
    model = measured(2, {(): "0.5", (2, 1): -1, (0, 1): 2}, "0.25")
    assert str(model) == "524288u + 2097152u x2 - 1048576u x1^2 x2 ± 262144u"
    assert str(-model) == "- 524288u - 2097152u x2 + 1048576u x1^2 x2 ± 262144u"
    assert str(Model(1)) == "0u ± 0u"
    assert repr(Curve([1, 0, 2], 3)) == "Curve([1, 0, 2], 3)"
    assert model.degree == 3 and Model(1).degree == 0


@given(models, models)
def test_equality_is_that_of_values(f, g):
    same = Model(f.n, f.radius, list(f.terms))
    assert f == same and hash(f) == hash(same)
    assert (f == g) == ((f.n, f.radius, f.terms) == (g.n, g.radius, g.terms))
    assert f != Model(f.n, f.radius + 1, f.terms) and f != Model(f.n + 1, f.radius, f.terms)
    assert f == f.with_order(7) and hash(f) == hash(f.with_order(7))
    assert f != "model" and f != (f.n, f.radius, f.terms)
    assert pickle.loads(pickle.dumps(f)) == f == copy.deepcopy(f)


def test_values_cannot_be_changed():
    model, curve, reading = Model(1, 2, [(0, 3)]), Curve([1], 2), Reading([1], 2, 3)
    book = Book(1, 2, [model], [Step.input(0)])
    for value, name in ((model, "radius"), (model, "terms"), (model, "order"), (curve, "coefficients"),
                        (reading, "point"), (book, "steps")):
        with pytest.raises(FrozenInstanceError):
            setattr(value, name, ())
    with pytest.raises((AttributeError, TypeError)):
        model.other = 1
    assert len({model, model.with_order(2), curve, reading, book, Book(1, 2, [model], [(0, 0, 0, 0, 0)])}) == 4
    given_terms = [(0, 3)]
    kept = Model(1, 0, given_terms)
    given_terms.append((0x1000_0000, 1))
    assert kept.terms == ((0, 3),)


@given(models, models, orders)
def test_operators_are_the_calls(f, g, d):
    stated = f.with_order(d)
    assert -f == negate(f)
    assert f + g == add(f, g) == stated + g
    assert f - g == subtract(f, g)
    for product in (stated * g, g * stated, stated * g.with_order(d)):
        assert product == multiply(d, f, g) and product.order == d
    assert {(-stated).order, (stated + g).order, (g - stated).order} == {d}
    assert (f + g).order is None


@given(models, orders)
def test_numbers_beside_models_are_values(f, d):
    stated = f.with_order(d)
    assert f + 1 == 1 + f == add(f, constant(N, UNIT))
    assert 2 - f == subtract(constant(N, 2 * UNIT), f)
    assert f - Fraction(1, 4) == subtract(f, constant(N, UNIT // 4))
    assert stated * Decimal("0.5") == Fraction(1, 2) * stated == multiply(d, f, constant(N, UNIT // 2))
    # 0.1 is no whole number of units: a unit of radius pays.
    assert f + Decimal("0.1") == add(f, Model(N, 1, [(0, 104858)]))


def test_orders_are_stated_and_agree():
    x = variable(1, 1, order=2)
    assert (x.order, constant(1, 5, order=3).order, variable(1, 1).order) == (2, 3, None)
    with pytest.raises(ValueError, match="two orders, 2 and 3"):
        x + variable(1, 1, order=3)
    with pytest.raises(ValueError, match="two orders"):
        x.with_order(3) * x
    with pytest.raises(ValueError, match="a product needs an order"):
        variable(1, 1) * variable(1, 1)
    with pytest.raises(ValueError, match="a product needs an order"):
        variable(1, 1) * 2
    # What is above the order goes into the radius: x³ at order 2.
    assert (x * x * x).radius == UNIT
    assert (x.with_order(3) * x.with_order(3) * x.with_order(None)).coefficients == {(3,): UNIT}


def test_which_order_an_answer_states():
    x, y = variable(1, 1), variable(1, 1, order=3)
    assert multiply(5, x, y).order == 5
    assert antiderivative(4, 1, y).order == 4
    assert substitute(4, 1, y, x).order == 4
    assert (add(x, y).order, subtract(y, x).order, negate(y).order, sweep(y, 0).order) == (3,) * 4
    # A call without an order needs none, so two of them are no error there.
    assert add(y, x.with_order(4)).order is None
    assert Book(1, 6, [], [Step.variable(1)]).run().model.order == 6
    assert hechroung.run(Book(1, 6, [], [Step.variable(1)]).sheet()).model.order == 6


@pytest.mark.parametrize("other", [0.5, "0.5", None, [1], Curve([1])])
def test_what_is_no_number_beside_a_model(other):
    x = variable(1, 1, order=2)
    for operation in (lambda: x + other, lambda: other - x, lambda: x * other):
        with pytest.raises(TypeError):
            operation()


def test_operators_are_refused_as_calls_are():
    with pytest.raises(Refused) as raised:
        variable(1, 1) + variable(2, 1)
    assert raised.value.number == 10
    with pytest.raises(Refused) as raised:
        variable(1, 1) + Model(9)
    assert (raised.value.number, raised.value.place) == (5, 1)
    with pytest.raises(Refused) as raised:
        variable(1, 1) + 2000
    assert (raised.value.number, raised.value.place) == (5, 1)


@given(curves, curves)
def test_operators_of_curves(f, g):
    assert -f == negate_curve(f)
    assert f + g == add_curves(f, g)
    assert f - g == subtract_curves(f, g)
    assert f * g == multiply_curves(f, g)
    assert eval(repr(f)) == f and hash(f) == hash(eval(repr(f)))
    assert Curve(f.coefficients[:16], f.radius) == f


def test_a_curve_takes_no_numbers():
    for other in (1, 0.5, variable(1, 1)):
        with pytest.raises(TypeError):
            Curve([1]) + other
