"""Curves: models of one variable in Chebyshev polynomials, and their conversion to powers and back."""

from __future__ import annotations

from collections.abc import Callable, Iterable
from dataclasses import dataclass
from typing import Any

from . import _library as library
from ._fields import array, i64, u64, whole
from ._handing import SINGLE, Answer, check, model_slices
from .codes import ADD, MULTIPLY, NEGATE, SUBTRACT
from .errors import Misused
from .limits import CURVE_PLACES
from .models import Model, tested_model
from .results import Ends


@dataclass(frozen=True, slots=True, repr=False)
class Curve:
    """A model of one variable by its coefficients of T_0, T_1 and on, up to T_15, and a radius; it cannot be changed.

    Coefficients and radius are in units of 1/UNIT; coefficients that are not given are 0. -f, f + g, f - g and f * g
    are the calls negate_curve, add_curves, subtract_curves and multiply_curves; none of them takes an order.
    """

    coefficients: tuple[int, ...]
    radius: int

    def __init__(self, coefficients: Iterable[int] = (), radius: int = 0) -> None:
        given = tuple(whole(i64, coefficient, "a coefficient") for coefficient in coefficients)
        if len(given) > CURVE_PLACES:
            raise ValueError(f"a curve has at most {CURVE_PLACES} coefficients, and not {len(given)}")
        object.__setattr__(self, "coefficients", given + (0,) * (CURVE_PLACES - len(given)))
        object.__setattr__(self, "radius", whole(u64, radius, "a radius"))

    def __repr__(self) -> str:
        last = max((k for k, coefficient in enumerate(self.coefficients) if coefficient), default=-1)
        return f"Curve({list(self.coefficients[:last + 1])}, {self.radius})"

    def __neg__(self) -> Curve:
        return negate_curve(self)

    def __add__(self, other: Curve) -> Curve:
        return add_curves(self, other)

    def __sub__(self, other: Curve) -> Curve:
        return subtract_curves(self, other)

    def __mul__(self, other: Curve) -> Curve:
        return multiply_curves(self, other)


def negate_curve(f: Curve) -> Curve:
    """All signs turned."""
    return _curved(library.curve, NEGATE, *_slices(f), *_slices(f))


def add_curves(f: Curve, g: Curve) -> Curve:
    """The sum."""
    return _curved(library.curve, ADD, *_slices(f), *_slices(g))


def subtract_curves(f: Curve, g: Curve) -> Curve:
    """f less g."""
    return _curved(library.curve, SUBTRACT, *_slices(f), *_slices(g))


def multiply_curves(f: Curve, g: Curve) -> Curve:
    """The product; what is above T_15, and what rounding leaves, goes into the radius."""
    return _curved(library.curve, MULTIPLY, *_slices(f), *_slices(g))


def range_of_curve(f: Curve) -> Ends:
    """The range over [-1, 1]: every function within f has its values between the ends."""
    ends = (i64 * 2)()
    check(library.curve_range(*_slices(f), ends, 2), 0)
    return Ends(*ends)


def to_powers(f: Curve) -> Model:
    """The model of one variable with the curve's polynomial, exactly, and its radius."""
    answer = Answer()
    return Model(*answer.model(library.to_powers(*_slices(f), *answer.slices)))


def from_powers(f: Model) -> Curve:
    """The curve of a model of one variable; what rounding leaves goes into the radius."""
    return _curved(library.from_powers, *model_slices(tested_model(f)))


def _slices(curve: Any) -> tuple[Any, ...]:
    if not isinstance(curve, Curve):
        raise Misused(f"a curve is asked for, and not {curve!r}")
    return array(i64, curve.coefficients, "a coefficient"), CURVE_PLACES, curve.radius


def _curved(call: Callable[..., int], *arguments: Any) -> Curve:
    """The curve that a call stores."""
    coefficients, numbers = (i64 * CURVE_PLACES)(), (u64 * 2)()
    number = call(*arguments, coefficients, CURVE_PLACES, numbers, 2)
    place, radius = numbers
    check(number, place, SINGLE)
    return Curve(coefficients, radius)
