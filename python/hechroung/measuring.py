"""Models and curves of what was measured in decimals.

A decimal number is rarely a whole number of units. Each coefficient goes to the nearest unit; by what that leaves the
polynomial is off, so it all goes into the radius, beside the error of the measurement. That sum is rounded up, and
once: rounded down, a curve at the edge of the error would not be within the model, and its band would not be promised.
"""

from collections.abc import Iterable, Mapping
from typing import Any

from .curves import Curve
from .models import Model
from .numbers import Number, rounded


def measured(n: int, terms: Mapping[Any, Number], error: Number = 0, order: int | None = None) -> Model:
    """The model of a polynomial in n variables that is known to an error.

    Coefficients stand by their exponents, that of variable 1 first: measured(2, {(): "0.2503", (1,): "1.0201",
    (2, 1): "-0.0312"}, "0.0004") is 0.2503 + 1.0201 x - 0.0312 x² y ± 0.0004. In one variable a number may stand for
    its exponent.
    """
    coefficients, radius, _ = rounded(terms.values(), error)
    return Model.of(n, dict(zip(terms, coefficients)), radius, order)


def measured_curve(values: Iterable[Number], error: Number = 0) -> Curve:
    """The same for a curve, by the coefficients of T_0, T_1 and on."""
    coefficients, radius, _ = rounded(values, error)
    return Curve(coefficients, radius)
