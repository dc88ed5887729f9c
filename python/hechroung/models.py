"""Models: polynomials in 1 to 8 variables on the box [-1, 1]^n, with an error radius. Their values and operators."""

from __future__ import annotations

from collections.abc import Iterable, Mapping
from dataclasses import dataclass, field
from decimal import Decimal
from fractions import Fraction
from typing import Any

from . import _library as library
from ._fields import i64, u8, u32, u64, whole
from ._handing import Answer, Terms, model_slices
from .codes import ADD, MULTIPLY, NEGATE, SUBTRACT
from .errors import Misused
from .limits import MOST_ORDER, MOST_VARIABLES
from .numbers import rounded

Exponents = tuple[int, ...]


def key_of(exponents: int | Iterable[int]) -> int:
    """The key of a monomial, from its exponents, that of variable 1 first; those that are missing are 0.

    A single number is the exponent of variable 1: key_of(2) is that of x², key_of((2, 1)) that of x² y.
    """
    given = [exponents] if isinstance(exponents, int) else list(exponents)
    if len(given) > MOST_VARIABLES:
        raise ValueError(f"a monomial has at most {MOST_VARIABLES} exponents, and not {len(given)}")
    key = 0
    for exponent in given:
        number = whole(i64, exponent, "an exponent")
        if not 0 <= number <= MOST_ORDER:
            raise ValueError(f"an exponent is 0 to {MOST_ORDER}, and not {number}")
        key = key << 4 | number
    return key << 4 * (MOST_VARIABLES - len(given))


def exponents_of(key: int, n: int = MOST_VARIABLES) -> Exponents:
    """The exponents of the first n variables, from a key."""
    tested = whole(u32, key, "a key")
    return tuple(tested >> 4 * (MOST_VARIABLES - 1 - i) & 15 for i in range(min(n, MOST_VARIABLES)))


def tested_order(order: Any) -> int | None:
    """An order that can be stated: 1 to 15, or None for none."""
    if order is None:
        return None
    number = whole(i64, order, "an order")
    if not 1 <= number <= MOST_ORDER:
        raise ValueError(f"an order is 1 to {MOST_ORDER}, and not {number}")
    return number


@dataclass(frozen=True, slots=True, repr=False)
class Model:
    """A polynomial with an error radius, in units of 1/UNIT; it cannot be changed.

    n       the number of variables
    radius  how far a function within the model may be from the polynomial
    terms   pairs of a key and a coefficient, keys rising (key_of and exponents_of turn exponents into keys and back)
    order   the degree above which products go into the radius, or None; it is stated by whoever uses operators

    Any numbers that fit their fields are taken; a call refuses with 5 what breaks a rule. Two models are equal if n,
    radius and terms are: the order is how one goes on from a model, and no part of it.

    Operators: -a, a + b, a - b and a * b are the calls negate, add, subtract and multiply. The answer states the order
    that its operands state; a product needs one, and two different ones are a ValueError. A whole number, a Decimal or
    a Fraction beside a model is a constant by its value (1 is 1, not a unit), rounded as `measured` rounds it.
    """

    n: int
    radius: int
    terms: Terms
    order: int | None = field(compare=False)

    def __init__(self, n: int, radius: int = 0, terms: Iterable[tuple[int, int]] = (),
                 order: int | None = None) -> None:
        pairs = tuple((whole(u32, key, "a key"), whole(i64, c, "a coefficient")) for key, c in terms)
        object.__setattr__(self, "n", whole(u8, n, "n"))
        object.__setattr__(self, "radius", whole(u64, radius, "a radius"))
        object.__setattr__(self, "terms", pairs)
        object.__setattr__(self, "order", tested_order(order))

    @classmethod
    def of(cls, n: int, coefficients: Mapping[Any, int], radius: int = 0, order: int | None = None) -> Model:
        """A model from coefficients in units by their exponents, as key_of takes them; zeros are left away."""
        by_key = {key_of(exponents): coefficient for exponents, coefficient in coefficients.items()}
        if len(by_key) != len(coefficients):
            raise ValueError("a monomial is named twice: missing exponents count as 0")
        return cls(n, radius, [(key, by_key[key]) for key in sorted(by_key) if by_key[key] != 0], order)

    @property
    def coefficients(self) -> dict[Exponents, int]:
        """The coefficients in units, by the exponents of the n variables."""
        return {exponents_of(key, self.n): coefficient for key, coefficient in self.terms}

    @property
    def degree(self) -> int:
        """The largest sum of exponents; 0 without terms."""
        return max((sum(exponents_of(key)) for key, _ in self.terms), default=0)

    def with_order(self, order: int | None) -> Model:
        """The same model with another stated order."""
        return Model(self.n, self.radius, self.terms, order)

    def without_radius(self) -> Model:
        """The polynomial alone, as a model with radius 0."""
        return Model(self.n, 0, self.terms, self.order)

    def __repr__(self) -> str:
        terms = ", ".join(f"({key:#010x}, {coefficient})" for key, coefficient in self.terms)
        order = "" if self.order is None else f", order={self.order}"
        return f"Model({self.n}, {self.radius}, [{terms}]{order})"

    def __str__(self) -> str:
        """The polynomial in units, with variables x1 and on, and the radius."""
        text = "".join(_shown(key, coefficient) for key, coefficient in self.terms)
        return f"{text.removeprefix(' + ').lstrip() or '0u'} ± {self.radius}u"

    def __neg__(self) -> Model:
        return called(NEGATE, 0, 0, 0, self, self, self.order)

    def __add__(self, other: Any) -> Model:
        return self._with(ADD, self, other)

    def __radd__(self, other: Any) -> Model:
        return self._with(ADD, other, self)

    def __sub__(self, other: Any) -> Model:
        return self._with(SUBTRACT, self, other)

    def __rsub__(self, other: Any) -> Model:
        return self._with(SUBTRACT, other, self)

    def __mul__(self, other: Any) -> Model:
        return self._with(MULTIPLY, self, other)

    def __rmul__(self, other: Any) -> Model:
        return self._with(MULTIPLY, other, self)

    def _with(self, code: int, left: Any, right: Any) -> Model:
        """An operator between two models, one of which may be given as a number."""
        f, g = self._beside(left), self._beside(right)
        order = one_order(f, g)
        if code == MULTIPLY and order is None:
            raise ValueError("a product needs an order: state one, as in a.with_order(7) * b, or call multiply")
        return called(code, order or 0, 0, 0, f, g, order)

    def _beside(self, other: Any) -> Model:
        if isinstance(other, Model):
            return other
        if isinstance(other, float):
            raise TypeError(f"{other!r} is a float, which is not the decimal it shows: write Decimal('{other!r}')")
        if not isinstance(other, (int, Decimal, Fraction)):
            raise TypeError(f"{other!r} is no model and no number")
        (coefficient,), radius, _ = rounded([other])
        return Model.of(self.n, {(): coefficient}, radius)


def _shown(key: int, coefficient: int) -> str:
    names = [(f"x{i + 1}", exponent) for i, exponent in enumerate(exponents_of(key)) if exponent]
    monomial = "".join(f" {name}^{exponent}" if exponent > 1 else f" {name}" for name, exponent in names)
    return f" {'-' if coefficient < 0 else '+'} {abs(coefficient)}u{monomial}"


def one_order(f: Model, g: Model) -> int | None:
    """The order that two models agree on, where one of them states it."""
    if f.order is not None and g.order is not None and f.order != g.order:
        raise ValueError(f"the models state two orders, {f.order} and {g.order}: give both one by with_order, "
                         "or make the call with the order that is meant")
    return g.order if f.order is None else f.order


def tested_model(model: Any) -> Model:
    """The argument, where it is a model."""
    if not isinstance(model, Model):
        raise Misused(f"a model is asked for, and not {model!r}")
    return model


def called(code: int, d: int, i: int, value: int, f: Model, g: Model, order: int | None) -> Model:
    """A single call that answers with a model, which states this order."""
    answer = Answer()
    number = library.call(code, d, i, value, *model_slices(tested_model(f)), *model_slices(tested_model(g)),
                          *answer.slices)
    return Model(*answer.model(number), order)
