"""The single calls: one operation each, with the tests and refusals of documents 01 and 02.

Numbers are in units of 1/UNIT. The order d comes first where a call takes one, and its answer states that order; the
others' answers state the order that their models agree on. A refusal raises Refused.
"""

from collections.abc import Iterable

from . import _library as library
from ._fields import array, i64, u64
from ._handing import CUT, Answer, check, eight, model_slices, models_slices, one_for_each, tested_point
from .codes import (ADD, ANTIDERIVATIVE, CONSTANT, EVALUATE, INTEGRAL, MULTIPLY, NEGATE, RANGE, SUBSTITUTE, SUBTRACT,
                    SWEEP, VARIABLE)
from .limits import MOST_VARIABLES
from .models import Model, called, tested_model
from .results import Ends, Exact


def constant(n: int, value: int, order: int | None = None) -> Model:
    """The constant value / UNIT in n variables."""
    of_n = Model(n)
    return called(CONSTANT, 0, 0, value, of_n, of_n, order)


def variable(n: int, i: int, order: int | None = None) -> Model:
    """Variable i, from 1, of n."""
    of_n = Model(n)
    return called(VARIABLE, 0, i, 0, of_n, of_n, order)


def negate(f: Model) -> Model:
    """All signs turned."""
    return called(NEGATE, 0, 0, 0, f, f, tested_model(f).order)


def add(f: Model, g: Model) -> Model:
    """The sum."""
    return called(ADD, 0, 0, 0, f, g, _common(f, g))


def subtract(f: Model, g: Model) -> Model:
    """f less g."""
    return called(SUBTRACT, 0, 0, 0, f, g, _common(f, g))


def multiply(d: int, f: Model, g: Model) -> Model:
    """The product; what rounding leaves, and what is above degree d, goes into the radius."""
    return called(MULTIPLY, d, 0, 0, f, g, d)


def substitute(d: int, i: int, f: Model, g: Model) -> Model:
    """g in the place of variable i of f; the range of g has to lie within the box."""
    return called(SUBSTITUTE, d, i, 0, f, g, d)


def quotient(d: int, f: Model, g: Model, h: Model, w: Model) -> Model:
    """f / g from a proposal: h should be near f / g and w near 1 / g, and their radii are not used.

    Nothing has to hold of the proposal: a poor one costs a wide radius, or refusal 12.
    """
    answer = Answer()
    models = [tested_model(model) for model in (f, g, h, w)]
    number = library.quotient(d, *models_slices(models), *answer.slices)
    return Model(*answer.model(number), d)


def antiderivative(d: int, i: int, f: Model) -> Model:
    """The antiderivative of f in variable i that is 0 wherever that variable is 0."""
    return called(ANTIDERIVATIVE, d, i, 0, f, f, d)


def sweep(f: Model, threshold: int) -> Model:
    """Terms but the constant one of a size up to the threshold, moved into the radius."""
    return called(SWEEP, 0, 0, threshold, f, f, tested_model(f).order)


def range_of(f: Model) -> Ends:
    """The range over the box: every function within f has its values between the ends."""
    return Ends(*_ended(RANGE, f)[:2])


def integral(f: Model) -> Ends:
    """The ends of the integral over the box."""
    return Ends(*_ended(INTEGRAL, f)[:2])


def exact_integral(f: Model) -> Exact:
    """The integral of the polynomial of f, without its radius and without any rounding."""
    return Exact(*_ended(INTEGRAL, f)[2:])


def evaluate(f: Model, point: Iterable[int]) -> Ends:
    """The ends of the values at a point, in units; it has a coordinate for each variable of f.

    Coordinates above n, which are 0, may be left out. numbers.units turns a decimal into units where that is exact.
    """
    tested = tested_point(point)
    one_for_each(tested_model(f).n, tested)
    return Ends(*_ended(EVALUATE, f, tested)[:2])


def cut_range(d: int, i: int, k: int, f: Model) -> Ends:
    """The range of f with variable i cut into 2^k pieces, k up to 6: often narrower, and as sound.

    The place of a refused piece is its number.
    """
    ends, numbers = (i64 * 2)(), (u64 * 1)()
    number = library.cut_range(d, i, k, *model_slices(tested_model(f)), ends, 2, numbers, 1)
    check(number, numbers[0], CUT)
    return Ends(*ends)


def _common(f: Model, g: Model) -> int | None:
    """The order that both agree on, None where they do not: a call that takes none needs none."""
    orders = {model.order for model in (tested_model(f), tested_model(g))} - {None}
    return orders.pop() if len(orders) == 1 else None


def _ended(code: int, f: Model, point: tuple[int, ...] = ()) -> tuple[int, ...]:
    """The two ends, and after them the exact integral, if it is one."""
    coordinates, ends = array(i64, eight(point)), (i64 * 4)()
    check(library.ends(code, *model_slices(tested_model(f)), coordinates, MOST_VARIABLES, ends, 4), 0)
    return tuple(ends)
