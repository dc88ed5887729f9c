"""Readings of the bench, held against a model."""

from collections.abc import Iterable
from dataclasses import dataclass

from . import _library as library
from ._fields import array, i64, u64, whole
from ._handing import NOTHING, READINGS, check, eight, model_slices, one_for_each, tested_point
from .errors import Misused
from .limits import MOST_READINGS
from .models import Model, tested_model


@dataclass(frozen=True, slots=True)
class Reading:
    """A point, as evaluate takes it, and a low and a high value, all in units; it cannot be changed."""

    point: tuple[int, ...]
    low: int
    high: int

    def __init__(self, point: Iterable[int], low: int, high: int) -> None:
        object.__setattr__(self, "point", tested_point(point))
        object.__setattr__(self, "low", whole(i64, low, "a low value"))
        object.__setattr__(self, "high", whole(i64, high, "a high value"))


def first_contradicting(f: Model, rows: Iterable[Reading]) -> int | None:
    """The number, from 0, of the first reading that contradicts f, or None.

    A reading contradicts f if its band and the ends of the evaluation at its point have no number in common: no
    function within f passes through it. Of the others nothing is promised. A row has up to 256 readings.
    """
    # A longer row is handed over by one reading more than there may be, which is refused.
    given = [_tested(tested_model(f), row) for row in rows][:MOST_READINGS + 1]
    points = array(i64, (coordinate for row in given for coordinate in eight(row.point)))
    lows, highs = array(i64, (row.low for row in given)), array(i64, (row.high for row in given))
    numbers = (u64 * 3)()
    number = library.readings(*model_slices(f), points, len(points), lows, len(lows),
                              highs, len(highs), numbers, 3)
    place, contradicted, reading = numbers
    check(number, place, NOTHING if number == 15 and len(given) > MOST_READINGS else READINGS)
    return reading if contradicted else None


def _tested(f: Model, row: Reading) -> Reading:
    """A reading with a coordinate for each variable of the model."""
    if not isinstance(row, Reading):
        raise Misused(f"a reading is asked for, and not {row!r}")
    one_for_each(f.n, row.point)
    return row
