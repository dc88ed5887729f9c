"""What calls answer besides models: ends, exact integrals, shares."""

from decimal import Decimal
from fractions import Fraction
from typing import NamedTuple

from .limits import DENOMINATOR
from .numbers import outward


class Ends(NamedTuple):
    """The low and the high end of a range, an integral or a value, in units."""

    low: int
    high: int

    @property
    def width(self) -> int:
        """How far the high end is above the low one, in units."""
        return self.high - self.low

    def decimals(self, digits: int = 6) -> tuple[Decimal, Decimal]:
        """Both ends as decimals with so many digits after the point, rounded outward."""
        return outward(self.low, self.high, digits)


class Exact(NamedTuple):
    """The integral of a polynomial over the box without any rounding: quotient + remainder / DENOMINATOR units.

    The quotient is rounded down, also below 0. Above four variables both are 0 and say nothing.
    """

    quotient: int
    remainder: int

    @property
    def units(self) -> Fraction:
        """The exact integral in units."""
        return self.quotient + Fraction(self.remainder, DENOMINATOR)


class Shares(NamedTuple):
    """Where the radius of a step came from: four numbers that sum to UNIT times the radius.

    carried is from the radii of the operands, rounding from coefficients that were rounded, swept from terms above the
    order or dropped by a sweep, slack is what rounding the radius up added.
    """

    carried: int
    rounding: int
    swept: int
    slack: int
