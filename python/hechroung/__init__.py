"""Polynomial models with an error radius, over the proved library.

    >>> from hechroung import measured, range_of
    >>> curve = measured(1, {0: "0.25", 1: 1, 2: 1}, order=2)
    >>> curve
    Model(1, 0, [(0x00000000, 262144), (0x10000000, 1048576), (0x20000000, 1048576)], order=2)
    >>> range_of(curve).decimals(3)
    (Decimal('-0.750'), Decimal('2.250'))

Numbers are whole and in units of 1/UNIT; decimals and fractions come in by measured and measured_curve, which pay for
the rounding in the radius, and go out by Ends.decimals and outward, which round outward. Models, curves, books and
readings cannot be changed, and every number in them fits the field in which it crosses to the library. What the library
refuses is raised as Refused, with a number, a place and a sentence; a number that no field holds is a ValueError, and
what is no number, or no model, a TypeError.
"""

import sys

if sys.version_info < (3, 11):
    raise ImportError(f"hechroung needs Python 3.11 or later, and this is {sys.version.split()[0]}")

from .archive import restore, store
from .books import Book, Report, Step, Summary, run_book, shares_book, write
from .calls import (
    add, antiderivative, constant, cut_range, evaluate, exact_integral, integral, multiply, negate, quotient, range_of,
    substitute, subtract, sweep, variable,
)
from .curves import (
    Curve, add_curves, from_powers, multiply_curves, negate_curve, range_of_curve, subtract_curves, to_powers,
)
from .doubles import from_doubles
from .errors import REFUSALS, Misused, Refusal, Refused
from .limits import (
    CURVE_PLACES, DENOMINATOR, LONGEST_SHEET, MOST_DEPTH, MOST_MODELS, MOST_ORDER, MOST_READINGS, MOST_STEPS,
    MOST_TERMS, MOST_VARIABLES, SPAN, UNIT,
)
from .measuring import measured, measured_curve
from .models import Model, exponents_of, key_of
from .numbers import Number, Rounded, exact, outward, rounded, units
from .proposals import propose
from .readings import Reading, first_contradicting
from .results import Ends, Exact, Shares
from .sheets import Record, lines, open_sheet, read, record, records, rewrite, run, shares
from .version import VERSION

__version__ = VERSION

__all__ = [
    "Book", "CURVE_PLACES", "Curve", "DENOMINATOR", "Ends", "Exact", "LONGEST_SHEET", "MOST_DEPTH", "MOST_MODELS",
    "MOST_ORDER", "MOST_READINGS", "MOST_STEPS", "MOST_TERMS", "MOST_VARIABLES", "Misused", "Model", "Number",
    "REFUSALS", "Reading", "Record", "Refusal", "Refused", "Report", "Rounded", "SPAN", "Shares", "Step", "Summary",
    "UNIT", "__version__", "add", "add_curves", "antiderivative", "constant", "cut_range", "evaluate", "exact",
    "exact_integral", "exponents_of", "first_contradicting", "from_doubles", "from_powers", "integral", "key_of",
    "lines", "measured", "measured_curve", "multiply", "multiply_curves", "negate", "negate_curve", "open_sheet",
    "outward", "propose", "quotient", "range_of", "range_of_curve", "read", "record", "records", "restore", "rewrite",
    "rounded", "run", "run_book", "shares", "shares_book", "store", "substitute", "subtract", "subtract_curves",
    "sweep", "to_powers", "units", "variable", "write",
]
