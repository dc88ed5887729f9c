"""Curves that a supplier delivers in doubles: the one place where floats are taken."""

from . import _library as library
from ._handing import NOTHING, Answer
from .models import Model


def from_doubles(c0: float, c1: float, c2: float, radius: float) -> Model:
    """The model of c0 + c1 x + c2 x² with a radius, four floats: what is within the curve is within the model.

    Each float counts by its exact value. A whole number is refused (TypeError): as a float it might be another one.
    """
    answer = Answer()
    return Model(*answer.model(library.doubles(c0, c1, c2, radius, *answer.slices), NOTHING))
