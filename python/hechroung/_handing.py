"""How models cross: as numbers and slices on the way over, and back from the slices that a call stores."""

from collections.abc import Iterable, Mapping, Sequence
from typing import Any, Protocol

from ._fields import array, i64, size, u8, u32, u64, whole
from .errors import MISUSED, Misused, Refused
from .limits import MOST_MODELS, MOST_TERMS, MOST_VARIABLES
from .results import Shares

Terms = tuple[tuple[int, int], ...]

# What the place of a refusal counts, by the kind of call.
NOTHING: Mapping[int, str] = {}
SINGLE = {5: "model"}
SHEET = {5: "model"} | dict.fromkeys((6, 7, 8, 9, 12), "step")
CUT = dict.fromkeys((7, 8), "piece")
READINGS = dict.fromkeys((15, 6, 9, 7), "reading")
ARCHIVE = {17: "term"}


class Handed(Protocol):
    """What has the fields of a model."""

    @property
    def n(self) -> int: ...
    @property
    def radius(self) -> int: ...
    @property
    def terms(self) -> Terms: ...


def check(number: int, place: int, counted: Mapping[int, str] = NOTHING, shares: Sequence[Shares] = ()) -> None:
    """Raises what a call's number says."""
    if number == MISUSED:
        raise Misused("the library made no call: a slice is too short, or a code names no call")
    if number:
        raise Refused(number, place, counted.get(number, ""), shares)


def model_slices(model: Handed) -> tuple[Any, ...]:
    """A model as a call reads it. More than 64 terms are handed over by their count, which is refused."""
    first = model.terms[:MOST_TERMS]
    keys = array(u32, (key for key, _ in first), "a key")
    coefficients = array(i64, (coefficient for _, coefficient in first), "a coefficient")
    return model.n, len(model.terms), model.radius, keys, len(keys), coefficients, len(coefficients)


def models_slices(models: Sequence[Handed]) -> tuple[Any, ...]:
    """Models one after the other, at most 16, with 64 places each: n, count and radius, keys and coefficients."""
    handed = models[:MOST_MODELS]
    padded = [(*model.terms[:MOST_TERMS], *((0, 0),) * (MOST_TERMS - len(model.terms))) for model in handed]
    terms = [term for places in padded for term in places]
    return (bytes(array(u8, (model.n for model in handed), "n")), len(handed),
            array(size, (len(model.terms) for model in handed)), len(handed),
            array(u64, (model.radius for model in handed), "a radius"), len(handed),
            array(u32, (key for key, _ in terms), "a key"), len(terms),
            array(i64, (coefficient for _, coefficient in terms), "a coefficient"), len(terms))


def tested_point(point: Iterable[int]) -> tuple[int, ...]:
    """The coordinates of a point, at most eight."""
    given = tuple(whole(i64, coordinate, "a coordinate") for coordinate in point)
    if len(given) > MOST_VARIABLES:
        raise ValueError(f"a point has at most {MOST_VARIABLES} coordinates, and not {len(given)}")
    return given


def one_for_each(n: int, point: Sequence[int]) -> None:
    """A point has a coordinate for each variable: one that was forgotten is not taken for 0."""
    if len(point) < min(n, MOST_VARIABLES):
        raise ValueError(f"a point has a coordinate for each of {n} variables, and not {len(point)}")


def eight(point: tuple[int, ...]) -> tuple[int, ...]:
    """All eight coordinates of a tested point: those above n, which are 0, may be left out."""
    return point + (0,) * (MOST_VARIABLES - len(point))


class Answer:
    """The slices into which a call stores a model: keys, coefficients, and place, n, count and radius."""

    def __init__(self) -> None:
        self._keys, self._coefficients = (u32 * MOST_TERMS)(), (i64 * MOST_TERMS)()
        self._numbers = (u64 * 4)()
        self.slices = (self._keys, MOST_TERMS, self._coefficients, MOST_TERMS, self._numbers, 4)

    def model(self, number: int, counted: Mapping[int, str] = SINGLE,
              shares: Sequence[Shares] = ()) -> tuple[int, int, Terms]:
        """n, radius and terms of an accepted call; a refused one raises."""
        place, n, count, radius = self._numbers
        check(number, place, counted, shares)
        return n, radius, tuple(zip(self._keys[:count], self._coefficients[:count]))
