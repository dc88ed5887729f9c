"""Books: models and steps in memory, run as they are or written as a sheet."""

from __future__ import annotations

import ctypes
from collections.abc import Callable, Iterable, Sequence
from dataclasses import dataclass
from typing import Any, NamedTuple

from . import _library as library
from . import codes
from ._fields import array, i64, u8, u64, whole
from ._handing import SHEET, Answer, check, models_slices
from .errors import Misused
from .limits import LONGEST_SHEET, MOST_MODELS, MOST_ORDER, MOST_STEPS
from .models import Model, tested_model
from .results import Ends, Exact, Shares


class Step(NamedTuple):
    """A step: its code and its fields, those that the code does not name 0. Step numbers and models count from 0.

    The functions below make one of each code: Step.add(0, 1) is Step(4, 0, 1, 0, 0).
    """

    code: int
    a: int = 0
    b: int = 0
    v: int = 0
    value: int = 0

    @classmethod
    def input(cls, model: int) -> Step:
        """A model of the book."""
        return cls(codes.INPUT, model)

    @classmethod
    def constant(cls, value: int) -> Step:
        """A constant, in units."""
        return cls(codes.CONSTANT, value=value)

    @classmethod
    def variable(cls, v: int) -> Step:
        """Variable v, from 1."""
        return cls(codes.VARIABLE, v=v)

    @classmethod
    def negate(cls, a: int) -> Step:
        """Step a with all signs turned."""
        return cls(codes.NEGATE, a)

    @classmethod
    def add(cls, a: int, b: int) -> Step:
        """The sum of steps a and b."""
        return cls(codes.ADD, a, b)

    @classmethod
    def subtract(cls, a: int, b: int) -> Step:
        """Step a less step b."""
        return cls(codes.SUBTRACT, a, b)

    @classmethod
    def multiply(cls, a: int, b: int) -> Step:
        """The product of steps a and b, to the book's order."""
        return cls(codes.MULTIPLY, a, b)

    @classmethod
    def substitute(cls, a: int, v: int, b: int) -> Step:
        """Step b in the place of variable v of step a."""
        return cls(codes.SUBSTITUTE, a, b, v)

    @classmethod
    def sweep(cls, a: int, threshold: int) -> Step:
        """Step a without its terms of a size up to the threshold, which go into the radius."""
        return cls(codes.SWEEP, a, value=threshold)

    @classmethod
    def quotient(cls, f: int, g: int, h: int, w: int) -> Step:
        """Step f divided by step g, from a proposal: step h for the quotient and step w for 1 / g."""
        return cls(codes.QUOTIENT, f, g, h, w)

    @classmethod
    def antiderivative(cls, a: int, v: int) -> Step:
        """The antiderivative of step a in variable v that is 0 wherever that variable is 0."""
        return cls(codes.ANTIDERIVATIVE, a, v=v)


class Summary(NamedTuple):
    """What a run gives: the last step's model, the ends of its range and of its integral, and the exact integral."""

    model: Model
    range: Ends
    integral: Ends
    exact: Exact


class Report(NamedTuple):
    """What a run gives, and the shares of each of 64 steps; zeros where there is no step."""

    summary: Summary
    shares: tuple[Shares, ...]


def tested_step(step: Any) -> Step:
    """Five numbers, each of which fits its field: four bytes and a value."""
    fields = tuple(step)
    if len(fields) != 5:
        raise ValueError(f"a step has five fields, and not {len(fields)}")
    code, a, b, v = (whole(u8, given, "a field of a step") for given in fields[:4])
    return Step(code, a, b, v, whole(i64, fields[4], "the value of a step"))


@dataclass(frozen=True, slots=True)
class Book:
    """n variables, an order, models and steps; it cannot be changed.

    Any numbers that fit their fields are taken; running and writing refuse what breaks a rule.
    """

    n: int
    order: int
    models: tuple[Model, ...]
    steps: tuple[Step, ...]

    def __init__(self, n: int, order: int, models: Iterable[Model] = (), steps: Iterable[Sequence[int]] = ()) -> None:
        object.__setattr__(self, "n", whole(u8, n, "n"))
        object.__setattr__(self, "order", whole(u8, order, "an order"))
        object.__setattr__(self, "models", tuple(tested_model(model) for model in models))
        object.__setattr__(self, "steps", tuple(tested_step(step) for step in steps))

    def run(self) -> Summary:
        """Runs the steps: the last one's model, its range and its integral."""
        return run_book(self)

    def report(self) -> Report:
        """Runs the steps, and tells where the radius of each came from."""
        return shares_book(self)

    def sheet(self) -> bytes:
        """The book as a sheet."""
        return write(self)


def run_book(book: Book) -> Summary:
    """Runs a book."""
    return ran(library.run_book, _slices(book), book.order)


def shares_book(book: Book) -> Report:
    """Runs a book, and tells where the radius of each of its steps came from."""
    return reported(library.shares_book, _slices(book), book.order)


def write(book: Book) -> bytes:
    """The sheet of a book."""
    buffer, numbers = ctypes.create_string_buffer(LONGEST_SHEET), (u64 * 2)()
    number = library.write(*_slices(book), buffer, LONGEST_SHEET, numbers, 2)
    place, length = numbers
    check(number, place, SHEET)
    return buffer.raw[:length]


def _slices(book: Any) -> tuple[Any, ...]:
    """A book as a call reads it; more models or steps than there may be are handed over by their count."""
    if not isinstance(book, Book):
        raise Misused(f"a book is asked for, and not {book!r}")
    steps = book.steps[:MOST_STEPS]
    fields = bytes(array(u8, (given for step in steps for given in step[:4])))
    values = array(i64, (step.value for step in steps))
    return (book.n, book.order, len(book.models), len(book.steps), *models_slices(book.models[:MOST_MODELS]),
            fields, len(fields), values, len(steps))


# ---- runs of books and of sheets


def ran(call: Callable[..., int], arguments: Sequence[Any], order: int) -> Summary:
    """Runs what the arguments hand over; the model states its order."""
    return _summed(call, arguments, order, None)


def reported(call: Callable[..., int], arguments: Sequence[Any], order: int) -> Report:
    """The same with shares."""
    rows = (u64 * (4 * MOST_STEPS))()
    summary = _summed(call, arguments, order, rows)
    return Report(summary, _shares(rows))


def _summed(call: Callable[..., int], arguments: Sequence[Any], order: int, rows: Any) -> Summary:
    answer, ends = Answer(), (i64 * 6)()
    after = () if rows is None else (rows, len(rows))
    number = call(*arguments, *answer.slices, ends, 6, *after)
    model = answer.model(number, SHEET, () if rows is None else _shares(rows))
    stated = order if 1 <= order <= MOST_ORDER else None
    return Summary(Model(*model, stated), Ends(*ends[:2]), Ends(*ends[2:4]), Exact(*ends[4:]))


def _shares(rows: Any) -> tuple[Shares, ...]:
    return tuple(Shares(*rows[i:i + 4]) for i in range(0, len(rows), 4))
