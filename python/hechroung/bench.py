"""Readings of a bench log, in decimals, held against a curve: which of them no function within it passes through."""

from __future__ import annotations

import csv
from collections.abc import Iterator, Sequence
from fractions import Fraction
from typing import NamedTuple

from .calls import range_of, substitute
from .inputs import Unfit
from .limits import MOST_ORDER, MOST_READINGS, UNIT
from .models import Model
from .readings import Reading, first_contradicting
from .results import Ends
from .text import number_of


class LogReading(NamedTuple):
    """A reading as it was written: its line, its point and its band, exactly."""

    line: int
    point: tuple[Fraction, ...]
    low: Fraction
    high: Fraction


class Contradiction(NamedTuple):
    """A reading that contradicts, and the ends of what the curve can be at its point, in units."""

    reading: LogReading
    ends: Ends


# ---- the log


def read_log(text: str, variables: Sequence[str]) -> list[LogReading]:
    """The readings of a CSV text.

    Its first line names the columns: one for each variable, and low and high, or value and error. Other columns are
    not looked at. Blank lines and lines that begin with # are left out. Where columns are parted by semicolons a
    decimal may have a comma.
    """
    rows = [(number, line) for number, line in enumerate(text.splitlines(), 1)
            if line.strip() and not line.lstrip().startswith("#")]
    if not rows:
        raise Unfit("the log has no line; its first names the columns")
    first, head = rows[0]
    parted = ";" if ";" in head else ","
    names = [name.strip() for name in next(csv.reader([head], delimiter=parted))]
    places = _places(first, names, variables)
    return [_reading(number, _cells(number, line, parted, len(names)), places, names) for number, line in rows[1:]]


def _places(line: int, names: Sequence[str], variables: Sequence[str]) -> list[int]:
    """Which columns have the coordinates and the two numbers of the band."""
    if len(set(names)) < len(names):
        raise Unfit(f"line {line}: a column is named twice")
    band = ["low", "high"] if "low" in names or "high" in names else ["value", "error"]
    for name in [*variables, *band]:
        if name not in names:
            wanted = ", ".join(variables)
            raise Unfit(f"line {line}: there is no column '{name}'; the first line names {wanted}, and low and high, "
                        "or value and error")
    return [names.index(name) for name in [*variables, *band]]


def _cells(line: int, text: str, parted: str, count: int) -> list[str]:
    cells = [cell.strip() for cell in next(csv.reader([text], delimiter=parted))]
    if len(cells) != count:
        raise Unfit(f"line {line}: {len(cells)} cells, and the first line names {count} columns")
    return [cell.replace(",", ".") for cell in cells]


def _reading(line: int, cells: Sequence[str], places: Sequence[int], names: Sequence[str]) -> LogReading:
    numbers = []
    for place in places:
        try:
            numbers.append(number_of(cells[place]))
        except ValueError as fault:
            raise Unfit(f"line {line}, column '{names[place]}': {fault}") from None
    *point, low, high = numbers
    for place, coordinate in zip(places, point):
        if abs(coordinate) > 1:
            raise Unfit(f"line {line}: {names[place]} = {cells[place]} leaves the box, -1 to 1")
    if "low" not in names:
        if high < 0:
            raise Unfit(f"line {line}: the error is {cells[places[-1]]}, and an error is at least 0")
        low, high = low - high, low + high
    if low > high:
        raise Unfit(f"line {line}: the low value {cells[places[-2]]} is above the high one, {cells[places[-1]]}")
    return LogReading(line, tuple(point), low, high)


# ---- held against a curve


def point_model(n: int, value: Fraction) -> Model:
    """A constant of the box: of radius 0 where it is a whole number of units, else one that holds it.

    Its range does not leave the box, whose ends are whole.
    """
    units = value * UNIT
    if units.denominator == 1:
        return Model.of(n, {(): int(units)})
    nearest = max(1 - UNIT, min(UNIT - 1, round(units)))
    return Model.of(n, {(): nearest}, 1)


def put_in(model: Model, values: dict[int, Fraction]) -> Model:
    """The model with values for some variables, by their numbers from 1."""
    for i, value in sorted(values.items()):
        model = substitute(MOST_ORDER, i, model, point_model(model.n, value))
    return model


def ends_at(model: Model, point: Sequence[Fraction]) -> Ends:
    """The ends of what functions within a model can be at a point. Where its coordinates are whole units this is the
    library's evaluation; else each is put in with a radius that holds it."""
    return range_of(put_in(model, dict(enumerate(point, 1))))


def contradictions(model: Model, log: Sequence[LogReading]) -> Iterator[Contradiction]:
    """The readings whose band has no number in common with what the curve can be there, in the log's order.

    The band is rounded outward to whole units. Readings at whole units go through the library's own call, up to 256 at
    a time.
    """
    found = {*_by_the_call(model, [reading for reading in log if _is_whole(reading)])}
    for reading in log:
        if reading.line in found or not _is_whole(reading):
            ends, band = ends_at(model, reading.point), _band(reading)
            if band.high < ends.low or ends.high < band.low:
                yield Contradiction(reading, ends)


def _is_whole(reading: LogReading) -> bool:
    return all(UNIT % coordinate.denominator == 0 for coordinate in reading.point)


def _band(reading: LogReading) -> Ends:
    """The band in whole units, rounded outward."""
    return Ends(reading.low * UNIT // 1, -(-reading.high * UNIT // 1))


def _by_the_call(model: Model, log: Sequence[LogReading]) -> Iterator[int]:
    """The lines of contradicting readings at whole units."""
    at = 0
    while at < len(log):
        lot = log[at:at + MOST_READINGS]
        rows = [Reading(tuple(int(c * UNIT) for c in reading.point), *_band(reading)) for reading in lot]
        first = first_contradicting(model, rows)
        if first is None:
            at += len(lot)
            continue
        yield lot[first].line
        # Those before it do not contradict.
        at += first + 1
