"""Pictures by their data: columns hold every value, the same data give the same bytes, files are of their kind."""

from __future__ import annotations

import json
from fractions import Fraction
from pathlib import Path

import pytest
from hypothesis import given, settings
from hypothesis import strategies as st

from generated import SHEET
from hechroung import UNIT, Model, range_of
from hechroung import plot
from hechroung.inputs import of_text
from hechroung.report import Outcome

fractions = st.fractions(-1, 1, max_denominator=10 ** 6)


@pytest.fixture(scope="module")
def outcome() -> Outcome:
    return Outcome(of_text("bench.sheet", SHEET))


@given(st.lists(st.integers(-2 ** 20, 2 ** 20), min_size=4, max_size=4), st.integers(0, 999), fractions, fractions,
       st.sampled_from([1, 2, 8]))
@settings(max_examples=200)
def test_columns_hold_all_values(values: list[int], radius: int, x: Fraction, y: Fraction, count: int) -> None:
    model = Model.of(2, {(0, 0): values[0], (1, 0): values[1], (2, 1): values[2], (3, 0): values[3]}, radius)
    data = plot.columns(model, 1, count)
    j = min(int((x + 1) * count / 2), count - 1)
    assert data["edges"][j] <= x * UNIT <= data["edges"][j + 1]
    middle = values[0] + values[1] * x + values[2] * x * x * y + values[3] * x ** 3
    assert data["low"][j] <= middle - radius and middle + radius <= data["high"][j]
    assert data["half_width"][j] >= radius
    whole = range_of(model)
    assert whole.low <= min(data["low"]) and max(data["high"]) <= whole.high


def test_the_band_of_litres_holds_exact_outcomes(outcome: Outcome) -> None:
    data = plot.band_data(outcome, "f", {"t": Fraction(1, 4)}, 128)
    t = Fraction(1, 4)
    for place in range(-40, 41):
        f = Fraction(place, 40)
        j = min(int((f + 1) * 64), 127)
        for off in (Fraction(-4, 10000), Fraction(0), Fraction(4, 10000)):
            a = [Fraction("0.2503") + off + Fraction("0.05") * t, Fraction("1.0201"), -Fraction("0.0312") * t]
            square = [sum(a[i] * a[k - i] for i in range(3) if 0 <= k - i < 3) for k in range(5)]
            litres = sum(c * f ** (k + 1) / (k + 1) for k, c in enumerate(square))
            assert data["low"][j] <= litres * UNIT <= data["high"][j]


def test_shares_sum_to_the_radius(outcome: Outcome) -> None:
    data = plot.shares_data(outcome)
    for k, radius in enumerate(data["radius"]):
        assert sum(data["shares"][part][k] for part in plot.PARTS) == UNIT * radius > 0


def test_deeper_cuts_of_litres(outcome: Outcome) -> None:
    ranges = plot.depths_data(outcome, "f", 8)["ranges"]
    assert len(ranges) == 7 and ranges[0] == list(outcome.summary.range)
    assert all(ranges[0][0] <= low <= high <= ranges[0][1] for low, high in ranges)


@pytest.mark.parametrize("suffix, start", [(".png", b"\x89PNG"), (".svg", b"<?xml")])
def test_the_same_data_give_the_same_bytes(outcome: Outcome, tmp_path: Path, suffix: str, start: bytes) -> None:
    made = [plot.band_data(outcome, "t", {"f": Fraction(1, 3)}, 16), plot.shares_data(outcome),
            plot.depths_data(outcome, "t", 16)]
    for data in made:
        paths = [tmp_path / f"{name}{suffix}" for name in "ab"]
        for path in paths:
            plot.save(json.loads(json.dumps(data)), path)
        held = [path.read_bytes() for path in paths]
        assert held[0] == held[1] and held[0].startswith(start)
        if suffix == ".svg":
            assert b"litres" in held[0] and b"<dc:date>" not in held[0]


@pytest.mark.parametrize("path", ["a.pdf", "a", "png"])
def test_other_kinds_are_refused(outcome: Outcome, path: str) -> None:
    with pytest.raises(ValueError, match="stored as .png or .svg"):
        plot.save(plot.shares_data(outcome), path)


def test_columns_are_a_power_of_two() -> None:
    for count in (0, -1, 3, 100, 2048):
        with pytest.raises(ValueError, match="power of two up to 1024"):
            plot.columns(Model(1), 1, count)
