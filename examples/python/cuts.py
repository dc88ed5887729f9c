"""A tight limit for one curve: its range at depths 0 to 6, as text and, where a file is named, as a picture.
examples/cuts.md says how to read it."""

import sys
from fractions import Fraction
from pathlib import Path

from bands import picture
from hechroung import UNIT, cut_range, evaluate, measured

DEPTHS = range(7)
# The order of the substitutions: the degree of the curve.
ORDER = 6
# Points of [-1, 1] at which the curve is drawn, and held against the ranges.
POINTS = [UNIT * place // 100 for place in range(-100, 101)]


def product(*factors):
    """The coefficients of a product, from the constant on."""
    answer = [1]
    for factor in factors:
        longer = [0] * (len(answer) + len(factor) - 1)
        for i, a in enumerate(answer):
            for k, b in enumerate(factor):
                longer[i + k] += a * b
        answer = longer
    return answer


def curve():
    """(x + 1/2)² (x - 1/4)³ (1 + x/3), known to a thousandth."""
    half, quarter, third = [Fraction(1, 2), 1], [Fraction(-1, 4), 1], [1, Fraction(1, 3)]
    coefficients = product(half, half, quarter, quarter, quarter, third)
    return measured(1, dict(enumerate(coefficients)), "0.001")


model = curve()
ranges = [cut_range(ORDER, 1, depth, model) for depth in DEPTHS]
values = [evaluate(model, [x]) for x in POINTS]
print("depth  pieces       low      high     width")
for depth, (low, high) in zip(DEPTHS, ranges):
    # Both hold the curve's value at each point, so they have a number in common.
    assert all(low <= above and below <= high for below, above in values)
    print(f"{depth:5} {2 ** depth:7} {low:9} {high:9} {high - low:9}")
print()
least, most = min(below for below, _ in values), max(above for _, above in values)
print(f"at {len(POINTS)} points the curve lies from {least} to {most}, a width of {most - least}")

if len(sys.argv) > 1:
    Path(sys.argv[1]).write_text(picture(POINTS, values, ranges), encoding="ascii")
