"""A bench log held against a meter's curve: which line contradicts it. examples/bench.md says what the lines mean."""

from fractions import Fraction

from hechroung import UNIT, Model, Reading, evaluate, first_contradicting

# The meter and the bench count in steps of 1/1024, which are whole units: nothing is rounded.
STEP = UNIT // 1024
# Litres a minute over the pump's setting, within 20 steps, from the data sheet.
VALUES = [2970, 666, -410, 82]
RADIUS = 20
METER = Model.of(1, {power: STEP * value for power, value in enumerate(VALUES)}, RADIUS * STEP)


def missed(setting, low, high):
    """Whether no value within the radius of the curve lies in the band, in fractions."""
    value = sum(c * Fraction(setting, 1024) ** power for power, c in enumerate(VALUES))
    return value + RADIUS < low or high < value - RADIUS


with open("examples/bench.log", encoding="ascii") as log:
    lines = [(number, line) for number, line in enumerate(log, 1) if not line.startswith("#")]
lines = [(number, [int(word) for word in line.split()]) for number, line in lines]
print("readings", len(lines))
while True:
    rows = [Reading([STEP * setting], STEP * low, STEP * high) for _, (setting, low, high) in lines]
    found = first_contradicting(METER, rows)
    if found is None:
        break
    # Without it, the rest.
    number, numbers = lines.pop(found)
    assert missed(*numbers)
    row = rows[found]
    print("line", number, "contradicts: read", row.low, row.high, "curve", *evaluate(METER, row.point))
print("of the other", len(lines), "none contradicts")
