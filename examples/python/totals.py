"""Litres of a herd: the integrals of many runs added up, by their ends and without loss by their quotients and
remainders, and how much narrower the band of the total is. examples/totals.md says what the lines mean."""

from fractions import Fraction

from hechroung import DENOMINATOR, UNIT, Book, Model, Step

MILKINGS = 2000
ORDER = 4
# Minutes from the middle of a milking to its end, where x is 1.
HALF_TIME = 3
# The flow times the minutes: the integral of the product is the milk of one milking.
STEPS = [Step.input(0), Step.constant(HALF_TIME * UNIT), Step.multiply(0, 1)]


def flow(k):
    """Litres a minute of milking k, each a little different. The meter counts in steps of 1/1024, which are whole
    units: nothing is rounded, and the radius is 0."""
    values = [2900 + 7 * k % 611, -650 + 13 * k % 301, -2000 - 11 * k % 407, 310 + 5 * k % 97, -40 - 3 * k % 53]
    return Model.of(1, {power: UNIT // 1024 * value for power, value in enumerate(values)})


def exact(model):
    """The integral of a polynomial in one variable, as a fraction of units: odd powers give 0."""
    return sum(Fraction(2 * c, power + 1) for (power,), c in model.coefficients.items() if power % 2 == 0)


low = high = quotient = remainder = radii = 0
checked = Fraction(0)
for k in range(MILKINGS):
    summary = Book(1, ORDER, [flow(k)], STEPS).run()
    low, high = low + summary.integral.low, high + summary.integral.high
    quotient, remainder = quotient + summary.exact.quotient, remainder + summary.exact.remainder
    radii += summary.model.radius
    checked += exact(summary.model)
# What is a whole unit is carried; the radii count twice, as the box is 2 long.
quotient, remainder = quotient + remainder // DENOMINATOR, remainder % DENOMINATOR
assert checked == quotient + Fraction(remainder, DENOMINATOR)
band = (quotient - 2 * radii, quotient + 2 * radii + (remainder != 0))
assert low <= band[0] and band[1] <= high

print("milkings", MILKINGS, "litres", quotient // UNIT)
print("sum of ends", low, high, "width", high - low)
print("exact", quotient, remainder)
print("band", *band, "width", band[1] - band[0])
print("narrower by", (high - low) - (band[1] - band[0]), "units, to 1 part in", (high - low) // (band[1] - band[0]))
