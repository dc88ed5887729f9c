"""Flow over the milking time in, litres gathered out, with the band at the end of milking: the antiderivative as a
single call and as a step, then a lower order, a refusal and a misuse. examples/litres.md says what the lines mean."""

from hechroung import UNIT, Book, Misused, Refused, Step
from hechroung import antiderivative, constant, evaluate, measured, substitute

ORDER = 4
# Minutes from the middle of the milking to its end, where x is 1.
HALF_TIME = 3


def gathered(order, flow):
    """Litres since the start, where x is -1. The antiderivative is 0 in the middle: its value at the start goes off."""
    from_middle = antiderivative(order, 1, flow)
    at_start = substitute(order, 1, from_middle, constant(1, -UNIT))
    return (from_middle - at_start) * HALF_TIME


# Litres a minute, to 0.05: 3.20 - 0.60 x - 2.40 x^2 + 0.40 x^3.
flow = measured(1, {0: "3.20", 1: "-0.60", 2: "-2.40", 3: "0.40"}, "0.05")
litres = gathered(ORDER, flow)
print("flow: radius", flow.radius)
print("radius", litres.radius)
for exponents, coefficient in litres.coefficients.items():
    print("term", *exponents, coefficient)
for minutes, x in [(0, -UNIT), (3, 0), (6, UNIT)]:
    print("after", minutes, "minutes", *evaluate(litres, [x]))

# The same as the steps of a book.
steps = [Step.input(0), Step.antiderivative(0, 1), Step.constant(-UNIT), Step.substitute(1, 1, 2), Step.subtract(1, 3),
         Step.constant(HALF_TIME * UNIT), Step.multiply(4, 5)]
report = Book(1, ORDER, [flow], steps).report()
assert report.summary.model == litres
print("carried, rounding, swept, slack:", *report.shares[6])

# One order less has no room for the fourth power: it goes into the radius.
print("with order 3: radius", gathered(3, flow).radius)

# The flow has no second variable.
try:
    antiderivative(ORDER, 2, flow)
except Refused as refusal:
    print("refused", refusal.number, refusal.place)
try:
    antiderivative(ORDER, 1, None)
except Misused as misuse:
    print("misused", misuse.number)
