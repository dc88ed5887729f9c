"""A conductivity curve corrected by a temperature curve: the quotient from a proposal, as a single call and as a step,
then a poorer proposal, a refusal and a misuse. examples/quotient.md says what the lines mean."""

from hechroung import Book, Misused, Refused, Step
from hechroung import evaluate, measured, propose, quotient, range_of, units, variable

ORDER = 3

# x is the time of the milking, y the milk's temperature. Conductivity in mS/cm, to 0.02; the factor of the temperature,
# to 0.001; by the exponents of x and y.
conductivity = measured(2, {(0, 0): "5.60", (0, 1): "0.60", (1, 0): "0.50", (1, 1): "0.05", (2, 0): "-0.20"}, "0.02")
temperature = measured(2, {(0, 0): "1.24", (0, 1): "0.06", (1, 0): "0.01"}, "0.001")

h, w = propose(ORDER, conductivity, temperature)
corrected = quotient(ORDER, conductivity, temperature, h, w)
print("conductivity: radius", conductivity.radius)
print("temperature: radius", temperature.radius)
print("proposal: h of", len(h.terms), "terms, w of", len(w.terms))
print("radius", corrected.radius)
for exponents, coefficient in corrected.coefficients.items():
    print("term", *exponents, coefficient)
print("range", *range_of(corrected))
# A point is in whole units; 5/8 and -1/4 are, where 0.6 and -0.3 are refused: they would be another point.
print("at 5/8 -1/4", *evaluate(corrected, [units("5/8"), units("-1/4")]))

# The same as a step: four inputs, then the quotient of the first two with the others as its proposal.
inputs = [Step.input(model) for model in range(4)]
summary = Book(2, ORDER, [conductivity, temperature, h, w], [*inputs, Step.quotient(0, 1, 2, 3)]).run()
assert (summary.model, summary.range) == (corrected, range_of(corrected))

# Without Newton's rule w is a constant. That is a proposal as well, only a poorer one.
h, w = propose(ORDER, conductivity, temperature, rounds=0)
print("with a constant w: radius", quotient(ORDER, conductivity, temperature, h, w).radius)

# The temperature's own variable is 0 somewhere: no proposal makes it a divisor.
try:
    quotient(ORDER, conductivity, variable(2, 2), h, w)
except Refused as refusal:
    print("refused", refusal.number, refusal.place)
try:
    quotient(ORDER, conductivity, temperature, h, None)
except Misused as misuse:
    print("misused", misuse.number)
