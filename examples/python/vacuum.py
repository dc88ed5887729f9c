"""A vacuum curve fitted in Chebyshev polynomials, corrected by the curve of its gauge, converted to powers and put
into a sheet, whose answer comes back as a curve; then a refusal and a misuse. examples/vacuum.md says what the lines
mean."""

from hechroung import UNIT, Book, Misused, Refused, Step
from hechroung import from_powers, measured_curve, multiply_curves, range_of, range_of_curve, to_powers, variable

ORDER = 15
# The vacuum that the machine is set to, in kPa.
WANTED = 42

# x is the time of one pulse, from -1 to 1. Vacuum in kPa as the gauge reports it, to 0.05, and the factor of the gauge,
# to 0.0005; coefficients of T_0, T_1 and on.
vacuum = measured_curve(["41.235", "-1.842", "0.987", "-0.613", "0.336", "-0.164", "0.083", "-0.029"], "0.05")
gauge = measured_curve(["1.004", "-0.006", "0.0025"], "0.0005")
corrected = vacuum * gauge
print("vacuum: radius", vacuum.radius)
print("gauge: radius", gauge.radius)
print("corrected: radius", corrected.radius)
for k, coefficient in enumerate(corrected.coefficients):
    if coefficient:
        print("T", k, coefficient)
print("range", *range_of_curve(corrected))

# The same polynomial in powers, and its radius: nothing is rounded. The range goes term by term and is wider.
powers = to_powers(corrected)
print("in powers: radius", powers.radius)
for exponents, coefficient in powers.coefficients.items():
    print("term", *exponents, coefficient)
print("range", *range_of(powers))

# A book: the model, the constant, their difference. Its integral over the pulse is twice the mean.
steps = [Step.input(0), Step.constant(WANTED * UNIT), Step.subtract(0, 1)]
summary = Book(1, ORDER, [powers], steps).run()
print("off: integral", *summary.integral)
print("off: range", *summary.range)
# Its answer as a curve: a conversion to powers can be undone, and the range is narrow again.
off = from_powers(summary.model)
assert off.coefficients[1:] == corrected.coefficients[1:] and off.radius == corrected.radius
print("as a curve: radius", off.radius, "range", *range_of_curve(off))

# A model of two variables is no curve.
try:
    from_powers(variable(2, 1))
except Refused as refusal:
    print("refused", refusal.number, refusal.place)
try:
    multiply_curves(vacuum, None)
except Misused as misuse:
    print("misused", misuse.number)
