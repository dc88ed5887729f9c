"""A curve that a supplier delivers in doubles: its model, its range, and what is refused."""

import math

from hechroung import Misused, Refused, add, from_doubles, range_of


def number(*curve):
    """The number of the refusal, 0 without one."""
    try:
        from_doubles(*curve)
        return 0
    except Refused as refusal:
        return refusal.number


# 4.1 + 0.35 x - 1.25 x² litres a minute, to 0.002
ours = from_doubles(4.1, 0.35, -1.25, 0.002)
print("radius", ours.radius)
for exponents, coefficient in ours.coefficients.items():
    print("term", *exponents, coefficient)
print("range", *range_of(ours))

# A value that is not finite, a negative radius, one that is too large; and minus zero, which is zero.
print("not a number:", number(4.1, 0.35, math.nan, 0.002))
print("a negative radius:", number(4.1, 0.35, 0.0, -5e-324))
print("too large:", number(4.1, 0.35, 0.0, 1e300))
print("minus zero:", number(4.1, 0.35, 0.0, -0.0))
try:
    add(None, ours)
except Misused as misused:
    print("misused:", misused.number)
