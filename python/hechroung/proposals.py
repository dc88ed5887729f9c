"""A proposal for a quotient f / g, found by the library's own single calls.

A quotient is not computed but checked: somebody proposes a polynomial h near f / g and a polynomial w near 1 / g, and
the library works out how far f / g can be from h. Nothing has to be proved of the proposal. A bad one only costs: a
wider radius, or refusal 12 where w is too far from 1 / g to show that g is nowhere zero.

Newton's rule finds both. From the inverse of g's constant part, w <- w (2 - g w) squares the distance from 1 / g in
every round, up to the order d; then h <- f w. Radii do not matter here and are left away.
"""

from .calls import constant, multiply, subtract
from .limits import UNIT
from .models import Model, tested_model


def propose(d: int, f: Model, g: Model, rounds: int = 2) -> tuple[Model, Model]:
    """The pair h, w for quotient(d, f, g, h, w). ValueError where g has no constant part to begin with."""
    w = _constant_inverse(tested_model(g))
    for _ in range(rounds):
        w = _closer_inverse(d, g, w)
    return multiply(d, tested_model(f).without_radius(), w).without_radius(), w


def _constant_inverse(g: Model) -> Model:
    middle = dict(g.terms).get(0, 0)
    if middle == 0:
        raise ValueError("the divisor has no constant part: in the middle of the box it may be zero")
    return constant(g.n, UNIT * UNIT // middle)


def _closer_inverse(d: int, g: Model, w: Model) -> Model:
    """One round of Newton's rule: w (2 - g w)."""
    two = constant(g.n, 2 * UNIT)
    return multiply(d, w, subtract(two, multiply(d, g.without_radius(), w))).without_radius()
