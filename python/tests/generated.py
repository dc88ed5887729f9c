"""Sheets for tests: the guide's own, and generated ones that the reader accepts, with every kind of step, every count
and numbers at the edges of their fields."""

from __future__ import annotations

import random

from hechroung import MOST_MODELS, MOST_STEPS, MOST_TERMS, SPAN, UNIT, Book, Model, Step

SHEET = """\
variables f t
order 7
model curve = 0.2503 + 1.0201 f - 0.0312 f^2 t ± 0.0004
y      = curve + 0.05 * t
z      = y * y
litres = antiderivative z in f
"""


def book(seed: int) -> Book:
    """A book by a seed: small as a rule, and now and then as large as there is one."""
    dice = random.Random(seed)
    n, order = dice.randint(1, 8), dice.randint(1, 15)
    models = [model(dice, n, order) for _ in range(count(dice, 0, MOST_MODELS))]
    steps: list[Step] = []
    for _ in range(count(dice, 1, MOST_STEPS)):
        # Now and then a step is a second time the same.
        steps.append(dice.choice(steps) if steps and dice.random() < 0.1 else step(dice, n, len(models), len(steps)))
    return Book(n, order, models, steps)


def count(dice: random.Random, least: int, most: int) -> int:
    return dice.choice([least, most]) if dice.random() < 0.05 else dice.randint(least, min(most, least + 5))


def size(dice: random.Random, most: int) -> int:
    """A size from 1 to `most`: a few units, a short decimal, any, or the most."""
    wanted = dice.choice([dice.randint(1, 9), UNIT * dice.randint(1, 640) // 64, dice.randint(1, SPAN), most])
    return max(1, min(wanted, most))


def model(dice: random.Random, n: int, order: int) -> Model:
    terms: dict[tuple[int, ...], int] = {}
    left = SPAN
    wanted = count(dice, 0, MOST_TERMS)
    for place in range(wanted):
        key = exponents(dice, n, order)
        if key not in terms and left:
            # Room is left for the others, so that large models are large; the last may take all.
            terms[key] = dice.choice([-1, 1]) * size(dice, max(1, left // (wanted - place)))
            left -= abs(terms[key])
    radius = 0 if dice.random() < 0.3 or not left else size(dice, left)
    return Model.of(n, terms, radius)


def exponents(dice: random.Random, n: int, order: int) -> tuple[int, ...]:
    chosen = [0] * n
    for _ in range(dice.randint(0, order)):
        chosen[dice.randrange(n)] += 1
    return tuple(chosen)


def step(dice: random.Random, n: int, models: int, earlier: int) -> Step:
    codes = [1, 2] + [0] * bool(models) + [*range(3, 11)] * bool(earlier)
    code = dice.choice(codes)

    def before() -> int:
        return dice.randrange(earlier)

    value = dice.choice([0, 1, SPAN, dice.randint(0, SPAN), UNIT * dice.randint(0, 640) // 64])
    if code == 0:
        return Step.input(dice.randrange(models))
    if code == 1:
        return Step.constant(dice.choice([-1, 1]) * value)
    if code == 2:
        return Step.variable(dice.randint(1, n))
    if code == 3:
        return Step.negate(before())
    if code == 7:
        return Step.substitute(before(), dice.randint(1, n), before())
    if code == 8:
        return Step.sweep(before(), value)
    if code == 9:
        return Step.quotient(before(), before(), before(), before())
    if code == 10:
        return Step.antiderivative(before(), dice.randint(1, n))
    return Step(code, before(), before())
