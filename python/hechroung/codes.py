"""The codes of a sheet's steps, as docs/SHEETS.md has them; the library's calls on models and curves have the same."""

INPUT, CONSTANT, VARIABLE, NEGATE, ADD, SUBTRACT, MULTIPLY, SUBSTITUTE, SWEEP, QUOTIENT, ANTIDERIVATIVE = range(11)

RANGE, INTEGRAL, EVALUATE = 1, 2, 3
"""Those of calls that answer with two ends, which no step does."""
