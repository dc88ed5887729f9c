"""The numbers that documents 01 and 02 fix, each with one name."""

UNIT = 1 << 20
"""A coefficient c stands for c / UNIT; radii, values, coordinates and ends likewise."""

SPAN = 1 << 30
"""The most that all sizes of a model's coefficients and its radius may sum to, in units."""

DENOMINATOR = 212_837_625
"""That of the exact integral: quotient + remainder / DENOMINATOR units."""

MOST_VARIABLES = 8
MOST_ORDER = 15
MOST_TERMS = 64
MOST_MODELS = 16
MOST_STEPS = 64
MOST_READINGS = 256
MOST_DEPTH = 6
CURVE_PLACES = 16
"""How many coefficients a curve in Chebyshev polynomials has."""

LONGEST_SHEET = 8792
LONGEST_RECORD = 5 + 8 * MOST_TERMS
LONGEST_ARCHIVED = 6 + 6 * MOST_TERMS
