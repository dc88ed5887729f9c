"""What an order costs: one sheet at orders 1 to 15, and where the radius of its last step came from at each of them, as
text and, where a file is named, as a picture. examples/shares.md says how to read it."""

import sys
from pathlib import Path

from bars import picture
from hechroung import UNIT, shares

ORDERS = range(1, 16)
SHEET = Path(__file__).resolve().parent.parent / "shares.hex"
# The letters of a text bar, for carried, rounding, swept and slack.
LETTERS = "CRSL"
COLUMNS = 50


def sheet_of(order):
    """The sheet with another order, which stands in the second byte of its trailer."""
    lines = SHEET.read_text(encoding="ascii").splitlines()
    sheet = bytearray(bytes.fromhex("".join(line.partition("#")[0] for line in lines)))
    sheet[-7] = order
    return bytes(sheet)


def cost(order):
    """The radius of the last step, and where it came from."""
    sheet = sheet_of(order)
    steps = sheet[-5]
    report = shares(sheet)
    radius, row = report.summary.model.radius, report.shares[steps - 1]
    assert sum(row) == UNIT * radius
    return radius, row


def bar(row):
    """A bar of letters, each share as long as its part of the sum to the next whole column."""
    ends = [(2 * COLUMNS * sum(row[:k + 1]) + sum(row)) // (2 * sum(row)) for k in range(4)]
    starts = [0, *ends]
    return "".join(letter * (end - start) for letter, start, end in zip(LETTERS, starts, ends))


costs = [cost(order) for order in ORDERS]
print("order  radius       carried   rounding         swept    slack")
for order, (radius, row) in zip(ORDERS, costs):
    print(f"{order:5} {radius:7} {row.carried:13} {row.rounding:10} {row.swept:13} {row.slack:8}")
print()
print("order  C carried, R rounding, S swept, L slack")
for order, (radius, row) in zip(ORDERS, costs):
    print(f"{order:5}  {bar(row)}")
print()
least = min(radius for radius, _ in costs)
enough = next(order for order, (radius, _) in zip(ORDERS, costs) if 10 * radius <= 11 * least)
print("the least radius is", least, "and order", enough, "the first within a tenth of it")

if len(sys.argv) > 1:
    Path(sys.argv[1]).write_text(picture(ORDERS, costs), encoding="ascii")
