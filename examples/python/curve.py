"""Squares the curve x + 1/2, reads its range and its value at 1/4, runs the same as a sheet, and shows a refusal and a
misuse."""

from hechroung import UNIT, Book, Misused, Model, Refused, Step
from hechroung import add, constant, evaluate, lines, multiply, open_sheet, range_of, records, shares, variable

ORDER = 2

x = variable(1, 1)
half = constant(1, UNIT // 2)
total = add(x, half)
square = multiply(ORDER, total, total)
# The same by operators, with an order that one of the models states.
assert (x + half).with_order(ORDER) * total == square
low, high = range_of(square)
value = evaluate(square, [UNIT // 4])

print("radius", square.radius)
for key, coefficient in square.terms:
    print("term", key >> 28, coefficient)
print("range", low, high)
print("at 1/4", *value)

# x, 1/2, their sum, its square, as the steps of a sheet in one variable of order 2: document 01's sample.
sheet = bytes.fromhex(
    "02 00 00 01 00 00 00 00  01 00 00 00 00 00 08 00  04 00 01 00 00 00 00 00  06 02 02 00 00 00 00 00"
    "01 02 00 04 00 00 4D 4B"
)
assert b"".join(records(sheet)) == sheet[:-8]
assert list(open_sheet(sheet)) == [("step", record) for record in records(sheet)]
book = Book(1, ORDER, [], [Step.variable(1), Step.constant(UNIT // 2), Step.add(0, 1), Step.multiply(2, 2)])
assert book.sheet() == sheet
assert (book.run().model, book.run().range) == (square, range_of(square))
print("sheet of", len(sheet), "bytes")
print(lines(sheet), end="")

# Order 1, the second byte of the trailer, has no room for the square: the radius of step 3 is what was swept.
report = shares(sheet[:-7] + b"\x01" + sheet[-6:])
print("with order 1: radius", report.summary.model.radius, "from", *report.shares[3])

# The second model is no model of one variable.
try:
    add(x, Model(9, half.radius, half.terms))
except Refused as refusal:
    print("refused", refusal.number, refusal.place)
# The package hands over slices that are long enough; what is not a call is an error all the same.
try:
    multiply(ORDER, x, None)
except Misused as misuse:
    print("misused", misuse.number)
