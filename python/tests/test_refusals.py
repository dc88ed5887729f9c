"""Each of the seventeen refusals, with its number, its place, what the place counts, and a sentence."""

import ctypes
import math
import pickle

import hechroung
import pytest
from hechroung import REFUSALS, SPAN, UNIT, Book, Model, Reading, Refused, Step, _library
from hechroung._handing import SHEET, check

SAMPLE = bytes.fromhex("0200000100000000 0100000000000800 0400010000000000 0602020000000000 010200040000 4D4B")
X, ONE = hechroung.variable(1, 1), hechroung.constant(1, UNIT)
LARGE = hechroung.constant(1, SPAN)
ARCHIVED = hechroung.store(X)


def changed(sheet: bytes, at: int, byte: int) -> bytes:
    altered = bytearray(sheet)
    altered[at] = byte
    return bytes(altered)


def steep(n: int, count: int) -> Model:
    """A model of so many terms, each a unit."""
    exponents = [(i, k, m) for i in range(5) for k in range(5) for m in range(5)]
    return Model.of(n, {given: 1 for given in exponents[:count]})


def write_short() -> None:
    """The package lends buffers that are long enough; this is the refusal of one that is not."""
    numbers = (ctypes.c_uint64 * 2)()
    number = _library.rewrite(SAMPLE, len(SAMPLE), ctypes.create_string_buffer(39), 39, numbers, 2)
    check(number, numbers[0], SHEET)


# Number, place, what the place counts, and a call.
CASES = [
    (1, 0, "", lambda: hechroung.run(b"")),
    (1, 0, "", lambda: hechroung.restore(ARCHIVED[:-1])),
    (2, 0, "", lambda: hechroung.run(changed(SAMPLE, -1, 0))),
    (3, 0, "", lambda: hechroung.open_sheet(changed(SAMPLE, -8, 5))),
    (3, 0, "", lambda: hechroung.multiply(16, X, X)),
    (3, 0, "", lambda: hechroung.constant(9, 0)),
    (3, 0, "", lambda: Book(1, 0, [], [Step.variable(1)]).run()),
    (3, 0, "", lambda: hechroung.store(hechroung.variable(5, 1))),
    (4, 0, "", lambda: hechroung.read(changed(SAMPLE, -4, 1))),
    (5, 0, "model", lambda: hechroung.negate(Model(9))),
    (5, 1, "model", lambda: hechroung.add(X, Model(1, 0, [(0, 0)]))),
    (5, 3, "model", lambda: hechroung.quotient(2, X, ONE, X, Model(1, SPAN + 1))),
    (5, 1, "model", lambda: Book(1, 2, [X, Model(2)], [Step.input(0)]).run()),
    (5, 0, "", lambda: hechroung.range_of(Model(1, 0, [(0, 1), (0, 1)]))),
    (6, 0, "", lambda: hechroung.variable(1, 2)),
    (6, 0, "", lambda: hechroung.constant(1, SPAN + 1)),
    (6, 0, "", lambda: hechroung.sweep(X, -1)),
    (6, 0, "", lambda: hechroung.evaluate(X, [0, 1])),
    (6, 1, "step", lambda: Book(1, 2, [], [Step.variable(1), Step.negate(1)]).sheet()),
    (6, 1, "reading", lambda: hechroung.first_contradicting(X, [Reading([0], 0, 0), Reading([0, 1], 0, 0)])),
    (7, 0, "", lambda: hechroung.add(LARGE, ONE)),
    (7, 2, "step", lambda: Book(1, 2, [], [Step.constant(SPAN), Step.constant(1), Step.add(0, 1)]).run()),
    (7, 0, "", lambda: hechroung.from_doubles(1e300, 0.0, 0.0, 0.0)),
    (8, 0, "", lambda: hechroung.add(steep(3, 64), hechroung.variable(3, 3) + Model.of(3, {(9,): 1}))),
    (9, 0, "", lambda: hechroung.evaluate(X, [UNIT + 1])),
    (9, 0, "", lambda: hechroung.substitute(2, 1, X, hechroung.constant(1, UNIT + 1))),
    (9, 0, "reading", lambda: hechroung.first_contradicting(X, [Reading([-UNIT - 1], 0, 0)])),
    (10, 0, "", lambda: hechroung.subtract(X, hechroung.variable(2, 1))),
    (11, 0, "", write_short),
    (12, 0, "", lambda: hechroung.quotient(2, X, X, X, ONE)),
    (12, 1, "step", lambda: Book(1, 2, [], [Step.variable(1), Step.quotient(0, 0, 0, 0)]).run()),
    (13, 0, "", lambda: hechroung.from_powers(hechroung.variable(2, 1))),
    (14, 0, "", lambda: hechroung.cut_range(2, 1, 7, X)),
    (15, 0, "", lambda: hechroung.first_contradicting(X, [Reading([0], 0, 0)] * 257)),
    (15, 2, "reading", lambda: hechroung.first_contradicting(X, [Reading([0], 0, 0)] * 2 + [Reading([0], 1, 0)])),
    (16, 0, "", lambda: hechroung.from_doubles(math.nan, 0.0, 0.0, 0.0)),
    (17, 0, "term", lambda: hechroung.restore(ARCHIVED[:6] + b"\xff\xff" + ARCHIVED[8:])),
]


@pytest.mark.parametrize("number, place, of, call", CASES)
def test_a_refusal(number, place, of, call):
    with pytest.raises(Refused) as raised:
        call()
    refusal = raised.value
    assert (refusal.number, refusal.place, refusal.of) == (number, place, of)
    assert refusal.name == REFUSALS[number].name
    assert refusal.sentence == REFUSALS[number].sentence
    where = f" at {of} {place}" if of else ""
    assert str(refusal) == f"refused {number} ({refusal.name}){where}: {refusal.sentence}"
    again = pickle.loads(pickle.dumps(refusal))
    assert (again.number, again.place, again.of, str(again)) == (number, place, of, str(refusal))


def test_every_refusal_is_tried():
    assert {number for number, *_ in CASES} == set(REFUSALS) == set(range(1, 18))


def test_names_are_those_of_the_library():
    """The table of refusals in docs/LIBRARY.md."""
    lines = (hechroung._library._HERE.parents[1] / "docs/LIBRARY.md").read_text(encoding="utf-8").splitlines()
    rows = [line.split("|") for line in lines if line.startswith("| ")]
    table = {int(row[1]): row[2].strip(" `") for row in rows if row[1].strip().isdigit()}
    assert {number: refusal.name for number, refusal in REFUSALS.items()} == table


def test_a_piece_that_is_refused():
    """The pieces of a form of degree 15 in two variables have 136 terms."""
    terms = {(15 - k, k, 0): UNIT for k in range(16)}
    with pytest.raises(Refused) as raised:
        hechroung.cut_range(15, 1, 1, Model.of(3, terms))
    assert (raised.value.number, raised.value.place, raised.value.of) == (8, 0, "piece")


def test_shares_before_a_refused_step():
    steps = [Step.variable(1), Step.multiply(0, 0), Step.constant(SPAN), Step.add(1, 2)]
    with pytest.raises(Refused) as raised:
        Book(1, 1, [], steps).report()
    refusal = raised.value
    assert (refusal.number, refusal.place, len(refusal.shares)) == (7, 3, 64)
    assert refusal.shares[1] == (0, 0, UNIT * UNIT, 0)
    assert set(refusal.shares[2:]) == {(0, 0, 0, 0)}


def test_a_call_that_was_not_made():
    with pytest.raises(hechroung.Misused):
        check(255, 0)
