"""Books and sheets: what is written is read again, and runs to the same."""

from pathlib import Path

import hechroung
import pytest
from hechroung import UNIT, Book, Model, Refused, Step, key_of
from hypothesis import given, settings
from hypothesis import strategies as st

SAMPLES = Path(__file__).resolve().parents[2] / "tests" / "program"
SQUARE = Book(1, 2, [], [Step.variable(1), Step.constant(UNIT // 2), Step.add(0, 1), Step.multiply(2, 2)])
SHEET = bytes.fromhex("0200000100000000 0100000000000800 0400010000000000 0602020000000000 010200040000 4D4B")
LINES = """radius 0
term 0 262144
term 1 1048576
term 2 1048576
range -786432 2359296
integral 1223338 1223339
exact 1223338 141891750
"""


def bytes_of(path: Path) -> bytes:
    """The bytes of a sample in hex: a line of them, or `N times BYTE`; # begins a comment."""
    sheet = b""
    for line in path.read_text(encoding="utf-8").splitlines():
        count, times, byte = line.partition("#")[0].partition("times")
        sheet += int(count) * bytes.fromhex(byte) if times else bytes.fromhex(count)
    return sheet


def outcome(call):
    """What a call answers, or the number and the place of its refusal."""
    try:
        return call()
    except Refused as refusal:
        return refusal.number, refusal.place


def test_the_sample_of_document_01():
    assert SQUARE.sheet() == SHEET
    assert hechroung.lines(SHEET) == LINES
    summary = hechroung.run(SHEET)
    assert summary.model == Model.of(1, {0: UNIT // 4, 1: UNIT, 2: UNIT})
    assert (summary.range, summary.integral) == ((-786432, 2359296), (1223338, 1223339))
    assert summary.exact == (1223338, 141891750)
    assert summary.exact.units == hechroung.exact_integral(summary.model).units
    assert hechroung.run(SHEET) == SQUARE.run()
    assert SQUARE.report() == hechroung.shares(SHEET)


def test_records():
    assert list(hechroung.records(SHEET)) == [SHEET[i:i + 8] for i in range(0, 32, 8)]
    assert list(hechroung.open_sheet(SHEET)) == [("step", record) for record in hechroung.records(SHEET)]
    assert hechroung.record(SHEET, 4) == b""
    assert list(hechroung.records(SHEET[:-1])) == []


def test_every_code_has_a_constructor():
    steps = [Step.input(1), Step.constant(-2), Step.variable(3), Step.negate(4), Step.add(5, 6), Step.subtract(7, 8),
             Step.multiply(9, 10), Step.substitute(11, 1, 12), Step.sweep(13, 14), Step.quotient(15, 16, 17, 18),
             Step.antiderivative(19, 2)]
    assert steps == [(0, 1, 0, 0, 0), (1, 0, 0, 0, -2), (2, 0, 0, 3, 0), (3, 4, 0, 0, 0), (4, 5, 6, 0, 0),
                     (5, 7, 8, 0, 0), (6, 9, 10, 0, 0), (7, 11, 12, 1, 0), (8, 13, 0, 0, 14), (9, 15, 16, 17, 18),
                     (10, 19, 0, 2, 0)]


@pytest.mark.parametrize("path", sorted(SAMPLES.glob("*.hex")), ids=lambda path: path.stem)
def test_samples_of_the_program(path):
    sheet = bytes_of(path)
    expected = hechroung.lines(sheet)
    if expected.startswith("refused"):
        _, number, place = expected.split()
        assert outcome(lambda: hechroung.run(sheet)) == (int(number), int(place))
        assert outcome(lambda: hechroung.shares(sheet)) == (int(number), int(place))
    else:
        assert expected.startswith(f"radius {hechroung.run(sheet).model.radius}\n")
    read = outcome(lambda: hechroung.read(sheet))
    assert read == outcome(lambda: hechroung.read(sheet)) and (isinstance(read, Book) or read[0] <= 6)
    if isinstance(read, Book):
        assert read.sheet() == hechroung.rewrite(sheet) == sheet
        assert outcome(read.run) == outcome(lambda: hechroung.run(sheet))


def test_there_are_samples():
    assert len(list(SAMPLES.glob("*.hex"))) > 5


@st.composite
def books(draw):
    """Books whose steps mostly fit: each field near its limits."""
    n, order = draw(st.integers(1, 8)), draw(st.integers(1, 6))
    exponents = st.lists(st.integers(0, 2), min_size=n, max_size=n).map(tuple).filter(lambda e: sum(e) <= order)
    terms = st.dictionaries(exponents.map(key_of), st.integers(-UNIT, UNIT).filter(bool), max_size=5)
    models = draw(st.lists(st.builds(lambda t, r: Model(n, r, sorted(t.items())), terms, st.integers(0, 99)),
                           max_size=3))
    steps = [Step.variable(1)]
    for _ in range(draw(st.integers(0, 9))):
        earlier, of = st.integers(0, len(steps) - 1), st.integers(1, n)
        made = [
            st.builds(Step.constant, st.integers(-UNIT, UNIT)), st.builds(Step.variable, of),
            st.builds(Step.negate, earlier), st.builds(Step.add, earlier, earlier),
            st.builds(Step.subtract, earlier, earlier), st.builds(Step.multiply, earlier, earlier),
            st.builds(Step.substitute, earlier, of, earlier), st.builds(Step.sweep, earlier, st.integers(0, 9)),
            st.builds(Step.quotient, earlier, earlier, earlier, earlier), st.builds(Step.antiderivative, earlier, of),
        ]
        if models:
            made.append(st.builds(Step.input, st.integers(0, len(models) - 1)))
        steps.append(draw(st.one_of(made)))
    return Book(n, order, models, steps)


@settings(max_examples=200)
@given(books())
def test_a_book_and_its_sheet(book):
    sheet = book.sheet()
    assert hechroung.read(sheet) == book == eval(repr(book))
    assert hechroung.rewrite(sheet) == sheet
    assert outcome(lambda: hechroung.run(sheet)) == outcome(book.run)
    assert outcome(lambda: hechroung.shares(sheet)) == outcome(book.report)
    kinds = [record.kind for record in hechroung.open_sheet(sheet)]
    assert kinds == ["model"] * len(book.models) + ["step"] * len(book.steps)
    report = outcome(book.report)
    if isinstance(report, hechroung.Report):
        model = report.summary.model
        assert sum(report.shares[len(book.steps) - 1]) == UNIT * model.radius
        assert (report.summary.range, report.summary.integral) == (
            hechroung.range_of(model), hechroung.integral(model))


@given(st.binary(max_size=40))
def test_any_bytes_are_read_or_refused(given_bytes):
    read = outcome(lambda: hechroung.read(given_bytes))
    assert isinstance(read, Book) or 1 <= read[0] <= 6
    assert hechroung.lines(given_bytes)
