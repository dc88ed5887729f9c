"""The text form: round trips to the byte, decimals that are paid for, errors with line and column."""

from __future__ import annotations

import sys
from fractions import Fraction
from pathlib import Path

import pytest
from hypothesis import given, settings
from hypothesis import strategies as st

import generated
from generated import SHEET
from hechroung import UNIT, Refused, Step, read
from hechroung import text as text_form
from hechroung.inputs import hex_bytes
from hechroung.text import GRAMMAR, KEYWORDS, MissingModule, TextError, assemble, listing, number_of, shown

TOP = Path(__file__).resolve().parents[2]
ROUND_TRIPS = 3000


def of(lines: str, variables: str = "x y", order: int = 3) -> text_form.AssembledSheet:
    return assemble(f"variables {variables}\norder {order}\n{lines}")


def steps_of(lines: str) -> list[Step]:
    return list(read(of(lines)).steps)


# ---- round trips


@pytest.mark.parametrize("part", range(10))
def test_generated_sheets_come_back(part: int) -> None:
    for seed in range(part, ROUND_TRIPS, 10):
        sheet = generated.book(seed).sheet()
        assert assemble(listing(sheet)) == sheet, f"seed {seed}"


@given(st.integers(min_value=ROUND_TRIPS), st.booleans())
@settings(max_examples=200, deadline=None)
def test_any_generated_sheet_comes_back(seed: int, comments: bool) -> None:
    sheet = generated.book(seed).sheet()
    text = listing(sheet, comments=comments)
    assert assemble(text) == sheet
    assert assemble(text.replace("±", "+-").replace("\n", "\r\n")) == sheet
    assert ("#" in text) <= comments


def test_generated_sheets_have_every_kind() -> None:
    books = [generated.book(seed) for seed in range(ROUND_TRIPS)]
    assert {step.code for book in books for step in book.steps} == set(range(11))
    assert {book.n for book in books} == set(range(1, 9)) and {book.order for book in books} == set(range(1, 16))
    assert {len(book.models) for book in books} >= {0, 16} and {len(book.steps) for book in books} >= {1, 64}
    assert any(not model.terms for book in books for model in book.models)
    assert any(len(model.terms) > 50 for book in books for model in book.models)


@pytest.mark.parametrize("path", sorted(TOP.glob("tests/program/*.hex")), ids=lambda path: path.stem)
def test_samples_come_back_or_are_refused(path: Path) -> None:
    sheet = hex_bytes(path.read_text(encoding="ascii"))
    try:
        text = listing(sheet)
    except Refused as refusal:
        assert path.stem in ("empty", "too_long") and refusal.number == 1
    else:
        assert assemble(text) == sheet


def test_listing_in_own_names() -> None:
    sheet = assemble(SHEET)
    text = listing(sheet, ["f", "t"])
    assert "variables f t\n" in text and "f^2 t" in text and assemble(text) == sheet
    for names, sentence in (
            (["f"], "variables is 2, and 1 name"), (["f", "f"], "named twice"), (["f", "s0"], "named twice"),
            (["f", "in"], "cannot name"), (["f", "u"], "cannot name"), (["f", "2"], "cannot name")):
        with pytest.raises(ValueError, match=sentence):
            listing(sheet, names)


def test_listing_is_short() -> None:
    assert shown(UNIT // 2) == "0.5" and shown(3 * UNIT) == "3" and shown(0) == "0"
    assert shown(1) == "1u" and shown(UNIT // 64) == "0.015625" and shown(UNIT // 128) == "8192u"
    assert max(len(line) for line in listing(generated.book(5).sheet()).splitlines()) <= 120


# ---- the assembler


def test_the_curve_of_a_meter() -> None:
    sheet = assemble(SHEET)
    assert len(sheet) == 98
    assert sheet.variables == ("f", "t") and sheet.models == ("curve", "0.05")
    assert sheet.steps == ("curve", "0.05", "t", "0.05 * t", "y", "z", "litres")
    assert sheet.lines == (4, 4, 4, 4, 4, 5, 6)
    assert [note.partition(":")[0] for note in sheet.notes] == ["line 3", "line 4"]


def test_a_name_needed_twice_is_made_once() -> None:
    assert steps_of("y2 = y * y\nr = y2 + y + 0.5 + 0.5\n") == [
        Step.variable(2), Step.multiply(0, 0), Step.add(1, 0), Step.constant(UNIT // 2), Step.add(2, 3), Step.add(4, 3)]
    assert steps_of("model m = x\nr = m + m\n") == [Step.input(0), Step.add(0, 0)]


def test_words_make_a_step_each_time() -> None:
    assert steps_of("model m = x\na = input m\nb = input m\nc = variable x\nd = variable x\ne = constant 1\n"
                    "f = constant 1\n") == [Step.input(0)] * 2 + [Step.variable(1)] * 2 + [Step.constant(UNIT)] * 2


def test_a_last_name_that_is_an_earlier_step_is_the_result() -> None:
    sheet = of("a = x * x\nb = a + y\nr = a\n")
    assert read(sheet).steps[-1] == Step.sweep(1, 0) and sheet.steps[-1] == "r"
    assert "r is an earlier step" in sheet.notes[-1]
    assert steps_of("a = x\nr = a\n") == [Step.variable(1)]
    assert not of("a = x * x\nr = a\n").notes


def test_every_kind_of_step() -> None:
    assert steps_of("a = x\nb = -a\nc = a - b\nd = substitute a for y in c\ne = sweep d at 0.25\n"
                    "f = divide a by b proposal c, d\ng = antiderivative f in y\nh = +g\ni = (a + b) * c\n") == [
        Step.variable(1), Step.negate(0), Step.subtract(0, 1), Step.substitute(2, 2, 0), Step.sweep(3, UNIT // 4),
        Step.quotient(0, 1, 2, 3), Step.antiderivative(5, 2), Step.add(0, 1), Step.multiply(7, 2)]


def test_signs_and_spellings() -> None:
    assert steps_of("a = -0.5\n") == [Step.constant(-UNIT // 2)] == steps_of("a = constant -0.5\n")
    assert steps_of("a = x - -0.5\n")[1:] == [Step.constant(-UNIT // 2), Step.subtract(0, 1)]
    assert steps_of("a = 7u\n") == [Step.constant(7)] == steps_of("a = 7/1048576\n")
    one = of("model m = 0.5 x^2 y - x³ +- 3u\nr = m\n")
    assert one == of("model m = - x^3 + 0.5*x*x*y ± 3u # the same\n\nr = \\\n m")
    assert one == of("model m = 0.25 x² y +.25 x y x - 1. x^ 3 ± 3u\r\nr = m\r\n")
    assert of("model débit = x\nr = débit\n").models == ("débit",)


def test_a_threshold_is_rounded_down() -> None:
    assert steps_of("r = sweep x at 1.9e-6\n")[-1] == Step.sweep(0, 1)


def test_inexact_numbers_become_models() -> None:
    sheet = of("r = 0.1 * x - 0.1 * y + -0.1\n")
    models = read(sheet).models
    assert [(model.radius, *model.coefficients.values()) for model in models] == [(1, 104858), (1, -104858)]
    assert len(sheet.notes) == 2
    assert "became a model without a name, 104858 units with a radius of 1 unit" in sheet.notes[0]
    assert read(of("r = 1e-9\n")).models[0] == read(of("model m = 0 ± 1u\nr = m\n")).models[0]


def test_eight_variables_have_the_other_mark() -> None:
    names = "a b c d e f g h"
    for n in range(1, 9):
        sheet = of("model m = a\nr = m\n", " ".join(names.split()[:n]))
        assert sheet[-2:] == (b"MK" if n <= 4 else b"MW") and sheet[-8] == n


decimals = st.decimals(min_value=0, max_value=9, allow_nan=False, places=9).map(lambda value: f"{value:f}")
signs = st.lists(st.sampled_from("+-"), min_size=4, max_size=4)


@given(st.lists(decimals, min_size=4, max_size=4), signs, st.integers(0, 9), decimals)
@settings(max_examples=500, deadline=None)
def test_a_model_holds_the_curve_that_is_written(sizes: list[str], signs: list[str], places: int, error: str) -> None:
    sizes = [size[:2 + places].rstrip(".") for size in sizes]
    body = " ".join(f"{sign} {size} x^{power}" for power, (sign, size) in enumerate(zip(signs, sizes), 1))
    sheet = of(f"model m = {body} ± {error}\nr = m\n", order=4)
    (model,) = read(sheet).models
    kept = {key[0]: value for key, value in model.coefficients.items()}
    written = {power: Fraction(sign + size) * UNIT for power, (sign, size) in enumerate(zip(signs, sizes), 1)}
    off = sum(abs(value - kept.get(power, 0)) for power, value in written.items()) + Fraction(error) * UNIT
    assert off <= model.radius < off + 1
    assert all(abs(value - kept.get(power, 0)) <= Fraction(1, 2) for power, value in written.items())
    assert bool(sheet.notes) == (model.radius != Fraction(error) * UNIT)


def texts(letters: str, most: int) -> st.SearchStrategy[str]:
    return st.lists(st.sampled_from(letters), max_size=most).map("".join)


@given(texts(" \n=+-*±()#,.^0123456789uexymodelinforat²\\", 60))
@settings(max_examples=300, deadline=None)
def test_any_text_is_a_sheet_or_an_error_with_a_place(lines: str) -> None:
    try:
        sheet = of(lines)
    except TextError as fault:
        text = f"variables x y\norder 3\n{lines}".split("\n")
        assert 1 <= fault.line <= len(text) and 1 <= fault.column <= len(text[fault.line - 1]) + 1
        assert fault.sentence and str(fault).startswith(f"line {fault.line}, column {fault.column}: ")
    else:
        assert assemble(listing(sheet)) == sheet


# Letters of several scripts, marks and control letters; hypothesis's own texts would store a table of all there are.
LETTERS = "".join(map(chr, [*range(0x250), *range(0x370, 0x400), *range(0x2070, 0x2090), 0x2212, 0x1F600]))


@given(texts(LETTERS, 80))
@settings(max_examples=300, deadline=None)
def test_any_letters_are_an_error_with_a_place(text: str) -> None:
    with pytest.raises(TextError):
        assemble(text)


# ---- errors

HEAD = "variables x y\norder 3\n"
NUMBERS = "numbers are written 0.25, 1e-3, 1/3 or, in whole units, 5u, and a blank stands before a name"
ERRORS = [
    ("", 1, 1, "the text ends here; 'variables' is expected"),
    ("variables x", 1, 12, "the text ends here; 'order' is expected"),
    ("variables x\norder 0\n", 2, 7, "the order is a whole number from 1 to 15"),
    ("variables x\norder 2.5\n", 2, 7, "the order is a whole number from 1 to 15"),
    ("variables a b c d e f g h i\norder 1\n", 1, 27, "a sheet has at most 8 variables"),
    ("variables x u\norder 1\n", 1, 13, "a variable is not named 'u', since 1u is a number"),
    ("variables x e3\norder 1\n", 1, 13, "a variable is not named 'e3', since 1e3 is a number"),
    ("variables x x\norder 1\n", 1, 13, "'x' is named twice; line 1 names it first"),
    (HEAD + "model m = x\n", 3, 12, "there is no step; a sheet has at least one, such as y = curve"),
    (HEAD + "r = z\n", 3, 5, "'z' is no model, variable or earlier step"),
    (HEAD + "model curve = x\nr = cruve + x\n", 4, 5, "'cruve' is no model, variable or earlier step; 'curve' is one"),
    (HEAD + "r = r\n", 3, 5, "'r' is no model, variable or earlier step"),
    (HEAD + "model m = x\nr = input x\n", 4, 11, "'x' is no model"),
    (HEAD + "r = variable z\n", 3, 14, "'z' is no variable; the variables are x, y"),
    (HEAD + "model m = 0.5 z\n", 3, 15, "'z' is no variable; the variables are x, y"),
    (HEAD + "r = antiderivative x in z\n", 3, 25, "'z' is no variable; the variables are x, y"),
    (HEAD + "x = 1\n", 3, 1, "'x' is named twice; line 1 names it first"),
    (HEAD + "model in = 1\n", 3, 7, "'in' is not expected here; a name is expected. 'in' is a word of the text form "
     "and names nothing else"),
    (HEAD + "model m = sweep x at 3\n", 3, 11, "'sweep' is not expected here; a name, a number or a sign is expected. "
     "'sweep' is a word of the text form and names nothing else"),
    (HEAD + "r = x +- y\n", 3, 7, "'+-' is not expected here; *, a sign or the end of the line is expected. A radius "
     "is for models; a step has the one that comes out"),
    (HEAD + "model m = x^2 y^2\n", 3, 15, "the degree of this term is at least 4, and the order is 3"),
    (HEAD + "model m = 1000 - 30 x\n", 3, 7, "the sizes of the terms of 'm' and its radius sum to 1030.00, and 1024 is "
     "the most; scale the curve down"),
    (HEAD + "r = 1025\n", 3, 5, "1025 is outside of -1024 to 1024, where constants lie"),
    (HEAD + "r = sweep x at 1025\n", 3, 16, "1025 is above 1024, the largest threshold"),
    (HEAD + "r = constant 0.1\n", 3, 14, "0.1 is no whole number of units (1/1048576); without the word 'constant' it "
     "becomes a model with a radius"),
    (HEAD + "r = 1/0\n", 3, 5, "'1/0' divides by zero"),
    (HEAD + "r = 1e9999\n", 3, 5, "'1e9999' is no number; " + NUMBERS),
    (HEAD + "model m = 2x\n", 3, 11, "'2x' is no number; " + NUMBERS),
    (HEAD + "r = 0." + "1" * 60 + "\n", 3, 5, "a number has at most 60 letters"),
    (HEAD + "model m = 0,5 x\n", 3, 12, "',' is not expected here; *, a name, a sign, the end of the line or ± (or +-) "
     "is expected. Decimals are written with a point"),
    (HEAD + "r = x y\n", 3, 7, "'y' is not expected here; *, a sign or the end of the line is expected. In a step * "
     "stands between factors: 0.05 * t"),
    (HEAD + "r = x^2\n", 3, 6, "'^2' is not expected here; *, a sign or the end of the line is expected. Powers are "
     "for models; a step multiplies: y * y"),
    (HEAD + "r = x *\n", 3, 8, "the line ends here; (, a name, a number or a sign is expected"),
    (HEAD + "r = x @ y\n", 3, 7, "'@' has no meaning here"),
    (HEAD + "r = x − y\n", 3, 7, "'−' has no meaning here; minus is the sign -"),
    (HEAD + "r = x / y\n", 3, 7, "'/' has no meaning here; a quotient is written: divide a by b proposal h, w; and a "
     "fraction without blanks: 1/3"),
    (HEAD + "r = x ± 0.1\n", 3, 7, "'±' is not expected here; *, a sign or the end of the line is expected. A radius "
     "is for models; a step has the one that comes out"),
    ("variables x, y\norder 1\n", 1, 12, "',' is not expected here; a name or the end of the line is expected. Names "
     "are parted by blanks"),
    ("variable x\norder 1\n", 1, 1, "'variable' is not expected here; 'variables' or the end of the line is expected"),
    (HEAD + "r = (x + 1\n", 3, 11, "the line ends here; ) is expected"),
    (HEAD + "r = x * sweep x at 1\n", 3, 9, "'sweep' is not expected here; (, a name, a number or a sign is expected. "
     "'sweep' is a word of the text form and names nothing else"),
    (HEAD + "r = antiderivative x for y\n", 3, 22, "'for' is not expected here; 'in' or a sign is expected"),
    (HEAD + "".join(f"model m{i} = x\n" for i in range(17)) + "r = m0\n", 19, 7, "'m16' would be model 17, and a sheet "
     "has at most 16 (a number that is no whole number of units counts as one)"),
    (HEAD + "".join(f"s{i} = variable x\n" for i in range(65)), 67, 7, "a sheet has at most 64 steps, and this needs "
     "another"),
]


@pytest.mark.parametrize("text, line, column, sentence", ERRORS, ids=[sentence[:40] for *_, sentence in ERRORS])
def test_errors(text: str, line: int, column: int, sentence: str) -> None:
    with pytest.raises(TextError) as raised:
        assemble(text)
    fault = raised.value
    assert (fault.line, fault.column, fault.sentence) == (line, column, sentence)
    source, mark = fault.pointed().split("\n")
    assert mark.index("^") == 4 + column - 1 and source.strip() == fault.source.strip()


def test_too_many_terms() -> None:
    terms = " + ".join(f"x^{a} y^{b}" for a in range(8) for b in range(8) if a + b <= 15)
    with pytest.raises(TextError, match="'m' has 65 terms, and a model has at most 64"):
        of(f"model m = {terms} + x^8\nr = m\n", order=15)


@pytest.mark.parametrize("expression", ["x" + " + x" * 5000, "-" * 5000 + "x", "(" * 5000 + "x" + ")" * 5000])
def test_deep_expressions(expression: str) -> None:
    try:
        assert steps_of(f"r = {expression}\n") == [Step.variable(1)]
    except TextError as fault:
        assert (fault.line, fault.column) == (3, 1) and "too deep; a sheet has at most 64 steps" in fault.sentence


def test_numbers() -> None:
    assert number_of("-0.25") == Fraction(-1, 4) and number_of(" + 1e-3 ") == Fraction(1, 1000)
    assert number_of("1/3") == Fraction(1, 3) and number_of("-5u") == Fraction(-5, UNIT) and number_of("5.") == 5
    for text in ("", "x", "0,5", "1e", "--1", "1/0", "nan", "inf", "0x10", "1_000", "٣"):
        with pytest.raises(ValueError):
            number_of(text)


def test_a_missing_parser_is_named(monkeypatch: pytest.MonkeyPatch) -> None:
    text_form._parser.cache_clear()
    monkeypatch.setitem(sys.modules, "lark", None)
    with pytest.raises(MissingModule, match="'lark' is missing: install Debian's package python3-lark"):
        assemble(SHEET)
    monkeypatch.undo()
    assert assemble(SHEET)


# ---- the document


def test_the_grammar_is_the_documents() -> None:
    document = (TOP / "docs" / "SHEETS.md").read_text(encoding="utf-8")
    assert f"```\n{GRAMMAR.strip()}\n```\n" in document
    for word in KEYWORDS:
        assert f"`{word}`" in document
