"""Every number of every public call, and of every exported function that is declared, handed over as one that its field
cannot hold: what crosses to the library must be the number that was given, or nothing. Each field's least and greatest
number do cross."""

import ctypes
import inspect
from collections.abc import Callable, Iterator
from fractions import Fraction
from typing import Any, NamedTuple

import hechroung
import pytest
from hechroung import UNIT, Book, Curve, Misused, Model, Reading, Refused, _library

# The least and the greatest number of each width.
BYTE, KEY, RADIUS, VALUE = (0, 2 ** 8 - 1), (0, 2 ** 32 - 1), (0, 2 ** 64 - 1), (-2 ** 63, 2 ** 63 - 1)
WIDTHS = {ctypes.c_uint8: BYTE, ctypes.c_uint64: RADIUS, ctypes.c_size_t: RADIUS, ctypes.c_int64: VALUE}
# How many functions include/hechroung_raw.h declares.
DECLARED = 22
NO_WHOLE_NUMBERS = [1.0, 0.5, float("nan"), Fraction(3, 2), "1", b"1", None, [1], 1j]

LINE = Model(1, 2, [(0, 3), (0x1000_0000, UNIT // 2)])
ONE = Model(1, 0, [(0, UNIT)])
BENT = Curve([UNIT // 2, UNIT, UNIT // 2], 2)
BOOK = Book(1, 2, [LINE, ONE], [(0, 0, 0, 0, 0), (2, 0, 0, 1, 0), (1, 0, 0, 0, 5), (4, 0, 1, 0, 0)])
SHEET = bytes.fromhex("0100000005000000 010100010000 4D4B")
ARCHIVED = bytes.fromhex("01 02000000 02 0000 03000000 0400 00000800")
# An accepted call of every function that hands something to the library, by the names of its parameters.
CALLS: dict[str, dict[str, Any]] = {
    "constant": {"n": 1, "value": 3},
    "variable": {"n": 2, "i": 1},
    "negate": {"f": LINE},
    "add": {"f": LINE, "g": ONE},
    "subtract": {"f": LINE, "g": ONE},
    "multiply": {"d": 2, "f": LINE, "g": ONE},
    "substitute": {"d": 2, "i": 1, "f": LINE, "g": LINE},
    "quotient": {"d": 2, "f": LINE, "g": ONE, "h": LINE, "w": ONE},
    "antiderivative": {"d": 2, "i": 1, "f": LINE},
    "sweep": {"f": LINE, "threshold": 3},
    "range_of": {"f": LINE},
    "integral": {"f": LINE},
    "exact_integral": {"f": LINE},
    "evaluate": {"f": LINE, "point": [7, 0, 0, 0, 0, 0, 0, 0]},
    "first_contradicting": {"f": LINE, "rows": [Reading([7] + [0] * 7, -9, 9), Reading([0] * 8, 2, 3)]},
    "lines": {"sheet": SHEET},
    "record": {"sheet": SHEET, "index": 0},
    "records": {"sheet": SHEET},
    "open_sheet": {"sheet": SHEET},
    "read": {"sheet": SHEET},
    "rewrite": {"sheet": SHEET},
    "run": {"sheet": SHEET},
    "shares": {"sheet": SHEET},
    "run_book": {"book": BOOK},
    "shares_book": {"book": BOOK},
    "write": {"book": BOOK},
    "negate_curve": {"f": BENT},
    "add_curves": {"f": BENT, "g": BENT},
    "subtract_curves": {"f": BENT, "g": BENT},
    "multiply_curves": {"f": BENT, "g": BENT},
    "range_of_curve": {"f": BENT},
    "to_powers": {"f": BENT},
    "from_powers": {"f": LINE},
    "cut_range": {"d": 2, "i": 1, "k": 3, "f": LINE},
    "from_doubles": {"c0": 0.5, "c1": 0.1, "c2": -0.0, "radius": 5e-324},
    "store": {"f": LINE},
    "restore": {"archived": ARCHIVED, "terms": 1},
    "propose": {"d": 2, "f": LINE, "g": ONE},
}
# Public functions that hand nothing to the library: test_numbers and test_models have them.
WITHIN_PYTHON = {"exact", "exponents_of", "key_of", "measured", "measured_curve", "outward", "rounded", "units"}


class Number(NamedTuple):
    """A number of a call: where it stands, the limits of its field, and the call with another in its place."""

    name: str
    limits: tuple[int, int]
    given: int
    replaced: Callable[[Any], Any]


def numbers_of_list(name: str, values: list, limits: tuple[int, int]) -> Iterator[Number]:
    for k, given in enumerate(values):
        yield Number(f"{name}[{k}]", limits, given, lambda other, k=k: [*values[:k], other, *values[k + 1:]])


def inside(number: Number, around: Callable[[Any], Any]) -> Number:
    """The number, with more around the part of the call that it stands in."""
    return number._replace(replaced=lambda other: around(number.replaced(other)))


def numbers_of_elements(name: str, values: tuple, numbers_of_element: Callable) -> Iterator[Number]:
    for k, value in enumerate(values):
        for number in numbers_of_element(f"{name}[{k}]", value):
            yield inside(number, lambda part, k=k: [*values[:k], part, *values[k + 1:]])


def numbers_of_model(name: str, model: Model) -> Iterator[Number]:
    n, radius, terms = model.n, model.radius, model.terms
    yield Number(f"{name}.n", BYTE, n, lambda other: Model(other, radius, terms))
    yield Number(f"{name}.radius", RADIUS, radius, lambda other: Model(n, other, terms))
    keys, coefficients = [list(column) for column in zip(*terms)]
    for number in numbers_of_list(f"{name}.key", keys, KEY):
        yield inside(number, lambda others: Model(n, radius, zip(others, coefficients)))
    for number in numbers_of_list(f"{name}.coefficient", coefficients, VALUE):
        yield inside(number, lambda others: Model(n, radius, zip(keys, others)))


def numbers_of_curve(name: str, curve: Curve) -> Iterator[Number]:
    yield Number(f"{name}.radius", RADIUS, curve.radius, lambda other: Curve(curve.coefficients, other))
    for number in numbers_of_list(f"{name}.coefficient", list(curve.coefficients), VALUE):
        yield inside(number, lambda others: Curve(others, curve.radius))


def numbers_of_step(name: str, step: tuple) -> Iterator[Number]:
    for number in numbers_of_list(name, list(step), BYTE):
        yield number._replace(limits=VALUE) if number.name.endswith("[4]") else number


def numbers_of_reading(name: str, reading: Reading) -> Iterator[Number]:
    point, low, high = reading.point, reading.low, reading.high
    for number in numbers_of_list(f"{name}.point", list(point), VALUE):
        yield inside(number, lambda others: Reading(others, low, high))
    yield Number(f"{name}.low", VALUE, low, lambda other: Reading(point, other, high))
    yield Number(f"{name}.high", VALUE, high, lambda other: Reading(point, low, other))


def numbers_of_book(name: str, book: Book) -> Iterator[Number]:
    n, order, models, steps = book.n, book.order, book.models, book.steps
    yield Number(f"{name}.n", BYTE, n, lambda other: Book(other, order, models, steps))
    yield Number(f"{name}.order", BYTE, order, lambda other: Book(n, other, models, steps))
    for number in numbers_of_elements(f"{name}.models", models, numbers_of_model):
        yield inside(number, lambda others: Book(n, order, others, steps))
    for number in numbers_of_elements(f"{name}.steps", steps, numbers_of_step):
        yield inside(number, lambda others: Book(n, order, models, others))


def numbers_of(name: str, argument: Any) -> Iterator[Number]:
    if name in ("n", "d", "i", "k"):
        yield Number(name, BYTE, argument, lambda other: other)
    elif name in ("terms", "index"):
        yield Number(name, RADIUS, argument, lambda other: other)
    elif name in ("value", "threshold"):
        yield Number(name, VALUE, argument, lambda other: other)
    elif name == "point":
        yield from numbers_of_list(name, argument, VALUE)
    elif name == "rows":
        yield from numbers_of_elements(name, argument, numbers_of_reading)
    elif isinstance(argument, Model):
        yield from numbers_of_model(name, argument)
    elif isinstance(argument, Curve):
        yield from numbers_of_curve(name, argument)
    elif isinstance(argument, Book):
        yield from numbers_of_book(name, argument)
    else:
        assert isinstance(argument, float) or name in ("sheet", "archived"), f"{name} is no argument of a known kind"


def numbers_of_call(arguments: dict[str, Any]) -> Iterator[Number]:
    for name, argument in arguments.items():
        for number in numbers_of(name, argument):
            yield inside(number, lambda part, name=name: {**arguments, name: part})


def outcome(call: Callable[[], Any]) -> type:
    """The class of what a call raises, or the answer's; an iterator is asked for all it has."""
    try:
        answer = call()
        return type(list(answer) if inspect.isgenerator(answer) else answer)
    except Exception as raised:
        return type(raised)


def outside(number: Number) -> list[int]:
    """The neighbours of the field, and what wraps round to the number that was given, or to 0."""
    low, high = number.limits
    width = high - low + 1
    wraps = [number.given + sign * wrap for wrap in (width, 2 ** 32, 2 ** 64, 2 ** 128) for sign in (1, -1)]
    others = [low - 1, high + 1, 2 ** 64, -2 ** 64, *wraps]
    return [other for other in others if not low <= other <= high]


def crossing(number: Number, called: Callable[[Any], type]) -> list[str]:
    """What a number's place lets through that is not one of its field's."""
    sizes = [f"{number.name} = {other}" for other in outside(number) if called(other) is not ValueError]
    kinds = [f"{number.name} = {other!r}" for other in NO_WHOLE_NUMBERS if called(other) is not TypeError]
    return sizes + kinds


def kept_back(number: Number, called: Callable[[Any], type]) -> list[str]:
    """What a number's place keeps back of its field. The greatest is never a sound number, but for a reading's high
    value, and the least at times; but how many terms are to be read, and which record, may be any number."""
    low, high = number.limits
    faults = []
    if not number.name.endswith((".high", "terms", "index")) and called(high) is not Refused:
        faults.append(f"{number.name} = {high}: {called(high).__name__}, and the library would refuse it")
    if called(low) in (ValueError, TypeError, Misused):
        faults.append(f"{number.name} = {low}: {called(low).__name__}, and its field holds it")
    return faults


@pytest.mark.parametrize("name", CALLS)
def test_numbers_of_a_call(name: str) -> None:
    arguments, function = CALLS[name], getattr(hechroung, name)
    assert not issubclass(outcome(lambda: function(**arguments)), Exception), "the call that is tried is not accepted"
    faults = []
    for number in numbers_of_call(arguments):
        def tried(other: Any) -> type:
            return outcome(lambda: function(**number.replaced(other)))

        faults += crossing(number, tried)
        # A proposal begins with the inverse of a coefficient: what it makes of any number is no matter of the border.
        faults += kept_back(number, tried) if name != "propose" else []
    assert faults == []


def test_every_public_function_is_tried() -> None:
    public = {name for name in hechroung.__all__ if inspect.isfunction(getattr(hechroung, name))}
    assert public == set(CALLS) | WITHIN_PYTHON


def exported() -> dict[str, Any]:
    return {name: found for name, found in vars(_library).items() if getattr(found, "fields", None)}


def test_every_exported_function_is_declared() -> None:
    assert len(exported()) == DECLARED


@pytest.mark.parametrize("name", exported())
def test_numbers_of_an_exported_function(name: str) -> None:
    """No pointer is handed over: a number that crossed would be the length of a slice that is not there."""
    function = exported()[name]
    arguments = [0 if field in WIDTHS else 0.0 if field is ctypes.c_double else None for field in function.fields]
    for field, number in zip(function.fields, numbers_of_list(name, arguments, BYTE)):
        if field in WIDTHS:
            wide = number._replace(limits=WIDTHS[field])
            assert crossing(wide, lambda other: outcome(lambda: function(*wide.replaced(other)))) == []


@pytest.mark.parametrize("call", [
    lambda: hechroung.evaluate(LINE, [0, 0, 0, 0, 0, 0, 0, 0, 7]),
    lambda: hechroung.evaluate(Model(2), [0]),
    lambda: hechroung.first_contradicting(LINE, [Reading([0, 0, 0, 0, 0, 0, 0, 0, 7], 0, 0)]),
    lambda: hechroung.first_contradicting(Model(2), [Reading([0], 0, 0)]),
    lambda: Book(1, 2, [], [(1, 0, 0, 0, 5, 7)]),
    lambda: Curve([0] * 16 + [7]),
    lambda: Model(1, order=16),
    lambda: Model(1, order=0),
    lambda: hechroung.constant(1, 1, order=16),
])
def test_nothing_is_left_out(call: Callable[[], Any]) -> None:
    """A ninth coordinate, one that is missing, a sixth field, a seventeenth coefficient, an order that is none."""
    with pytest.raises(ValueError):
        call()


@pytest.mark.parametrize("argument", [None, 1, "model", b"", [LINE], BENT])
def test_what_is_no_model(argument: Any) -> None:
    for call in (hechroung.negate, hechroung.range_of, hechroung.store, hechroung.from_powers):
        with pytest.raises(Misused) as raised:
            call(argument)
        assert raised.value.number == 255
    with pytest.raises(TypeError):
        hechroung.add(LINE, argument)
    with pytest.raises(TypeError):
        hechroung.first_contradicting(LINE, [argument])
    with pytest.raises(TypeError):
        Book(1, 1, [argument])


@pytest.mark.parametrize("argument", [None, 1, "sheet", [1, 2], LINE])
def test_what_is_no_sheet(argument: Any) -> None:
    for call in (hechroung.run, hechroung.shares, hechroung.lines, hechroung.read, hechroung.rewrite,
                 hechroung.open_sheet, hechroung.restore):
        with pytest.raises(Misused):
            call(argument)


def test_bytes_of_any_kind() -> None:
    for kind in (bytes, bytearray, memoryview):
        assert hechroung.lines(kind(SHEET)) == hechroung.lines(SHEET)


def test_more_than_there_may_be_is_handed_over_by_its_count() -> None:
    many = Model(1, 0, [(0, 1)] * 65)
    with pytest.raises(Refused, match="refused 5"):
        hechroung.range_of(many)
    with pytest.raises(Refused, match="refused 3"):
        Book(1, 1, [ONE] * 17, [(2, 0, 0, 1, 0)]).run()
    with pytest.raises(Refused, match="refused 3"):
        Book(1, 1, [], [(2, 0, 0, 1, 0)] * 65).sheet()
    with pytest.raises(Refused, match="refused 3"):
        Book(1, 1, [ONE] * 300, [(2, 0, 0, 1, 0)] * 300).report()
    with pytest.raises(Refused, match="refused 15"):
        hechroung.first_contradicting(LINE, [Reading([0], 0, 0)] * 5000)
