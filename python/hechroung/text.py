"""Sheets as text: an assembler and a listing.

`assemble` makes the bytes of a sheet from text with names and decimals, and says what it added. `listing` writes a
sheet as text again: assemble(listing(sheet)) == sheet for every sheet that the reader accepts. docs/SHEETS.md describes
the text form and has the grammar. The assembler needs Lark, the listing does not.
"""

from __future__ import annotations

import difflib
import re
import sys
from collections.abc import Iterator, Sequence
from fractions import Fraction
from functools import lru_cache
from typing import Any, NoReturn

from .books import Book, Step
from .codes import (ADD, ANTIDERIVATIVE, CONSTANT, INPUT, MULTIPLY, NEGATE, QUOTIENT, SUBSTITUTE, SUBTRACT, SWEEP,
                    VARIABLE)
from .limits import MOST_MODELS, MOST_ORDER, MOST_STEPS, MOST_TERMS, MOST_VARIABLES, SPAN, UNIT
from .models import Model, exponents_of
from .numbers import rounded
from .sheets import read

# A number of more letters than this is a slip, and takes long to read.
LONGEST_NUMBER = 60
LISTED_COLUMNS = 100

GRAMMAR = r"""
start: _NEWLINE? variables order statement*
variables: "variables" NAME+ _NEWLINE
order: "order" NUMBER _NEWLINE
?statement: "model" NAME "=" polynomial [_RADIUS NUMBER] _NEWLINE -> model
    | NAME "=" expression _NEWLINE -> step

polynomial: [SIGN] term (SIGN term)*
term: (NUMBER | power) ("*"? power)*
power: NAME [EXPONENT]

?expression: sum
    | "input" NAME -> input
    | "constant" [SIGN] NUMBER -> constant
    | "variable" NAME -> variable
    | "substitute" sum "for" NAME "in" sum -> substitute
    | "sweep" sum "at" NUMBER -> sweep
    | "divide" sum "by" sum "proposal" sum "," sum -> divide
    | "antiderivative" sum "in" NAME -> antiderivative
?sum: product
    | sum SIGN product -> sum
?product: factor
    | product "*" factor -> multiply
?factor: atom
    | SIGN factor -> signed
?atom: NAME -> name
    | NUMBER -> number
    | "(" expression ")"

NUMBER: /([0-9]+u|[0-9]+\/[0-9]+|([0-9]+(\.[0-9]*)?|\.[0-9]+)(e[+-]?[0-9]{1,3})?)(?![\w.])/
NAME: /[^\W\d²³][^\W²³]*/
EXPONENT: /\^[ \t]*[0-9]{1,3}|[²³]/
SIGN: "+" | "-"
_RADIUS: "±" | "+-"
_NEWLINE: /([ \t]*(#[^\n]*)?\r?\n)+/
%ignore /[ \t]+|\\[ \t]*\r?\n/
"""
KEYWORDS = frozenset(re.findall(r'"([a-z]+)"', GRAMMAR))
_TERMINALS = dict(re.findall(r"^([A-Z]+): /(.*)/$", GRAMMAR, re.MULTILINE))
_NUMBER, _NAME = re.compile(_TERMINALS["NUMBER"]), re.compile(_TERMINALS["NAME"])

_OPERATORS = {ADD: "+", SUBTRACT: "-", MULTIPLY: "*"}
_SUPERSCRIPTS = {"²": 2, "³": 3}
# Letters that the text form has no use for, and what may be meant by them.
_MEANT = {
    "/": "; a quotient is written: divide a by b proposal h, w; and a fraction without blanks: 1/3",
    "−": "; minus is the sign -", "–": "; minus is the sign -", "·": "; a product has the sign *",
    "×": "; a product has the sign *",
}
# What the parser may have expected, in words.
_EXPECTED = {
    "NAME": "a name", "NUMBER": "a number", "SIGN": "a sign", "_RADIUS": "± (or +-)", "EXPONENT": "an exponent",
    "_NEWLINE": "the end of the line", "EQUAL": "=", "STAR": "*", "LPAR": "(", "RPAR": ")", "COMMA": "a comma",
    "$END": "the end of the text",
}


class TextError(ValueError):
    """A text that is no sheet: the line and the column, from 1, where that shows, a sentence, and the line itself."""

    def __init__(self, line: int, column: int, sentence: str, source: str = ""):
        super().__init__(f"line {line}, column {column}: {sentence}")
        self.line, self.column, self.sentence, self.source = line, column, sentence, source

    def pointed(self) -> str:
        """The line of the text and a mark below the column."""
        before = "".join("\t" if letter == "\t" else " " for letter in self.source[:self.column - 1])
        return f"    {self.source}\n    {before}^"


class MissingModule(ImportError):
    """A module of another package is not there; the sentence says what to install."""


class AssembledSheet(bytes):
    """The bytes of a sheet, with what its text knew besides: the names of its variables, models and steps (an unnamed
    one has the words that made it), the lines of its steps, and notes on what the assembler added."""

    variables: tuple[str, ...]
    models: tuple[str, ...]
    steps: tuple[str, ...]
    lines: tuple[int, ...]
    notes: tuple[str, ...]


def needed(module: str, package: str) -> MissingModule:
    """What is raised where a module of Debian's is not found."""
    return MissingModule(f"the Python module '{module}' is missing: install Debian's package {package}, and run this "
                         f"with Debian's interpreter, /usr/bin/python3 (it runs with {sys.executable} now)")


def number_of(text: str) -> Fraction:
    """A number as the text form writes it, with or without a sign: 0.25, 1e-3, 1/3 or, in whole units, 5u."""
    sign, word = ("-", text.strip()[1:]) if text.strip().startswith("-") else ("+", text.strip().removeprefix("+"))
    word = word.lstrip()
    if len(word) > LONGEST_NUMBER:
        raise ValueError(f"a number has at most {LONGEST_NUMBER} letters")
    if not _NUMBER.fullmatch(word):
        raise ValueError(f"'{text}' is no number; numbers are written 0.25, 1e-3, 1/3 or, in whole units, 5u")
    if re.fullmatch(r"[0-9]+/0+", word):
        raise ValueError(f"'{text}' divides by zero")
    value = Fraction(int(word[:-1]), UNIT) if word.endswith("u") else Fraction(word)
    return -value if sign == "-" else value


@lru_cache(maxsize=1)
def _parser() -> Any:
    try:
        from lark import Lark
    except ImportError:
        raise needed("lark", "python3-lark") from None
    # The basic lexer takes the words of the grammar for words wherever they stand, so that none of them is a name.
    return Lark(GRAMMAR, parser="lalr", lexer="basic", propagate_positions=True, maybe_placeholders=True)


# ---- the assembler


def assemble(text: str) -> AssembledSheet:
    """The sheet that a text stands for; TextError where it stands for none."""
    return _Assembler(text).sheet()


def _fit_for_variable(name: str) -> bool:
    """Whether no number can be mistaken for one with the name after it, as 1u and 1e3 can."""
    return not _NUMBER.fullmatch("1" + name)


def _is_whole(number: Fraction) -> bool:
    """Whether it is a whole number of units."""
    return UNIT % number.denominator == 0


def _in_units(units: int | Fraction) -> str:
    """A number of units in words, a fraction of a unit with two places."""
    if units == int(units):
        return "1 unit" if units == 1 else f"{int(units)} units"
    return f"{float(units):.2f} units"


class _Assembler:
    def __init__(self, text: str):
        self.text = text if text.endswith("\n") else text + "\n"
        self.models: list[Model] = []
        self.steps: list[Step] = []
        self.model_labels: list[str] = []
        self.step_labels: list[str] = []
        self.step_lines: list[int] = []
        self.notes: list[str] = []
        self.first_lines: dict[str, int] = {}  # of every name the line that gives it
        self.variables: dict[str, int] = {}
        self.named_models: dict[str, int] = {}
        self.named_steps: dict[str, int] = {}
        self.made: dict[Any, int] = {}  # the steps that stand for a bare name or number
        variables, order, *statements = self.parsed().children
        self.take_variables(variables)
        self.order = self.taken_order(order)
        for statement in statements:
            (self.take_model if statement.data == "model" else self.take_step)(statement)
        self.end(statements)

    # -- the text, and what is wrong with it

    def refuse(self, at: Any, sentence: str) -> NoReturn:
        """`at` is a token, or a tree with a place."""
        place = at if hasattr(at, "line") else at.meta
        self.refuse_at(place.line, place.column, sentence)

    def refuse_at(self, line: int, column: int, sentence: str) -> NoReturn:
        lines = self.text.split("\n")
        raise TextError(line, column, sentence, lines[line - 1].rstrip("\r") if line <= len(lines) else "")

    def parsed(self) -> Any:
        parser = _parser()
        from lark.exceptions import UnexpectedCharacters, UnexpectedToken

        try:
            return parser.parse(self.text)
        except UnexpectedCharacters as fault:
            self.refuse_at(fault.line, fault.column, self.about_letters(fault.pos_in_stream or 0))
        except UnexpectedToken as fault:
            self.refuse_token(fault)

    def about_letters(self, position: int) -> str:
        found = re.compile(r"[\w.]+|.").match(self.text, position)
        word = found[0] if found else ""
        if word[:1].isdigit():
            return (f"'{word}' is no number; numbers are written 0.25, 1e-3, 1/3 or, in whole units, 5u, "
                    "and a blank stands before a name")
        return f"'{word}' has no meaning here{_MEANT.get(word, '')}"

    def refuse_token(self, fault: Any) -> NoReturn:
        token, accepted = fault.token, fault.accepts or fault.expected
        words = sorted({_EXPECTED.get(name, f"'{name.lower()}'") for name in accepted})
        expected = ", ".join(words[:-1]) + " or " + words[-1] if len(words) > 1 else words[0]
        if token.type == "$END":
            lines = self.text.rstrip("\n").split("\n")
            self.refuse_at(len(lines), len(lines[-1]) + 1, f"the text ends here; {expected} is expected")
        what = "the line ends here" if token.type == "_NEWLINE" else f"'{token}' is not expected here"
        self.refuse(token, f"{what}; {expected} is expected{self.hint(token, accepted)}")

    def hint(self, token: Any, accepted: Any) -> str:
        """A sentence more, where it can be guessed what was meant."""
        before = self.text[token.start_pos - 1:token.start_pos]
        if token.type == "EXPONENT":
            return ". Powers are for models; a step multiplies: y * y"
        if token.type == "_RADIUS":
            return ". A radius is for models; a step has the one that comes out"
        if token == ",":
            return ". Decimals are written with a point" if before.isdigit() else ". Names are parted by blanks"
        if str(token) in KEYWORDS and "NAME" in accepted:
            return f". '{token}' is a word of the text form and names nothing else"
        if token.type in ("NAME", "NUMBER", "LPAR") and "SIGN" in accepted and "NAME" not in accepted:
            return ". In a step * stands between factors: 0.05 * t"
        return ""

    # -- names and numbers

    def named(self, token: Any) -> str:
        """A name that is not taken yet."""
        name = str(token)
        if name in self.first_lines:
            self.refuse(token, f"'{name}' is named twice; line {self.first_lines[name]} names it first")
        self.first_lines[name] = token.line
        return name

    def variable(self, token: Any) -> int:
        """The number of a variable, from 1."""
        if str(token) not in self.variables:
            known = f"the variables are {', '.join(self.variables)}"
            self.refuse(token, f"'{token}' is no variable; {known}")
        return self.variables[str(token)]

    def note(self, at: Any, sentence: str) -> None:
        self.notes.append(f"line {at.line}: {sentence}")

    def similar(self, name: str, names: Sequence[str]) -> str:
        close = difflib.get_close_matches(name, names, 1)
        return f"; '{close[0]}' is one" if close else ""

    def number(self, token: Any) -> Fraction:
        """The number that is written, exactly."""
        try:
            return number_of(str(token))
        except ValueError as fault:
            self.refuse(token, str(fault))

    def take_variables(self, tree: Any) -> None:
        for number, token in enumerate(tree.children, 1):
            name = self.named(token)
            if number > MOST_VARIABLES:
                self.refuse(token, f"a sheet has at most {MOST_VARIABLES} variables")
            if not _fit_for_variable(name):
                self.refuse(token, f"a variable is not named '{name}', since 1{name} is a number")
            self.variables[name] = number

    def taken_order(self, tree: Any) -> int:
        token = tree.children[0]
        if not token.isdecimal() or not 1 <= int(token) <= MOST_ORDER:
            self.refuse(token, f"the order is a whole number from 1 to {MOST_ORDER}")
        return int(token)

    # -- models

    def take_model(self, tree: Any) -> None:
        token, polynomial, radius = tree.children
        terms: dict[tuple[int, ...], Fraction] = {}
        sign = "+"
        for child in polynomial.children:
            if not hasattr(child, "children"):
                sign = str(child or "+")
                continue
            exponents, number = self.term(child)
            terms[exponents] = terms.get(exponents, Fraction(0)) + (-number if sign == "-" else number)
        name = self.named(token)
        error = self.number(radius) if radius else Fraction(0)
        self.named_models[name] = self.push_model(token, name, terms, error)
        model = self.models[-1]
        added = model.radius - error * UNIT
        if added:
            self.note(token, f"{name}: the radius is {_in_units(model.radius)}, {_in_units(added)} more than written, "
                             "for the rounding of its decimals")

    def term(self, tree: Any) -> tuple[tuple[int, ...], Fraction]:
        """The exponents of all variables, and the coefficient."""
        first, *powers = tree.children
        number = Fraction(1)
        if hasattr(first, "children"):
            powers = [first, *powers]
        else:
            number = self.number(first)
        exponents = [0] * len(self.variables)
        for power in powers:
            base, exponent = power.children
            times = _SUPERSCRIPTS.get(exponent) or int(exponent[1:]) if exponent else 1
            exponents[self.variable(base) - 1] += times
            if sum(exponents) > self.order:
                degree = sum(exponents)
                self.refuse(power, f"the degree of this term is at least {degree}, and the order is {self.order}")
        return tuple(exponents), number

    def push_model(self, at: Any, label: str, terms: dict[tuple[int, ...], Fraction], error: Fraction) -> int:
        """Rounds the coefficients to whole units, and pays for that in the radius."""
        coefficients, radius, _ = rounded(terms.values(), error)
        model = Model.of(len(self.variables), dict(zip(terms, coefficients)), radius, self.order)
        span = sum(abs(coefficient) for coefficient in coefficients) + radius
        if len(model.terms) > MOST_TERMS:
            self.refuse(at, f"'{label}' has {len(model.terms)} terms, and a model has at most {MOST_TERMS}")
        if span > SPAN:
            self.refuse(at, f"the sizes of the terms of '{label}' and its radius sum to {span / UNIT:.2f}, and 1024 is "
                            "the most; scale the curve down")
        if len(self.models) == MOST_MODELS:
            self.refuse(at, f"'{label}' would be model {MOST_MODELS + 1}, and a sheet has at most {MOST_MODELS} (a "
                            "number that is no whole number of units counts as one)")
        self.models.append(model)
        self.model_labels.append(label)
        return len(self.models) - 1

    # -- steps

    def take_step(self, tree: Any) -> None:
        token, expression = tree.children
        try:
            place = self.outcome(expression)
        except RecursionError:
            self.refuse(token, f"the expression of '{token}' is too deep; a sheet has at most {MOST_STEPS} steps")
        name = self.named(token)
        self.named_steps[name] = place
        if self.step_labels[place] not in self.named_steps:
            self.step_labels[place] = name

    def push(self, at: Any, code: int, *fields: int) -> int:
        place = at if hasattr(at, "line") else at.meta
        if len(self.steps) == MOST_STEPS:
            self.refuse(at, f"a sheet has at most {MOST_STEPS} steps, and this needs another")
        self.steps.append(Step(code, *fields))
        words = self.text[place.start_pos:place.end_pos]
        self.step_labels.append(re.sub(r"[\s\\]+", " ", words))
        self.step_lines.append(place.line)
        return len(self.steps) - 1

    def once(self, what: Any, at: Any, code: int, *fields: int) -> int:
        """A step that stands for a bare name or number, made where it is needed first."""
        if what not in self.made:
            self.made[what] = self.push(at, code, *fields)
        return self.made[what]

    def outcome(self, tree: Any) -> int:
        """The number of the step that gives an expression."""
        place: int = getattr(self, "of_" + tree.data)(tree, *tree.children)
        return place

    def of_name(self, tree: Any, token: Any) -> int:
        name = str(token)
        if name in self.named_steps:
            return self.named_steps[name]
        if name in self.named_models:
            return self.once(name, token, INPUT, self.named_models[name])
        if name in self.variables:
            return self.once(name, token, VARIABLE, 0, 0, self.variables[name])
        known = [*self.variables, *self.named_models, *self.named_steps]
        self.refuse(token, f"'{name}' is no model, variable or earlier step{self.similar(name, known)}")

    def of_number(self, tree: Any, token: Any, sign: str = "+") -> int:
        number = -self.number(token) if sign == "-" else self.number(token)
        if _is_whole(number):
            return self.once(number, tree, CONSTANT, 0, 0, 0, self.whole_constant(token, number))
        if number not in self.made:
            self.made[number] = self.push(tree, INPUT, self.unnamed_model(token, sign, number))
        return self.made[number]

    def unnamed_model(self, token: Any, sign: str, number: Fraction) -> int:
        """No constant has a radius: a model without a name pays for the rounding."""
        label = f"-{token}" if sign == "-" else str(token)
        place = self.push_model(token, label, {(): number}, Fraction(0))
        value = sum(coefficient for _, coefficient in self.models[place].terms)
        self.note(token, f"{label} is no whole number of units: it became a model without a name, {_in_units(value)} "
                         f"with a radius of {_in_units(self.models[place].radius)}")
        return place

    def whole_constant(self, token: Any, number: Fraction) -> int:
        if abs(number) > SPAN // UNIT:
            self.refuse(token, f"{token} is outside of -1024 to 1024, where constants lie")
        return int(number * UNIT)

    def of_input(self, tree: Any, token: Any) -> int:
        if str(token) not in self.named_models:
            self.refuse(token, f"'{token}' is no model{self.similar(token, list(self.named_models))}")
        return self.push(tree, INPUT, self.named_models[str(token)])

    def of_constant(self, tree: Any, sign: Any, token: Any) -> int:
        number = -self.number(token) if sign == "-" else self.number(token)
        if not _is_whole(number):
            self.refuse(token, f"{token} is no whole number of units (1/1048576); without the word 'constant' it "
                               "becomes a model with a radius")
        return self.push(tree, CONSTANT, 0, 0, 0, self.whole_constant(token, number))

    def of_variable(self, tree: Any, token: Any) -> int:
        return self.push(tree, VARIABLE, 0, 0, self.variable(token))

    def of_signed(self, tree: Any, sign: Any, operand: Any) -> int:
        if operand.data == "number":
            return self.of_number(tree, operand.children[0], str(sign))
        place = self.outcome(operand)
        return self.push(tree, NEGATE, place) if sign == "-" else place

    def of_sum(self, tree: Any, left: Any, sign: Any, right: Any) -> int:
        a, b = self.outcome(left), self.outcome(right)
        return self.push(tree, ADD if sign == "+" else SUBTRACT, a, b)

    def of_multiply(self, tree: Any, left: Any, right: Any) -> int:
        a, b = self.outcome(left), self.outcome(right)
        return self.push(tree, MULTIPLY, a, b)

    def of_substitute(self, tree: Any, put_in: Any, token: Any, into: Any) -> int:
        v = self.variable(token)
        b, a = self.outcome(put_in), self.outcome(into)
        return self.push(tree, SUBSTITUTE, a, b, v)

    def of_sweep(self, tree: Any, operand: Any, token: Any) -> int:
        # Sizes are whole: at most the threshold is at most the threshold rounded down.
        threshold = int(self.number(token) * UNIT)
        if threshold > SPAN:
            self.refuse(token, f"{token} is above 1024, the largest threshold")
        return self.push(tree, SWEEP, self.outcome(operand), 0, 0, threshold)

    def of_divide(self, tree: Any, *operands: Any) -> int:
        return self.push(tree, QUOTIENT, *[self.outcome(operand) for operand in operands])

    def of_antiderivative(self, tree: Any, operand: Any, token: Any) -> int:
        v = self.variable(token)
        return self.push(tree, ANTIDERIVATIVE, self.outcome(operand), 0, v)

    # -- the end

    def end(self, statements: list[Any]) -> None:
        """Makes the last name the result, which is the last step's."""
        if not self.named_steps:
            lines = self.text.rstrip().split("\n")
            sentence = "there is no step; a sheet has at least one, such as y = curve"
            self.refuse_at(len(lines), len(lines[-1]) + 1, sentence)
        name, place = list(self.named_steps.items())[-1]
        if place != len(self.steps) - 1:
            at = [tree for tree in statements if tree.data == "step"][-1].children[0]
            self.push(at, SWEEP, place)
            self.note(at, f"{name} is an earlier step: a sweep at 0, which changes nothing, makes it the result")

    def sheet(self) -> AssembledSheet:
        """The sheet, by the library's writer, with the names."""
        sheet = AssembledSheet(Book(len(self.variables), self.order, self.models, self.steps).sheet())
        sheet.variables, sheet.models = tuple(self.variables), tuple(self.model_labels)
        sheet.steps, sheet.lines, sheet.notes = tuple(self.step_labels), tuple(self.step_lines), tuple(self.notes)
        return sheet


# ---- the listing


def listing(sheet: bytes, variables: Sequence[str] = (), comments: bool = True) -> str:
    """A text of which the assembler makes this sheet again, to the byte.

    Models are named m0 and on, steps s0 and on; variables as is said, or x y z w, or x1 to x8 where there are more than
    four. Comments say in decimals, to the nearest of six places, what stands in units. A sheet that the reader does not
    accept is Refused.
    """
    book = read(sheet)
    names = listed_variables(book.n, variables)
    models, steps = listed_names(len(book.models), len(book.steps))
    lines = [f"variables {' '.join(names)}", f"order {book.order}"]
    for name, model in zip(models, book.models):
        lines += listed_model(name, model, names, comments)
    for name, step in zip(steps, book.steps):
        comment = _step_comment(step) if comments else ""
        lines.append(f"{name} = {step_words(step, names, models, steps)}{comment}")
    return "\n".join(lines) + "\n"


def listed_names(models: int, steps: int) -> tuple[list[str], list[str]]:
    """The names of models and steps in a listing."""
    return [f"m{number}" for number in range(models)], [f"s{number}" for number in range(steps)]


def listed_variables(n: int, given: Sequence[str] = ()) -> list[str]:
    """The names for n variables; ValueError where those that are given cannot be."""
    names = list(given) or (["x", "y", "z", "w"] if n <= 4 else [f"x{i + 1}" for i in range(n)])[:n]
    if len(names) != n:
        raise ValueError(f"the number of variables is {n}, and {len(names)} names are given")
    for place, name in enumerate(names):
        if not _NAME.fullmatch(name) or name in KEYWORDS or not _fit_for_variable(name):
            raise ValueError(f"'{name}' cannot name a variable")
        if re.fullmatch("[ms][0-9]+", name) or name in names[:place]:
            raise ValueError(f"'{name}' would be named twice")
    return names


def listed_model(name: str, model: Model, names: Sequence[str], comments: bool = True) -> Iterator[str]:
    """The lines that define a model."""
    terms = [(monomial(exponents_of(key), names), value) for key, value in model.terms]
    pieces = polynomial_pieces(terms, shown)
    if model.radius:
        pieces.append(f"± {shown(model.radius)}")
    if comments and any(word.endswith("u") and word[0] in "-0123456789" for piece in pieces for word in piece.split()):
        about = [*polynomial_pieces(terms, _about), *([f"± {_about(model.radius)}"] if model.radius else [])]
        yield from wrapped(f"# {name} is about", about, "", "#    ")
    yield from wrapped(f"model {name} =", pieces, " \\", "    ")


def polynomial_pieces(terms: Sequence[tuple[str, int]], number: Any) -> list[str]:
    """The terms of a polynomial as text, each with its sign; `number` writes a size in units."""
    pieces: list[str] = []
    for monomial, value in terms:
        sign = "-" if value < 0 else "+" if pieces else ""
        # A sign of the first term stands right before it.
        between = " " if pieces else ""
        pieces.append(f"{sign}{between}{number(abs(value))}{monomial and ' ' + monomial}")
    return pieces or ["0"]


def wrapped(start: str, pieces: Sequence[str], end: str, indent: str) -> Iterator[str]:
    """Pieces after a start, in lines that are not long; `end` stands after each line that another follows."""
    line = start
    for piece in pieces:
        if len(line) + len(piece) + 1 > LISTED_COLUMNS and line.strip(" #"):
            yield line + end
            line = indent + piece
        else:
            line += " " + piece
    yield line


def monomial(exponents: Sequence[int], names: Sequence[str]) -> str:
    """A monomial as text, empty for 1."""
    powers = [(name, exponent) for name, exponent in zip(names, exponents) if exponent]
    return " ".join(name if exponent == 1 else f"{name}^{exponent}" for name, exponent in powers)


def step_words(step: Step, variables: Sequence[str], models: Sequence[str], steps: Sequence[str]) -> str:
    """A step as an expression with these names."""
    code, a, b, v, value = step
    if code == INPUT:
        return f"input {models[a]}"
    if code == CONSTANT:
        return f"constant {'-' if value < 0 else ''}{shown(abs(value))}"
    if code == VARIABLE:
        return f"variable {variables[v - 1]}"
    if code == NEGATE:
        return f"-{steps[a]}"
    if code == SUBSTITUTE:
        return f"substitute {steps[b]} for {variables[v - 1]} in {steps[a]}"
    if code == SWEEP:
        return f"sweep {steps[a]} at {shown(value)}"
    if code == QUOTIENT:
        return f"divide {steps[a]} by {steps[b]} proposal {steps[v]}, {steps[value]}"
    if code == ANTIDERIVATIVE:
        return f"antiderivative {steps[a]} in {variables[v - 1]}"
    return f"{steps[a]} {_OPERATORS[code]} {steps[b]}"


def _step_comment(step: Step) -> str:
    if step.code not in (CONSTANT, SWEEP) or not shown(abs(step.value)).endswith("u"):
        return ""
    return f"  # about {'-' if step.value < 0 else ''}{_about(abs(step.value))}"


def _about(units: int) -> str:
    """A number of units as a decimal of six places, the nearest."""
    millionths = round(Fraction(units * 10 ** 6, UNIT))
    return _decimal(millionths)


def _decimal(millionths: int) -> str:
    whole, places = divmod(millionths, 10 ** 6)
    return f"{whole}.{places:06}".rstrip("0").rstrip(".")


def shown(units: int) -> str:
    """A number of units from 0: as a decimal where one of six places is exact, else with the suffix u."""
    millionths, rest = divmod(units * 10 ** 6, UNIT)
    return f"{units}u" if rest else _decimal(millionths)
