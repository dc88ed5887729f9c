"""A run as a report: decimals rounded outward, where each radius came from, and refusals as sentences with names."""

from __future__ import annotations

from collections.abc import Iterator, Sequence
from fractions import Fraction
from typing import Any, NamedTuple

from .books import Report, Step, Summary
from .codes import ANTIDERIVATIVE, CONSTANT, INPUT, QUOTIENT, SUBSTITUTE, VARIABLE
from .errors import Refused
from .inputs import Loaded
from .limits import UNIT
from .models import Model, exponents_of
from .numbers import outward
from .results import Shares
from .sheets import read, shares
from .text import monomial, step_words, wrapped

PARTS = Shares._fields
MOST_NAME = 24
LAST_OF_READING = 6


# ---- what holds of a run


def fed(steps: Sequence[Step]) -> bool:
    """Whether a quotient feeds an antiderivative, directly or through other steps."""
    divided: list[bool] = []
    for step in steps:
        inside = any(divided[operand] for operand in operands(step))
        if step.code == ANTIDERIVATIVE and inside:
            return True
        divided.append(inside or step.code == QUOTIENT)
    return False


def operands(step: Step) -> list[int]:
    """The earlier steps that a step names."""
    code, a, b, v, value = step
    if code in (INPUT, CONSTANT, VARIABLE):
        return []
    if code == QUOTIENT:
        return [a, b, v, value]
    return [a, b] if 4 <= code <= SUBSTITUTE else [a]


class Promise(NamedTuple):
    """For what within the models the band and the range hold, and the integral: "functions", "polynomials" or
    "nothing". README.md has the rule."""

    band: str
    integral: str

    def sentence(self) -> str:
        if self.band == "nothing":
            return "WARNING: nothing of this is promised, since a quotient feeds an antiderivative"
        if self.band == self.integral:
            return f"these hold for all {self.band} within the models"
        start = f"radius and range hold for all {self.band} within the models"
        if self.integral == "nothing":
            return f"{start}; of the integral nothing is promised, since there is a quotient"
        return f"{start}, the integral for all {self.integral}"


def promised(steps: Sequence[Step]) -> Promise:
    """What is proved of a sheet with these steps."""
    codes = {step.code for step in steps}
    if fed(steps):
        return Promise("nothing", "nothing")
    return Promise("polynomials" if ANTIDERIVATIVE in codes else "functions",
                   "nothing" if QUOTIENT in codes else "polynomials")


# ---- decimals


def in_decimals(model: Model, names: Sequence[str], digits: int) -> list[str]:
    """A model in decimals that holds this one: each coefficient to the nearest, and the radius, rounded up, pays."""
    scale = Fraction(10 ** digits, UNIT)
    pieces: list[str] = []
    paid = Fraction(0)
    for key, coefficient in model.terms:
        rounded = round(coefficient * scale)
        paid += abs(coefficient * scale - rounded)
        if rounded:
            size = f"{outward(0, abs(rounded) / scale, digits)[1]:f} {monomial(exponents_of(key), names)}".rstrip()
            sign = "-" if rounded < 0 else "+"
            pieces.append(f"{sign} {size}" if pieces else f"{sign.strip('+')}{size}")
    radius = outward(0, model.radius + paid / scale, digits)[1]
    return [*(pieces or ["0"]), f"± {radius:f}"]


def ends(low: int, high: int, digits: int) -> str:
    down, up = outward(low, high, digits)
    return f"{down:f} to {up:f}"


def percent(part: int, whole: int) -> str:
    if not part:
        return "-"
    return "< 0.1 %" if 1000 * part < whole else f"{100 * part / whole:.1f} %"


# ---- refusals with names


def left_over(loaded: Loaded, refusal: Refused) -> bool:
    """Whether bytes are left over between the last model and the first step; the place is then the number of models."""
    return refusal.of == "model" and refusal.place >= loaded.sheet[-6]


def named_place(loaded: Loaded, refusal: Refused) -> str:
    """The model or step that a refusal names, in the words of the text."""
    if left_over(loaded, refusal):
        return " after the last model"
    if refusal.of == "model":
        return f" at model '{loaded.models[refusal.place]}'"
    if refusal.of == "step":
        line = f", line {loaded.lines[refusal.place]}" if refusal.place < len(loaded.lines) else ""
        return f" at step '{loaded.steps[refusal.place]}'{line}{made_of(loaded, refusal)}"
    return ""


def made_of(loaded: Loaded, refusal: Refused) -> str:
    """What the refused step computes, with the names of its operands."""
    if refusal.number <= LAST_OF_READING:
        return ""
    operands = [f"({name})" if " " in name else name for name in loaded.steps]
    words = step_words(read(loaded.sheet).steps[refusal.place], loaded.variables, loaded.models, operands)
    return f" ({words})"


def refused_sentence(loaded: Loaded, refusal: Refused) -> str:
    """A refusal with the names of steps and models, why, and what to do."""
    sentence = refusal.sentence
    if left_over(loaded, refusal):
        sentence = "Bytes are left over before the first step: mend the offset or the number of models in the trailer."
    return f"refused {refusal.number}{named_place(loaded, refusal)}: {sentence}"


# ---- the run


class Outcome:
    """A sheet that was run: what it gave, or its refusal."""

    def __init__(self, loaded: Loaded):
        self.loaded = loaded
        self.report: Report | None = None
        self.refusal: Refused | None = None
        rows: Sequence[Shares]
        try:
            self.report = shares(loaded.sheet)
            rows = self.report.shares
        except Refused as refusal:
            # Refusals up to 6 come before any step runs.
            self.refusal, rows = refusal, refusal.shares[:refusal.place] if refusal.number > LAST_OF_READING else ()
        count = loaded.sheet[-5] if len(loaded.sheet) >= 8 else 0
        self.rows = list(zip(loaded.steps, rows[:count]))

    @property
    def summary(self) -> Summary:
        assert self.report is not None
        return self.report.summary

    # -- as text

    def text(self, digits: int) -> str:
        lines = [*self.head(), ""]
        if self.refusal is None:
            lines += [*self.body(digits), ""]
        if self.rows:
            lines += self.table(digits)
        return "\n".join(lines).rstrip("\n") + "\n"

    def head(self) -> Iterator[str]:
        if self.refusal is not None:
            yield f"{self.loaded.source}: {refused_sentence(self.loaded, self.refusal)}"
            if self.rows:
                yield "the steps before it:"
            return
        sheet = self.loaded.sheet
        counts = [(sheet[-6], "model"), (sheet[-5], "step")]
        counted = ", ".join(f"{count} {what}" if count == 1 else f"{count} {what}s" for count, what in counts)
        yield f"{self.loaded.source}: variables {' '.join(self.loaded.variables)}, order {sheet[-7]}, {counted}"

    def body(self, digits: int) -> Iterator[str]:
        model, span, integral, _ = self.summary
        pieces = in_decimals(model, self.loaded.variables, digits)
        yield from wrapped(f"{self.loaded.result} =", pieces, "", "    ")
        yield f"range     {ends(*span, digits)}"
        yield f"integral  {ends(*integral, digits)}"
        yield f"radius    {outward(0, model.radius, digits)[1]:f}"
        yield promised(read(self.loaded.sheet).steps).sentence()

    def table(self, digits: int) -> Iterator[str]:
        """Each step's radius, and what part of it came from where."""
        names = [cut_name(name) for name, _ in self.rows]
        width = max(4, *map(len, names))
        yield f"{'step':{width}}  {'radius':>{digits + 6}}" + "".join(f"{part:>10}" for part in PARTS)
        for name, (_, row) in zip(names, self.rows):
            radius = outward(0, sum(row) // UNIT, digits)[1]
            yield f"{name:{width}}  {radius:>{digits + 6}f}" + "".join(f"{percent(part, sum(row)):>10}" for part in row)

    # -- as data

    def data(self, digits: int) -> dict[str, Any]:
        """The same as numbers: all in units, but those under "decimals", which are rounded outward."""
        loaded = self.loaded
        held: dict[str, Any] = {"sheet": loaded.source, "accepted": self.refusal is None}
        if self.refusal is not None:
            refusal = self.refusal
            names = {"model": loaded.models[:loaded.sheet[-6]], "step": loaded.steps}.get(refusal.of, ())
            held["refusal"] = {"number": refusal.number, "name": refusal.name, "place": refusal.place, "of": refusal.of,
                               "named": names[refusal.place] if refusal.place < len(names) else "",
                               "sentence": refused_sentence(loaded, refusal)}
        else:
            held |= self.result_data(digits)
        held["steps"] = [{"name": name, "radius": sum(row) // UNIT, "shares": row._asdict()} for name, row in self.rows]
        held["notes"] = list(loaded.notes)
        return held

    def result_data(self, digits: int) -> dict[str, Any]:
        model, span, integral, exact = self.summary
        loaded = self.loaded
        terms = [{"exponents": exponents_of(key, model.n), "coefficient": value} for key, value in model.terms]
        pieces = in_decimals(model, loaded.variables, digits)
        return {
            "variables": list(loaded.variables), "order": loaded.sheet[-7], "result": loaded.result,
            "radius": model.radius, "terms": terms, "range": list(span), "integral": list(integral),
            "exact": exact._asdict() if model.n <= 4 else None,
            "promised": promised(read(loaded.sheet).steps)._asdict(),
            "decimals": {
                "model": " ".join(pieces), "radius": f"{outward(0, model.radius, digits)[1]:f}",
                "range": [f"{end:f}" for end in span.decimals(digits)],
                "integral": [f"{end:f}" for end in integral.decimals(digits)],
            },
        }


def cut_name(name: str) -> str:
    """A name that leaves room for numbers beside it."""
    return name if len(name) <= MOST_NAME else name[:MOST_NAME - 3] + "..."
