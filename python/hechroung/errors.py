"""What is raised: a refusal of the library, with a sentence that says what to do, and a call that was never made."""

from collections.abc import Sequence
from typing import NamedTuple

from .results import Shares

MISUSED = 255
"""The number of a call that the library did not make."""


class Refusal(NamedTuple):
    """A row of the table of refusals: its name, and the header's sentence: what is wrong and what to do."""

    name: str
    sentence: str


REFUSALS: dict[int, Refusal] = {
    1: Refusal("BadLength",
               "The length is wrong: a sheet has 16 to 8792 bytes, an archived model 6 and 6 more for each of its "
               "terms; hand over all of its bytes and no others."),
    2: Refusal("BadMark",
               "The sheet's last two bytes are not its mark, hex 4D 4B for up to four variables or 4D 57 for more: "
               "see whether it is a sheet and was not cut short."),
    3: Refusal("BadLimits",
               "A number is outside its limits: n is 1 to 8 and fits the sheet's mark (1 to 4 in the archive), the "
               "order 1 to 15; there are 0 to 16 models and 1 to 64 steps."),
    4: Refusal("BadOffset",
               "The sheet's parts do not fit its length, which is the offset of the first step, 8 bytes for each "
               "step and 8: mend the trailer."),
    5: Refusal("BadModel",
               "The model that the place names breaks a rule: it has at most 64 terms, keys that rise, no "
               "coefficient of 0, no variable above n, degrees up to the order, a span up to 2^30 and its book's n, "
               "and ends before the steps."),
    6: Refusal("BadStep",
               "The step that the place names, or an argument, breaks its form: operands are earlier steps, a "
               "variable is 1 to n, a constant -2^30 to 2^30, a threshold 0 to 2^30, and what is not used is 0."),
    7: Refusal("OverSpan",
               "The span, the sizes of all coefficients and the radius together, rises above 2^30 units: scale the "
               "inputs down."),
    8: Refusal("TooManyTerms", "More than 64 terms are left: lower the order, or sweep small terms before."),
    9: Refusal("LeavesBox",
               "The box is left: what is put in for a variable, its radius included, and each coordinate has to lie "
               "from -1 to 1; scale it."),
    10: Refusal("VariablesDiffer", "The models differ in n: give all models of a call the same."),
    11: Refusal("ShortBuffer",
                "The buffer is too short: 8792 bytes are enough for every sheet, 390 for every archived model."),
    12: Refusal("Uncertified",
                "Uncertified: the proposal w does not show that the divisor is nowhere zero; bring w nearer to 1 / "
                "g, and see whether g has a zero in the box."),
    13: Refusal("NotOneVariable",
                "A model to convert into a Chebyshev curve has another n than 1: hand over a model of one variable."),
    14: Refusal("CutTooDeep", "The box is to be cut to a depth above 6: take a depth of 0 to 6."),
    15: Refusal("BadReading",
                "A row has more than 256 readings, or the reading that the place names has a low value above its "
                "high one: cut the row into shorter ones, or mend the reading."),
    16: Refusal("BadDouble",
                "A value in doubles is infinite or no number, or the radius is negative: mend what was delivered."),
    17: Refusal("BadRank",
                "The rank of the archived term that the place names is 3876 or more, or does not rise: the bytes are "
                "damaged, or no archived model."),
}


class Refused(Exception):
    """The library refused a call, and said why.

    number    1 to 17, that of documents 01 and 02
    place     where: the number of a model, a step, a piece, a reading or a term, from 0
    of        which of these the place counts, or "" where the place says nothing
    name      the refusal's name, such as "OverSpan"
    sentence  what is wrong and what to do
    shares    of a run with shares those of the steps before the refused one
    """

    def __init__(self, number: int, place: int = 0, of: str = "", shares: Sequence[Shares] = ()) -> None:
        self.number, self.place, self.of, self.shares = number, place, of, tuple(shares)
        where = f" at {of} {place}" if of else ""
        super().__init__(f"refused {number} ({self.name}){where}: {self.sentence}")

    @property
    def name(self) -> str:
        """The refusal's name, as the library's documents have it."""
        return REFUSALS[self.number].name

    @property
    def sentence(self) -> str:
        """What is wrong and what to do, word for word as the header says it."""
        return REFUSALS[self.number].sentence

    def __reduce__(self) -> tuple[type, tuple[int, int, str, tuple[Shares, ...]]]:
        return type(self), (self.number, self.place, self.of, self.shares)


class Misused(TypeError):
    """No call was made: what was handed over is not what the call takes."""

    number = MISUSED
