"""The archive's form of a model of 1 to 4 variables: low degrees first, so that a reader may take the first terms."""

import ctypes

from . import _library as library
from ._fields import data, u64
from ._handing import ARCHIVE, Answer, check, model_slices
from .limits import LONGEST_ARCHIVED, MOST_TERMS
from .models import Model, tested_model


def store(f: Model) -> bytes:
    """A model in the archive's form: its terms by total degree and then key."""
    buffer, numbers = ctypes.create_string_buffer(LONGEST_ARCHIVED), (u64 * 2)()
    number = library.store(*model_slices(tested_model(f)), buffer, LONGEST_ARCHIVED, numbers, 2)
    place, length = numbers
    check(number, place)
    return buffer.raw[:length]


def restore(archived: bytes, terms: int = MOST_TERMS) -> Model:
    """The model of the first terms of one that is stored, or of all if there are fewer.

    All terms give the very model that was stored. WARNING: fewer are no band around the curve, since what was left out
    is not in the radius; who wants a band has to add the sizes of all terms left out to it.
    """
    given = data(archived, "an archived model")
    answer = Answer()
    return Model(*answer.model(library.restore(given, len(given), terms, *answer.slices), ARCHIVE))
