"""The shared library: where it is found, and its functions. All names of include/hechroung_raw.h stand here."""

import ctypes
import os
from collections.abc import Callable, Iterator
from pathlib import Path
from typing import Any

from ._fields import crossed, f64, i64, i64s, octets, size, sizes, u8, u32s, u64, u64s

LAYOUT = 4
"""That of the header which these declarations follow; the shared library is named by it."""

NAME = f"libhechroung.so.{LAYOUT}"
_HERE = Path(__file__).resolve().parent


def places() -> Iterator[Path]:
    """Where the library may be: in the package, in the folder that HECHROUNG_LIB names, in a checkout's target/lib."""
    yield _HERE / NAME
    if folder := os.environ.get("HECHROUNG_LIB"):
        yield Path(folder) / NAME
    yield _HERE.parents[1] / "target" / "lib" / NAME


def loaded() -> tuple[ctypes.CDLL, str]:
    """The library from the first place that has it, else the one that is installed, by the system's loader; and where
    it was found, without a folder in the last case."""
    tried = list(map(str, places()))
    for path in tried:
        if os.path.isfile(path):
            return ctypes.CDLL(path), path
    try:
        return ctypes.CDLL(NAME), NAME
    except OSError:
        raise ImportError(f"{NAME} is not found: build it with tools/library in the checkout of Hechroung, install "
                          f"Debian's libhechroung{LAYOUT}, or set HECHROUNG_LIB to the folder that has it. Looked for: "
                          f"{', '.join(tried)}, and where the system has its libraries") from None


_library, PATH = loaded()


def _exported(name: str, answer: Any, *fields: Any) -> Callable[..., int]:
    """The exported function of that name; every number is tested before it crosses."""
    function = getattr(_library, name)
    function.restype, function.argtypes = answer, fields

    def tested(*arguments: Any) -> int:
        pairs = zip(fields, arguments, strict=True)
        number: int = function(*(crossed(field, given) for field, given in pairs))
        return number

    tested.__name__ = name
    tested.answer, tested.fields = answer, fields  # type: ignore[attr-defined]
    return tested


# A slice is a pointer and a length.
_keys, _coefficients, _numbers, _ends, _bytes = (u32s, size), (i64s, size), (u64s, size), (i64s, size), (octets, size)
# A model that is read, a model that is stored, several models one after the other, a book, what a run gives, a curve.
_model = (u8, size, u64, *_keys, *_coefficients)
_answer = (*_keys, *_coefficients, *_numbers)
_models = (octets, size, sizes, size, u64s, size, *_keys, *_coefficients)
_book = (u8, u8, size, size, *_models, octets, size, i64s, size)
_summary = (*_answer, *_ends)
_shares = (u64s, size)
_curve = (*_coefficients, u64)

call = _exported("hechroung_raw_call", u8, u8, u8, u8, i64, *_model, *_model, *_answer)
quotient = _exported("hechroung_raw_divide", u8, u8, *_models, *_answer)
ends = _exported("hechroung_raw_ends", u8, u8, *_model, i64s, size, *_ends)
cut_range = _exported("hechroung_raw_range_cut", u8, u8, u8, u8, *_model, *_ends, *_numbers)

run = _exported("hechroung_raw_run_sheet", u8, *_bytes, *_summary)
shares = _exported("hechroung_raw_shares_sheet", u8, *_bytes, *_summary, *_shares)
lines = _exported("hechroung_raw_print", size, *_bytes, *_bytes)
rewrite = _exported("hechroung_raw_rewrite", u8, *_bytes, *_bytes, *_numbers)
record = _exported("hechroung_raw_record", size, *_bytes, size, *_bytes)
open_sheet = _exported("hechroung_raw_open", u8, *_bytes, *_numbers)
next_record = _exported("hechroung_raw_next", u8, *_bytes, size, *_bytes, *_numbers)

write = _exported("hechroung_raw_write_sheet", u8, *_book, *_bytes, *_numbers)
run_book = _exported("hechroung_raw_run_models", u8, *_book, *_summary)
shares_book = _exported("hechroung_raw_shares_models", u8, *_book, *_summary, *_shares)

curve = _exported("hechroung_raw_curve", u8, u8, *_curve, *_curve, *_coefficients, *_numbers)
curve_range = _exported("hechroung_raw_range_of_curve", u8, *_curve, *_ends)
to_powers = _exported("hechroung_raw_curve_to_powers", u8, *_curve, *_answer)
from_powers = _exported("hechroung_raw_curve_from_powers", u8, *_model, *_coefficients, *_numbers)

doubles = _exported("hechroung_raw_from_doubles", u8, f64, f64, f64, f64, *_answer)
readings = _exported("hechroung_raw_hold", u8, *_model, i64s, size, i64s, size, i64s, size, *_numbers)
store = _exported("hechroung_raw_store_model", u8, *_model, *_bytes, *_numbers)
restore = _exported("hechroung_raw_restore_model", u8, *_bytes, size, *_answer)
