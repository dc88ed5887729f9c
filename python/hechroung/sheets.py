"""Sheets: the bytes of a book, read, run, written back and stepped through."""

import ctypes
import struct
from collections.abc import Iterator
from typing import NamedTuple

from . import _library as library
from ._fields import data, u64
from ._handing import SHEET, check
from .books import Book, Report, Step, Summary, ran, reported
from .limits import LONGEST_RECORD, LONGEST_SHEET
from .models import Model

# How many variables a sheet with keys of two bytes may have, and where its trailer has n and the order.
MOST_NARROW = 4
TRAILER, VARIABLES, ORDER = 8, -8, -7


class Record(NamedTuple):
    """A record of a sheet: "model" or "step", and its bytes."""

    kind: str
    data: bytes


def run(sheet: bytes) -> Summary:
    """Runs a sheet: the last step's model, its range and its integral."""
    given = data(sheet)
    return ran(library.run, (given, len(given)), _order(given))


def shares(sheet: bytes) -> Report:
    """Runs a sheet, and tells where the radius of each of its steps came from."""
    given = data(sheet)
    return reported(library.shares, (given, len(given)), _order(given))


def lines(sheet: bytes) -> str:
    """The lines that the program polymodel prints for a sheet, refused or not."""
    given = data(sheet)
    text = ctypes.create_string_buffer(library.lines(given, len(given), b"", 0))
    length = library.lines(given, len(given), text, len(text))
    return text.raw[:length].decode("ascii")


def read(sheet: bytes) -> Book:
    """The book that a sheet holds."""
    given = data(sheet)
    records = list(open_sheet(given))
    n, order = given[VARIABLES], given[ORDER]
    models = [_model(n, order, record.data) for record in records if record.kind == "model"]
    steps = [Step(*struct.unpack("<BBBBi", record.data)) for record in records if record.kind == "step"]
    return Book(n, order, models, steps)


def rewrite(sheet: bytes) -> bytes:
    """A sheet read and written again by the library: the same bytes, or the refusal."""
    given = data(sheet)
    buffer, numbers = ctypes.create_string_buffer(LONGEST_SHEET), (u64 * 2)()
    number = library.rewrite(given, len(given), buffer, LONGEST_SHEET, numbers, 2)
    place, length = numbers
    check(number, place, SHEET)
    return buffer.raw[:length]


def record(sheet: bytes, index: int) -> bytes:
    """The bytes of one record, from 0: each model, then each step; none where there is no such record."""
    given = data(sheet)
    found = ctypes.create_string_buffer(LONGEST_RECORD)
    length = library.record(given, len(given), index, found, LONGEST_RECORD)
    return found.raw[:length]


def records(sheet: bytes) -> Iterator[bytes]:
    """The bytes of each model and each step; none of a sheet that is refused."""
    index = 0
    while found := record(sheet, index):
        yield found
        index += 1


def open_sheet(sheet: bytes) -> Iterator[Record]:
    """Opens a sheet, which makes tests 1 to 6, and steps through its records."""
    given = data(sheet)
    numbers = (u64 * 2)()
    number = library.open_sheet(given, len(given), numbers, 2)
    place, at = numbers
    check(number, place, SHEET)
    return _stepped(given, at)


def _stepped(sheet: bytes, at: int) -> Iterator[Record]:
    found, numbers = ctypes.create_string_buffer(LONGEST_RECORD), (u64 * 2)()
    while kind := library.next_record(sheet, len(sheet), at, found, LONGEST_RECORD, numbers, 2):
        length, at = numbers
        yield Record({1: "model", 2: "step"}[kind], found.raw[:length])


def _order(sheet: bytes) -> int:
    """The order in the trailer, 0 where there is none."""
    return sheet[ORDER] if len(sheet) >= TRAILER else 0


def _model(n: int, order: int, record: bytes) -> Model:
    """The model of a record: radius, count, then keys and coefficients. In up to four variables a key is two bytes,
    the upper half of the one in memory."""
    narrow = n <= MOST_NARROW
    (radius,) = struct.unpack_from("<I", record)
    pairs = struct.iter_unpack("<Hi" if narrow else "<Ii", record[5:])
    terms = tuple((key << 16 if narrow else key, coefficient) for key, coefficient in pairs)
    return Model(n, radius, terms, order)
