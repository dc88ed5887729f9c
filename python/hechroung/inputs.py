"""What the command reads: sheets as text, as bytes or in the .hex notation, from files or standard input."""

from __future__ import annotations

import re
import sys
from pathlib import Path
from typing import NamedTuple

from .limits import MOST_MODELS, MOST_STEPS
from .text import AssembledSheet, assemble, listed_names, listed_variables

STANDARD_INPUT = "-"
# A text has no control letters but blanks and line ends. Every accepted sheet has one: its number of variables, 1 to 8.
_CONTROL = re.compile(rb"[\x00-\x08\x0e-\x1f]")
_TIMES = re.compile(r"\s*([0-9]+)\s+times\s+([0-9A-Fa-f]{2})\s*")


class Unfit(ValueError):
    """What was read is no sheet in any form; a sentence says why."""


class Loaded(NamedTuple):
    """A sheet and the names for what it holds. Lines are those of its text, one for each step, or none."""

    source: str
    sheet: bytes
    variables: tuple[str, ...]
    models: tuple[str, ...]
    steps: tuple[str, ...]
    lines: tuple[int, ...]
    notes: tuple[str, ...]

    @property
    def result(self) -> str:
        """The name of the last step."""
        return self.steps[self.sheet[-5] - 1]


def shown_source(path: str) -> str:
    """The name of an input in what is printed."""
    return "standard input" if path == STANDARD_INPUT else path


def content(path: str) -> bytes:
    """The bytes of a file, or of standard input."""
    return sys.stdin.buffer.read() if path == STANDARD_INPUT else Path(path).read_bytes()


def load(path: str) -> Loaded:
    """The sheet of a file: TextError or Unfit where it holds none, OSError where it cannot be read."""
    held = content(path)
    if path.endswith(".hex"):
        return of_bytes(path, hex_bytes(decoded(held)))
    if _CONTROL.search(held):
        return of_bytes(path, held)
    return of_text(path, decoded(held))


def decoded(held: bytes) -> str:
    try:
        return held.decode("utf-8-sig")
    except UnicodeDecodeError as fault:
        line = held[:fault.start].count(b"\n") + 1
        raise Unfit(f"line {line}: the text is not UTF-8; store it as UTF-8, or write +- in place of ±") from None


def of_text(path: str, text: str) -> Loaded:
    sheet: AssembledSheet = assemble(text)
    return Loaded(shown_source(path), sheet, sheet.variables, sheet.models, sheet.steps, sheet.lines, sheet.notes)


def of_bytes(path: str, sheet: bytes) -> Loaded:
    """Bytes have no names: variables, models and steps have those of the listing."""
    n = sheet[-8] if len(sheet) >= 8 else 0
    variables = tuple(listed_variables(n)) if 1 <= n <= 8 else ()
    models, steps = listed_names(MOST_MODELS, MOST_STEPS)
    return Loaded(shown_source(path), sheet, variables, tuple(models), tuple(steps), (), ())


def hex_bytes(text: str) -> bytes:
    """The bytes that the .hex notation of docs/SHEETS.md stands for."""
    held = bytearray()
    for number, line in enumerate(text.splitlines(), 1):
        words = line.partition("#")[0]
        if times := _TIMES.fullmatch(words):
            held += int(times[1]) * bytes.fromhex(times[2])
            continue
        try:
            held += bytes.fromhex(words)
        except ValueError:
            raise Unfit(f"line {number}: '{words.strip()}' is not bytes in hex") from None
    return bytes(held)
