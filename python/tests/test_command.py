"""The command by files of expected output, and what no such file shows: terminals, missing modules, broken pipes."""

from __future__ import annotations

import io
import json
import os
import subprocess
import sys
from fractions import Fraction
from pathlib import Path

import pytest
from hypothesis import given, settings
from hypothesis import strategies as st

import transcripts
from hechroung import UNIT, Model, evaluate, read, run
from hechroung import bench, cli, report
from hechroung.inputs import load
from hechroung.text import assemble, number_of

HERE = Path(__file__).resolve().parent
EXPECTED = sorted((HERE / "expected").glob("*.txt"))
SHEET = "variables f t\norder 7\nmodel curve = 0.2503 + 1.0201 f - 0.0312 f^2 t ± 0.0004\nr = curve\n"


@pytest.mark.parametrize("path", EXPECTED, ids=lambda path: path.stem)
def test_expected_output(path: Path, tmp_path: Path) -> None:
    assert transcripts.renewed(path, tmp_path) == path.read_text(encoding="utf-8")


class Terminal(io.StringIO):
    def isatty(self) -> bool:
        return True


def test_progress_on_a_terminal_only(tmp_path: Path, monkeypatch: pytest.MonkeyPatch) -> None:
    paths = [tmp_path / name for name in ("a.sheet", "b.sheet", "c.sheet")]
    for path in paths:
        path.write_text(SHEET, encoding="utf-8")
    said = {}
    for stream in (Terminal, io.StringIO):
        monkeypatch.setattr(sys, "stderr", stream())
        assert cli.main(["run", "-q", *map(str, paths)]) == 0
        said[stream] = sys.stderr.getvalue()
    assert "3 of 3 sheets: " in said[Terminal] and said[Terminal].endswith(cli.CLEARED + "\r")
    assert said[io.StringIO] == ""


def test_bytes_are_not_written_to_a_terminal(tmp_path: Path, monkeypatch: pytest.MonkeyPatch) -> None:
    path = tmp_path / "a.sheet"
    path.write_text(SHEET, encoding="utf-8")
    monkeypatch.setattr(sys, "stdout", Terminal())
    assert cli.main(["assemble", "-q", str(path)]) == cli.MISUSED


@pytest.mark.parametrize("module, words, package", [
    ("lark", ["run", "a.sheet"], "python3-lark"),
    ("matplotlib", ["plot", "band", "a.bin", "-o", "a.png"], "python3-matplotlib")])
def test_a_missing_module_is_named(module: str, words: list[str], package: str, tmp_path: Path) -> None:
    """With another interpreter that has none of Debian's modules: as if it were not there."""
    (tmp_path / "a.sheet").write_text(SHEET, encoding="utf-8")
    (tmp_path / "a.bin").write_bytes(assemble(SHEET))
    code = f"import sys; sys.modules[{module!r}] = None; from hechroung.cli import main; sys.exit(main({words!r}))"
    settings = {**os.environ, "PYTHONPATH": str(transcripts.PACKAGE)}
    done = subprocess.run([sys.executable, "-c", code], cwd=tmp_path, env=settings, capture_output=True, text=True,
                          check=False)
    assert done.returncode == 2
    assert done.stderr.startswith(f"hechroung: the Python module '{module}' is missing: install Debian's package ")
    assert package in done.stderr and "/usr/bin/python3" in done.stderr and done.stderr.count("\n") == 1


@pytest.mark.parametrize("words", [["run", "a.bin"], ["run", "--json", "a.bin"], ["list", "a.bin"],
                                   ["archive", "store", "a.bin", "-o", "a.arc"]])
def test_bytes_need_no_other_module(words: list[str], tmp_path: Path) -> None:
    (tmp_path / "a.bin").write_bytes(assemble(SHEET))
    hidden = "".join(f"sys.modules[{module!r}] = None; " for module in ("lark", "matplotlib", "numpy"))
    code = f"import sys; {hidden}from hechroung.cli import main; sys.exit(main({words!r}))"
    settings = {**os.environ, "PYTHONPATH": str(transcripts.PACKAGE)}
    done = subprocess.run([sys.executable, "-c", code], cwd=tmp_path, env=settings, capture_output=True, check=False)
    assert done.returncode == 0, done.stderr


def test_a_closed_pipe_is_no_fault(tmp_path: Path) -> None:
    (tmp_path / "a.bin").write_bytes(assemble(SHEET))
    lines = transcripts.run("hechroung run " + "a.bin " * 200 + "| head -n 1", [], tmp_path)
    assert lines == ["a.bin: variables x y, order 7, 1 model, 1 step"]


# ---- decimals out


@given(st.integers(0, 2 ** 30), st.lists(st.integers(-2 ** 24, 2 ** 24), min_size=4, max_size=4), st.integers(0, 9))
@settings(max_examples=300)
def test_a_model_in_decimals_holds_the_model(radius: int, values: list[int], digits: int) -> None:
    model = Model.of(1, dict(enumerate(values)), radius)
    *pieces, shown = report.in_decimals(model, ["x"], digits)
    written = dict.fromkeys(range(4), Fraction(0))
    for piece in pieces:
        sign, rest = ("-", piece[1:]) if piece[0] == "-" else ("+", piece.lstrip("+"))
        number, _, monomial = rest.strip().partition(" ")
        power = {"": 0, "x": 1}[monomial] if monomial in ("", "x") else int(monomial[2:])
        written[power] = number_of(sign + number)
    off = sum(abs(Fraction(value, UNIT) - written[power]) for power, value in enumerate(values))
    least = off + Fraction(radius, UNIT)
    assert least <= number_of(shown.removeprefix("± ")) < least + Fraction(1, 10 ** digits)


def test_json_has_the_numbers_of_the_run(tmp_path: Path, capsys: pytest.CaptureFixture[str]) -> None:
    path = tmp_path / "a.sheet"
    path.write_text(SHEET, encoding="utf-8")
    assert cli.main(["run", "--json", str(path)]) == 0
    held = json.loads(capsys.readouterr().out)
    summary = run(assemble(SHEET))
    assert held["radius"] == summary.model.radius == held["steps"][-1]["radius"]
    assert held["range"] == list(summary.range) and held["integral"] == list(summary.integral)
    assert [term["coefficient"] for term in held["terms"]] == [value for _, value in summary.model.terms]


# ---- what is promised

PROMISES = [
    ("r = x * x\n", "functions", "polynomials"),
    ("r = antiderivative x in x\n", "polynomials", "polynomials"),
    ("r = divide x by 1 proposal x, 1\n", "functions", "nothing"),
    ("a = antiderivative x in x\nr = divide a by 1 proposal x, 1\n", "polynomials", "nothing"),
    ("q = divide x by 1 proposal x, 1\na = q + x\nr = antiderivative a in x\n", "nothing", "nothing"),
    ("q = divide x by 1 proposal x, 1\na = antiderivative q in x\nr = x * x\n", "nothing", "nothing"),
    ("w = antiderivative 1 in x\nr = divide x by 1 proposal x, w\n", "polynomials", "nothing"),
    ("q = divide x by 1 proposal x, 1\ns = divide x by 1 proposal q, 1\nr = antiderivative x in x\n", "polynomials",
     "nothing"),
]


@pytest.mark.parametrize("lines, band, integral", PROMISES)
def test_what_is_promised(lines: str, band: str, integral: str) -> None:
    steps = read(assemble("variables x\norder 3\n" + lines)).steps
    assert report.promised(steps) == (band, integral)


# ---- readings


coordinates = st.fractions(-1, 1, max_denominator=3 * UNIT)


@given(st.lists(st.integers(-2 ** 20, 2 ** 20), min_size=3, max_size=3), st.integers(0, 99), coordinates, coordinates)
@settings(max_examples=300)
def test_the_ends_at_a_point_hold_the_values_there(values: list[int], radius: int, x: Fraction, y: Fraction) -> None:
    model = Model.of(2, {(0, 0): values[0], (1, 0): values[1], (2, 1): values[2]}, radius)
    low, high = bench.ends_at(model, [x, y])
    middle = values[0] + values[1] * x + values[2] * x * x * y
    assert low <= middle - radius and middle + radius <= high
    if UNIT % x.denominator == 0 == UNIT % y.denominator:
        assert (low, high) == evaluate(model, [int(x * UNIT), int(y * UNIT)])


@given(st.lists(st.tuples(coordinates, st.integers(-3, 3), st.integers(0, 2)), max_size=20))
@settings(max_examples=100)
def test_contradictions_are_those_that_fractions_show(rows: list[tuple[Fraction, int, int]]) -> None:
    """A band that is apart from all values by more than the ends' slack contradicts, one with a value does not."""
    model = Model.of(1, {0: UNIT // 2, 1: UNIT}, UNIT // 4)
    log = [bench.LogReading(line, (x,), Fraction(low, 2), Fraction(low + wide, 2)) for line, (x, low, wide)
           in enumerate(rows)]
    found = {reading.line for reading, _ in bench.contradictions(model, log)}
    for reading in log:
        middle = Fraction(1, 2) + reading.point[0]
        gap = max(reading.low - middle, middle - reading.high) - Fraction(1, 4)
        assert gap > 0 or reading.line not in found
        assert gap < Fraction(9, UNIT) or reading.line in found


def test_a_long_log_goes_in_lots() -> None:
    model = Model.of(1, {1: UNIT}, 5)
    log = [bench.LogReading(line, (Fraction(0),), Fraction(line % 3 == 0), Fraction(2)) for line in range(1000)]
    assert [reading.line for reading, _ in bench.contradictions(model, log)] == list(range(0, 1000, 3))


# ---- inputs


def test_bytes_and_text_are_told_apart(tmp_path: Path) -> None:
    sheet = assemble(SHEET)
    for name, held in (("text", SHEET.encode("utf-8")), ("bytes", sheet), ("a.hex", sheet.hex(" ").encode("ascii")),
                       ("marked", b"\xef\xbb\xbf" + SHEET.encode("utf-8"))):
        (tmp_path / name).write_bytes(held)
        assert load(str(tmp_path / name)).sheet == sheet
