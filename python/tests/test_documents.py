"""The guide's commands are run and compared, its pictures' data too; the manual page names every command and option."""

from __future__ import annotations

import argparse
import re
import shutil
import subprocess
from collections.abc import Iterator
from pathlib import Path

import pytest

import transcripts
from hechroung import cli

DOCS = transcripts.PACKAGE.parent / "docs"
GUIDE = DOCS / "GUIDE.md"
MANUAL = DOCS / "man" / "hechroung.1"
PICTURES = ("shares", "litres", "depths")


def test_the_guide(tmp_path: Path) -> None:
    assert transcripts.renewed(GUIDE, tmp_path) == GUIDE.read_text(encoding="utf-8")
    for name in PICTURES:
        assert f"](guide/{name}.png)" in GUIDE.read_text(encoding="utf-8")
        stored = DOCS / "guide" / f"{name}.json"
        assert (tmp_path / f"{name}.json").read_text(encoding="utf-8") == stored.read_text(encoding="utf-8")
        for path in (tmp_path / f"{name}.png", DOCS / "guide" / f"{name}.png"):
            assert path.read_bytes().startswith(b"\x89PNG")


def parsers(made: argparse.ArgumentParser) -> Iterator[argparse.ArgumentParser]:
    yield made
    for action in made._actions:
        if isinstance(action, argparse._SubParsersAction):
            for sub in action.choices.values():
                yield from parsers(sub)


def test_the_manual_names_every_command_and_option() -> None:
    page = MANUAL.read_text(encoding="utf-8").replace("\\-", "-")
    for made in parsers(cli.parser()):
        assert re.search(rf"^\.B {made.prog}\b", page, re.MULTILINE), made.prog
        for action in made._actions:
            for option in action.option_strings:
                assert option in page, f"{made.prog} {option}"


@pytest.mark.skipif(not shutil.which("groff"), reason="groff is not installed")
def test_the_manual_has_no_warnings() -> None:
    done = subprocess.run(["groff", "-man", "-ww", "-K", "utf8", "-T", "utf8", str(MANUAL)], capture_output=True,
                          text=True, check=False)
    assert done.returncode == 0 and done.stderr == "" and "hechroung" in done.stdout


def test_helps_have_examples(capsys: pytest.CaptureFixture[str]) -> None:
    for made in parsers(cli.parser()):
        made.print_help()
        shown = capsys.readouterr().out
        assert "examples:\n  hechroung " in shown, made.prog
