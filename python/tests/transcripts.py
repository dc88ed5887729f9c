"""Transcripts: commands and what they print, run again and compared.

A transcript has lines `$ COMMAND`, each with what the command prints below it, both streams together, and a last line
`[exit status N]` where that is not 0. `$ cat FILE` for a file that is not there yet makes it: what is printed is what
it holds. In a Markdown document a transcript is a block indented by four blanks whose first line begins with `$ `; all
blocks of a document share one folder.

    python3 python/tests/transcripts.py FILE...

writes anew what the commands print; look at the difference before it is stored.
"""

from __future__ import annotations

import os
import shlex
import subprocess
import sys
import tempfile
from collections.abc import Iterator
from pathlib import Path
from typing import NamedTuple

PACKAGE = Path(__file__).resolve().parents[1]
INDENT = "    "
# The interpreter that runs this, whatever stands first in the path.
SHELL = 'hechroung() { "$INTERPRETER" -m hechroung "$@"; }\npython3() { "$INTERPRETER" "$@"; }\n'


class Block(NamedTuple):
    """The lines of a transcript and where they stand in its file."""

    start: int
    end: int
    lines: list[str]


def blocks(path: Path) -> list[Block]:
    lines = path.read_text(encoding="utf-8").split("\n")
    if path.suffix != ".md":
        return [Block(0, len(lines) - 1, lines[:-1])]
    return list(indented(lines))


def indented(lines: list[str]) -> Iterator[Block]:
    at = 0
    while at < len(lines):
        if not lines[at].startswith(INDENT + "$ "):
            at += 1
            continue
        end = at
        while end < len(lines) and (lines[end].startswith(INDENT) or lines[end] == ""):
            end += 1
        while lines[end - 1] == "":
            end -= 1
        yield Block(at, end, [line.removeprefix(INDENT) for line in lines[at:end]])
        at = end


def commands(lines: list[str]) -> list[tuple[str, list[str]]]:
    found: list[tuple[str, list[str]]] = []
    for line in lines:
        if line.startswith("$ "):
            found.append((line[2:], []))
        else:
            found[-1][1].append(line)
    return found


def run(command: str, expected: list[str], folder: Path) -> list[str]:
    """The lines that a command prints in a folder."""
    words = shlex.split(command)
    if words[0] == "cat" and len(words) == 2 and not (folder / words[1]).exists():
        (folder / words[1]).write_text("\n".join([*trimmed(expected), ""]), encoding="utf-8")
        return expected
    settings = {**os.environ, "INTERPRETER": sys.executable, "COLUMNS": "100", "LC_ALL": "C.UTF-8",
                "PYTHONPATH": os.pathsep.join([str(PACKAGE), os.environ.get("PYTHONPATH", "")])}
    done = subprocess.run(["sh", "-c", SHELL + command], cwd=folder, env=settings, stdin=subprocess.DEVNULL,
                          stdout=subprocess.PIPE, stderr=subprocess.STDOUT, check=False)
    printed = done.stdout.decode("utf-8")
    lines = printed.removesuffix("\n").split("\n") if printed else []
    return lines + ([f"[exit status {done.returncode}]"] if done.returncode else [])


def trimmed(lines: list[str]) -> list[str]:
    """Without blank lines at the end."""
    kept = list(lines)
    while kept and kept[-1] == "":
        kept.pop()
    return kept


def rerun(block: Block, folder: Path) -> list[str]:
    """The lines of a transcript as they are printed now; blank lines between commands stay."""
    lines: list[str] = []
    for command, expected in commands(block.lines):
        blank = len(expected) - len(trimmed(expected))
        lines += [f"$ {command}", *trimmed(run(command, expected, folder)), *[""] * blank]
    return trimmed(lines)


def renewed(path: Path, folder: Path) -> str:
    """A file with all its transcripts run again."""
    lines = path.read_text(encoding="utf-8").split("\n")
    made, at = [], 0
    for block in blocks(path):
        indent = INDENT if path.suffix == ".md" else ""
        made += lines[at:block.start] + [(indent + line).rstrip() for line in rerun(block, folder)]
        at = block.end
    return "\n".join(made + lines[at:])


def main() -> None:
    for name in sys.argv[1:]:
        with tempfile.TemporaryDirectory() as folder:
            Path(name).write_text(renewed(Path(name), Path(folder)), encoding="utf-8")


if __name__ == "__main__":
    main()
