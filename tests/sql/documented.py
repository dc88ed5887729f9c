"""Runs the statements that docs/SQL.md shows and compares what they print with what it shows.

usage: documented.py SQLITE_FILE [write]; with `write` what they print is put into the page.

A block that is fenced as sqlite or postgresql is a statement, the block of text after it is its output. The table herd
is in the file, and in the database that psql finds."""

import re
import subprocess
import sys
from pathlib import Path

ROOT = Path(__file__).resolve().parent.parent.parent
PAGE = ROOT / "docs" / "SQL.md"
SHOWN = re.compile(r"```(sqlite|postgresql)\n(.*?)```\n\n```text\n(.*?)```\n", re.DOTALL)


def printed(database, statement, file):
    commands = {
        "sqlite": ["sqlite3", "-bail", "-list", "-header", "-cmd", f".load {ROOT}/target/sql/hechroung", file],
        "postgresql": ["psql", "-XAq", "-P", "footer=off", "-v", "ON_ERROR_STOP=1"],
    }
    return subprocess.run(commands[database], input=statement, capture_output=True, text=True, check=True).stdout


def main(file, write=None):
    page = PAGE.read_text(encoding="utf-8")
    shown = list(SHOWN.finditer(page))
    differing = 0
    for found in reversed(shown):
        output = printed(found[1], found[2], file)
        if output == found[3]:
            continue
        differing += 1
        print(f"docs/SQL.md shows other lines than this statement prints:\n{found[2]}{output}")
        page = page[:found.start(3)] + output + page[found.end(3):]
    if write:
        PAGE.write_text(page, encoding="utf-8")
    elif differing or not shown:
        sys.exit(1)
    print(f"docs/SQL.md: {len(shown)} statements print what it shows")


if __name__ == "__main__":
    main(*sys.argv[1:])
