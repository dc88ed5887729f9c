"""Both databases with changed sheets and with states that are none, for so many seconds: the real sqlite3 and the
server that psql finds. usage: databases.py SECONDS [SEED]

Rows, totals and windows have to be the same in both. What is no state is refused in words, and the server goes on."""

import random
import subprocess
import sys
import time
from pathlib import Path

HERE = Path(__file__).resolve().parent
ROOT = HERE.parent.parent
# An input of the header's target that begins with 0 is a sheet.
INPUTS = [path.read_bytes() for path in sorted((HERE / "corpus" / "header").iterdir())]
SHEETS = [data[1:] for data in INPUTS if data[:1] == b"\0"]
STATE = 1 + 11 * 8
BATCH = 200
FIELDS = ["accepted", "refused", "nulls", "without_exact", "q", "r", "integral_low", "integral_high"]
ROWS = "SELECT id, refusal, place, sentence, radius, range_low, range_high, integral_low, integral_high, q, r" \
       " FROM log, hechroung_run(sheet) ORDER BY id;"
WINDOWS = "SELECT id, {} FROM (SELECT id, hechroung_total(sheet) OVER (ORDER BY id ROWS 7 PRECEDING) AS t FROM log)" \
          " AS windows ORDER BY id;"


def asked(command, words):
    return subprocess.run(command, input=words, capture_output=True, text=True, check=False)


def in_sqlite(words):
    return asked(["sqlite3", "-bail", "-list", "-nullvalue", "NULL", "-cmd", f".load {ROOT}/target/sql/hechroung",
                  ":memory:"], words)


def in_postgresql(words):
    return asked(["psql", "-XAtq", "-P", "null=NULL"], words)


def changed(source):
    """A sheet with some bytes changed, dropped or doubled; at times none."""
    sheet = bytearray(source.choice(SHEETS))
    for _ in range(source.randrange(4)):
        at = source.randint(0, len(sheet))
        kind = source.randrange(4)
        if kind == 0:
            sheet[at:at + 1] = bytes([source.getrandbits(8)])
        elif kind == 1:
            del sheet[at:at + source.randint(1, 8)]
        elif kind == 2:
            sheet[at:at] = source.randbytes(source.randint(1, 8))
        else:
            sheet[at:at + 4] = source.choice([b"\0\0\0\0", b"\xff\xff\xff\xff", b"\0\0\0\x40", b"\0\0\x10\0"])
    return None if source.randrange(40) == 0 else bytes(sheet)


def state(source):
    form = source.choice([b"\x01", b"\x01", b"\x01", b"\x00", source.randbytes(1)])
    return form + source.randbytes(source.choice([STATE - 1, STATE - 1, STATE - 1, source.randint(0, 200)]))


def rows_agree(source):
    sheets = [changed(source) for _ in range(BATCH)]
    tuples = [(i, "NULL" if sheet is None else sheet.hex()) for i, sheet in enumerate(sheets)]
    lite = ", ".join(f"({i}, NULL)" if hexed == "NULL" else f"({i}, x'{hexed}')" for i, hexed in tuples)
    post = ", ".join(f"({i}, NULL)" if hexed == "NULL" else f"({i}, '\\x{hexed}')" for i, hexed in tuples)
    fields = ", ".join(f"t ->> '{field}'" for field in FIELDS)
    found = in_sqlite(f"CREATE TABLE log(id INTEGER, sheet BLOB); INSERT INTO log VALUES {lite}; {ROWS}"
                      + WINDOWS.format(fields))
    other = in_postgresql(f"CREATE TEMP TABLE log(id integer, sheet bytea); INSERT INTO log VALUES {post}; {ROWS}"
                          + WINDOWS.format(fields.replace("t ->>", "to_json(t) ->>")))
    assert (found.returncode, found.stderr) == (0, ""), found.stderr
    assert (other.returncode, other.stderr) == (0, ""), other.stderr
    assert found.stdout == other.stdout, tuples


def states_refused(source):
    states = [(state(source).hex(), state(source).hex()) for _ in range(BATCH)]
    found = in_postgresql("".join(
        f"SELECT hechroung_total_row(hechroung_total_combine('\\x{one}', hechroung_total_add('\\x{two}', NULL)));\n"
        for one, two in states) + "SELECT 'alive';\n")
    said = set(found.stderr.splitlines())
    assert found.returncode == 0 and said <= {"ERROR:  no state of hechroung_total"}, said
    assert found.stdout.endswith("alive\n"), found.stdout


def main(seconds, seed=1):
    source = random.Random(seed)
    until = time.monotonic() + seconds
    batches = 0
    while batches < 2 or time.monotonic() < until:
        rows_agree(source)
        states_refused(source)
        batches += 1
    print(f"databases: {batches * BATCH} sheets and {batches * BATCH} pairs of states, nothing found")


if __name__ == "__main__":
    main(*map(int, sys.argv[1:]))
