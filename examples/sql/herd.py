"""A herd's log: 10,000 attachments of milking robots, each with a sheet, as a table for a database or added up here.

usage: herd.py sqlite | postgresql   statements that make the table herd(attachment, robot, sheet)
       herd.py python                the totals, by the library and whole numbers of any size

Most sheets have one variable, the time of the milking, some a second one, the vacuum. Robots with four teat meters have
five variables: their integrals have no exact part. Of some attachments the record is cut off, of some there is none.
docs/SQL.md says what is asked of it."""

import struct
import sys
from pathlib import Path

ATTACHMENTS, ROBOTS = 10_000, 8
UNIT = 1 << 20
DENOMINATOR = 212_837_625
# Minutes from the middle of a milking to its end, where the first variable is 1.
HALF_TIME = 3
COLUMNS = "accepted refused nulls without_exact q r integral_low integral_high".split()


def written(n, radius, terms):
    """A sheet of order 4 whose integral is the milk of one attachment: the flow times the minutes, and the mean over
    the other variables, each of which is 2 long. docs/SHEETS.md has the bytes."""
    form, mark = ("<Hi", b"MK") if n <= 4 else ("<Ii", b"MW")
    model = struct.pack("<IB", radius, len(terms)) + b"".join(struct.pack(form, *term) for term in sorted(terms))
    steps = [(0, 0, 0, 0, 0), (1, 0, 0, 0, HALF_TIME * UNIT >> n - 1), (6, 0, 1, 0, 0)]
    packed = b"".join(struct.pack("<BBBBi", *step) for step in steps)
    return model + packed + struct.pack("<BBBBH", n, 4, 1, len(steps), len(model)) + mark


def flow(k):
    """Litres a minute by powers of the time, in units, each attachment a little different."""
    values = [2900 + 7 * k % 611, -650 + 13 * k % 301, -2000 - 11 * k % 407, 310 + 5 * k % 97, -40 - 3 * k % 53]
    return [round(UNIT * value / 1000) for value in values]


def sheet(k):
    """The sheet of attachment k, or None."""
    powers = list(enumerate(flow(k)))
    if k % 131 == 130:
        return None
    if k % 11 == 10:
        # Four meters with a quarter of the flow each, which differ by a variable of their own.
        shares = [(0x1000_0000 >> 4 * meter, UNIT // 64 + k % 13) for meter in range(1, 5)]
        return written(5, 4, [(power << 28, c) for power, c in powers] + shares)
    if k % 7 == 6:
        return written(2, 2, [(power << 12, c) for power, c in powers] + [(0x0100, -UNIT // 50), (0x0200, k % 1000)])
    whole = written(1, 2, [(power << 12, c) for power, c in powers])
    return whole[:-1 - k % 40] if k % 97 == 96 else whole


def rows():
    return ((k, k % ROBOTS, sheet(k)) for k in range(ATTACHMENTS))


def print_sqlite():
    print("BEGIN; CREATE TABLE herd(attachment INTEGER PRIMARY KEY, robot INTEGER, sheet BLOB);")
    for k, robot, given in rows():
        value = "NULL" if given is None else f"x'{given.hex()}'"
        print(f"INSERT INTO herd VALUES({k}, {robot}, {value});")
    print("COMMIT;")


def print_postgresql():
    print("CREATE TABLE herd(attachment integer PRIMARY KEY, robot integer, sheet bytea);\nCOPY herd FROM STDIN;")
    for k, robot, given in rows():
        print(k, robot, "\\N" if given is None else f"\\\\x{given.hex()}", sep="\t")
    # The table is too small for the server to share out by itself; a log of 8 MB is not.
    print("\\.\nALTER TABLE herd SET (parallel_workers = 2);\nANALYZE herd;")


def print_python():
    sys.path.insert(0, str(Path(__file__).resolve().parent.parent.parent / "python"))
    from hechroung import Refused, run

    totals = dict.fromkeys(COLUMNS, 0)
    for _, _, given in rows():
        if given is None:
            totals["nulls"] += 1
            continue
        try:
            summary = run(given)
        except Refused:
            totals["refused"] += 1
            continue
        totals["accepted"] += 1
        totals["integral_low"] += summary.integral[0]
        totals["integral_high"] += summary.integral[1]
        if summary.model.n > 4:
            totals["without_exact"] += 1
            continue
        totals["q"] += summary.exact.quotient
        totals["r"] += summary.exact.remainder
    carried, totals["r"] = divmod(totals["r"], DENOMINATOR)
    totals["q"] += carried
    print(*COLUMNS, sep="|")
    print(*totals.values(), sep="|")


if __name__ == "__main__":
    {"sqlite": print_sqlite, "postgresql": print_postgresql, "python": print_python}[sys.argv[1]]()
