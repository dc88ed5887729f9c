"""The log of the tests, and what the databases must answer.

usage: log.py hostile           sheets that are none, with what is expected of them
       log.py sqlite FILE       statements that fill the table log in SQLite
       log.py postgresql FILE   the same for PostgreSQL
       log.py answers FILE      the rows that hechroung_run must answer
       log.py totals FILE       the totals that hechroung_total must answer, added up here in whole numbers of any size

A line of FILE is as `compare --answers` prints it: the sheet in hex, the refusal, its place, the radius, the ends of
the range and of the integral, q and r."""

import sys

DENOMINATOR = 212_837_625
MB = 1 << 20
SAMPLE = bytes.fromhex("0200000100000000 0100000000000800 0400010000000000 0602020000000000 0102000400004D4B")
MARK = bytes.fromhex("4D4B")
NULLS = 7


def hostile():
    """Pairs of bytes and the refusal: all at place 0."""
    longest = 8792
    yield b"", 1
    yield from ((SAMPLE[:length], 1) for length in range(1, 16))
    yield from ((SAMPLE[:length], 2) for length in range(16, len(SAMPLE)))
    yield from ((fill * longest, 2) for fill in (b"\0", b"\xff"))
    yield bytes(longest - 2) + MARK, 3
    yield bytes(longest - 1) + MARK, 1
    for fill in (b"\0", b"\xff", SAMPLE):
        yield (fill * (10 * MB))[:10 * MB], 1
    yield bytes(10 * MB - 8) + SAMPLE[-8:], 1


def print_hostile():
    for sheet, refusal in hostile():
        print(sheet.hex(), refusal, 0, *["NULL"] * 7, sep="|")
    for _ in range(NULLS):
        print(*["NULL"] * 10, sep="|")


def rows(path):
    with open(path, encoding="ascii") as lines:
        for number, line in enumerate(lines, 1):
            sheet, *fields = line.rstrip("\n").split("|")
            yield number, sheet, fields


def print_sqlite(path):
    print("BEGIN; CREATE TABLE log(id INTEGER PRIMARY KEY, sheet BLOB);")
    for number, sheet, _ in rows(path):
        value = sheet if sheet == "NULL" else f"x'{sheet}'"
        print(f"INSERT INTO log VALUES({number}, {value});")
    print("COMMIT;")


def print_postgresql(path):
    print("CREATE TABLE log(id integer PRIMARY KEY, sheet bytea);\nCOPY log FROM STDIN;")
    for number, sheet, _ in rows(path):
        print(number, "\\N" if sheet == "NULL" else f"\\\\x{sheet}", sep="\t")
    print("\\.\nANALYZE log;")


def print_answers(path):
    for number, _, fields in rows(path):
        print(number, *fields, sep="|")


def print_totals(path):
    counts = {"accepted": 0, "refused": 0, "nulls": 0, "without_exact": 0}
    q = r = low = high = 0
    for _, _, fields in rows(path):
        refusal, _, _, _, _, integral_low, integral_high, quotient, remainder = fields
        counts["nulls" if refusal == "NULL" else "accepted" if refusal == "0" else "refused"] += 1
        if refusal != "0":
            continue
        low, high = low + int(integral_low), high + int(integral_high)
        if quotient == "NULL":
            counts["without_exact"] += 1
        else:
            q, r = q + int(quotient), r + int(remainder)
    print(*counts.values(), q + r // DENOMINATOR, r % DENOMINATOR, low, high, sep="|")


if __name__ == "__main__":
    word, *arguments = sys.argv[1:]
    globals()[f"print_{word}"](*arguments)
