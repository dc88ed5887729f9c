"""The Python border: every public function of the package hechroung with arguments of any kind, for so many seconds.

usage: border.py SECONDS [SEED]

A call may answer, raise a refusal, or say that an argument is none of its kind. Anything else is a finding: another
exception is printed with the call and fails the run, and a crash of the interpreter ends it. What is answered has to be
right by another way too: a model turned twice is the same, an archive that is restored can be stored again."""

import ctypes
import inspect
import random
import sys
import time
from pathlib import Path

HERE = Path(__file__).resolve().parent
sys.path.insert(0, str(HERE.parent.parent / "python"))
import hechroung  # noqa: E402

ALLOWED = (hechroung.Refused, hechroung.Misused, ValueError, TypeError, AttributeError, ctypes.ArgumentError)
# An input of the header's target that begins with 0 is a sheet.
INPUTS = [path.read_bytes() for path in sorted((HERE / "corpus" / "header").iterdir())]
SHEETS = [data[1:] for data in INPUTS if data[:1] == b"\0"]
FUNCTIONS = [function for name, function in sorted(vars(hechroung).items())
             if name in hechroung.__all__ and inspect.isfunction(function)]


class Any:
    """Values of any kind, the kind that a parameter's name tells most of the time."""

    def __init__(self, seed):
        self.random = random.Random(seed)

    def whole(self):
        return self.random.choice([0, 1, 2, 3, 4, 5, 8, 15, 16, 64, 255, 256, -1, 1 << 20, -(1 << 20), 1 << 30, 1 << 31,
                                   1 << 32, (1 << 63) - 1, 1 << 63, (1 << 64) - 1, 1 << 64, -(1 << 63), -(1 << 63) - 1,
                                   *(self.random.getrandbits(bits) for bits in (8, 32, 80))])

    def small(self):
        return self.random.choice([0, 1, 1, 2, 2, 3, 4, 5, 8, 15])

    def float(self):
        return self.random.choice([0.0, -0.0, 0.1, 1.5, -2.25, 1e-7, 1e300, 5e-324, float("inf"), float("nan")])

    def bytes(self):
        sheet = bytearray(self.random.choice(SHEETS))
        for _ in range(self.random.choice([0, 0, 1, 3])):
            if sheet:
                sheet[self.random.randrange(len(sheet))] = self.random.getrandbits(8)
        return bytes(sheet[:self.random.choice([len(sheet), len(sheet), self.random.randint(0, len(sheet))])])

    def model(self):
        n = self.random.randint(1, 8)
        count = self.random.choice([0, 1, 2, 3, 7, 64, 65, 70])
        keys = sorted({self.random.getrandbits(8) << 4 * (8 - n) for _ in range(count)})
        terms = [(key, self.random.choice([self.random.getrandbits(16) - 32768, self.odd()])) for key in keys]
        return hechroung.Model(self.random.choice([n, n, n, self.odd()]), self.random.choice([0, 2, 99, self.odd()]),
                               self.random.choice([terms, terms, terms, [self.odd()]]))

    def curve(self):
        coefficients = [self.random.getrandbits(12) for _ in range(self.random.choice([0, 1, 3, 16, 17]))]
        return hechroung.Curve(coefficients, self.random.choice([0, 5, self.odd()]))

    def reading(self):
        point = [self.random.getrandbits(20) for _ in range(self.random.choice([0, 1, 2, 8, 9]))]
        return hechroung.Reading(self.random.choice([point, point, self.odd()]), self.whole(), self.whole())

    def step(self):
        return tuple(self.random.choice([self.small(), self.small(), self.odd()])
                     for _ in range(self.random.choice([5, 5, 5, 5, 4, 6])))

    def row(self, make):
        return [make() for _ in range(self.random.choice([0, 1, 2, 3, 5, 17, 70, 257]))]

    def odd(self):
        """What is of no kind in particular."""
        return self.random.choice([None, True, 0.5, "1", "", b"", [], (), {}, [1], (1, 2), object(), 1j, self.whole(),
                                   self.whole(), self.whole()])

    def named(self, function, parameter):
        if self.random.randrange(12) == 0:
            return self.odd()
        curves = "curve" in function or function == "to_powers"
        kinds = {"f": self.curve if curves else self.model, "g": self.curve if curves else self.model, "h": self.model,
                 "w": self.model, "sheet": self.bytes, "archived": self.bytes,
                 "point": lambda: self.row(self.whole)[:9], "rows": lambda: self.row(self.reading), "models": lambda: self.row(self.model)[:20],
                 "steps": lambda: self.row(self.step), "c0": self.float, "c1": self.float, "c2": self.float}
        if function == "from_doubles":
            return self.float()
        return kinds.get(parameter, self.random.choice([self.small, self.whole]))()


def called(function, arguments):
    """What a call gives, or None where it says no. An iterator is run to its end."""
    try:
        answer = function(**arguments)
        return list(answer) if inspect.isgenerator(answer) else answer
    except ALLOWED:
        return None


def held(function, arguments, answer):
    """Another way to the same answer."""
    if function.__name__ == "shares":
        assert hechroung.lines(arguments["sheet"]).startswith("radius ")
    if function.__name__ == "restore":
        again = hechroung.restore(hechroung.store(answer), 64)
        assert (again.n, again.radius, again.terms) == (answer.n, answer.radius, answer.terms)
    # `measured` makes a model of any numbers that fit their fields; the next call tests it
    if isinstance(answer, hechroung.Model) and function.__name__ != "measured":
        turned = hechroung.negate(hechroung.negate(answer))
        assert (turned.n, turned.radius, turned.terms) == (answer.n, answer.radius, answer.terms)


def main(seconds, seed=1):
    values = Any(seed)
    until = time.monotonic() + seconds
    calls = answers = 0
    while calls < 2000 or time.monotonic() < until:
        function = values.random.choice(FUNCTIONS)
        try:
            arguments = {name: values.named(function.__name__, name) for name in inspect.signature(function).parameters}
        except ALLOWED:
            # a model, a curve or a reading that takes no such number
            calls += 1
            continue
        try:
            answer = called(function, arguments)
            if answer is not None:
                held(function, arguments, answer)
        except BaseException:
            print(f"{function.__name__}{arguments}")
            raise
        calls, answers = calls + 1, answers + (answer is not None)
    print(f"border: {calls} calls of {len(FUNCTIONS)} functions, {answers} answered, nothing found")


if __name__ == "__main__":
    main(*map(int, sys.argv[1:]))
