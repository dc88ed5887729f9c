"""The command `hechroung`: sheets assembled, listed, run, drawn, held against readings, archived.

Exit status: 0 where everything is accepted, 1 where something is refused or a reading contradicts, 2 for a usage error,
a file that cannot be read or written, or a module that is missing.
"""

from __future__ import annotations

import argparse
import json
import os
import re
import sys
from collections.abc import Callable, Sequence
from fractions import Fraction
from pathlib import Path
from typing import Any

from . import bench, plot
from .archive import restore, store
from .errors import Refused
from .inputs import STANDARD_INPUT, Loaded, Unfit, content, decoded, load, shown_source
from .limits import MOST_TERMS, UNIT
from .models import Model
from .numbers import outward
from .report import Outcome, refused_sentence
from .text import AssembledSheet, MissingModule, TextError, listed_model, listed_variables, listing, number_of
from .version import VERSION

ACCEPTED, REFUSED, MISUSED = 0, 1, 2
MOST_SHOWN_DIGITS = 20
MOST_SHOWN_PROGRESS = 78
# The start of a terminal's line, with nothing after it.
CLEARED = "\r\033[K"
# The archive holds models of up to four variables.
MOST_ARCHIVED = 4

EXAMPLES = """\
examples:
  hechroung run bench.sheet                      a report: the result, its range, where each radius came from
  hechroung assemble bench.sheet -o bench.bin    the bytes of a sheet, from its text
  hechroung list bench.bin --variables f,t       the text of a sheet, from its bytes
  hechroung plot band bench.sheet --along f --at t=0.25 -o litres.png
  hechroung check meter.sheet readings.csv       which readings contradict the curve
  hechroung archive store meter.sheet -o meter.arc

A file that is missing, or -, is standard input. A sheet is text, bytes, or, in a file whose name ends in .hex, bytes in
hex. Exit status: 0 accepted; 1 something is refused, or a reading contradicts; 2 a usage error, a file that cannot be
read, a module that is missing. docs/GUIDE.md is a first hour, docs/SHEETS.md the text form.
"""


class Misuse(Exception):
    """A usage error that the parser cannot see; a sentence."""


# ---- what every command shares


def show_progress(words: str) -> None:
    """On a terminal a line that says how far a row of sheets is; the next one, or what is said, takes its place."""
    if sys.stderr.isatty():
        sys.stderr.write(f"{CLEARED}{words[:MOST_SHOWN_PROGRESS]}\r")
        sys.stderr.flush()


def say(source: str, sentence: str) -> None:
    """A sentence about an input, on standard error."""
    sys.stdout.flush()
    show_progress("")
    print(f"{source}: {sentence}", file=sys.stderr)


def say_notes(loaded: Loaded, arguments: argparse.Namespace) -> None:
    """What the assembler added, on standard error."""
    for note in () if arguments.quiet else loaded.notes:
        say(loaded.source, f"note: {note}")


def faulty(source: str, fault: Exception, loaded: Loaded | None = None) -> int:
    """Says why an input is refused, on standard error."""
    if isinstance(fault, TextError):
        say(f"{source}:{fault.line}:{fault.column}", f"{fault.sentence}\n{fault.pointed()}")
    elif isinstance(fault, Refused) and loaded is not None:
        say(source, refused_sentence(loaded, fault))
    else:
        say(source, str(fault))
    return REFUSED


def faulty_as_json(source: str, fault: Exception, loaded: Loaded | None = None) -> int:
    """The same as an object on standard output."""
    error: dict[str, Any] = {"sentence": str(fault)}
    if isinstance(fault, TextError):
        error = {"line": fault.line, "column": fault.column, "sentence": fault.sentence}
    print(json.dumps({"sheet": source, "accepted": False, "error": error}, ensure_ascii=False))
    return REFUSED


def each(paths: Sequence[str], work: Callable[[Loaded], int], refuse: Callable[..., int] = faulty) -> int:
    """Does the work for each sheet, goes on after one that is refused or not there, and answers the worst status."""
    worst = ACCEPTED
    for number, path in enumerate(paths or [STANDARD_INPUT], 1):
        if len(paths) > 1:
            show_progress(f"{number} of {len(paths)} sheets: {path}")
        loaded = None
        try:
            loaded = load(path)
        except OSError as fault:
            status = unreadable(fault)
        except (TextError, Unfit) as fault:
            status = refuse(shown_source(path), fault)
        worst = max(worst, status if loaded is None else done(loaded, work, refuse))
    show_progress("")
    return worst


def done(loaded: Loaded, work: Callable[[Loaded], int], refuse: Callable[..., int]) -> int:
    try:
        return work(loaded)
    except (Unfit, Refused) as fault:
        return refuse(loaded.source, fault, loaded)


def unreadable(fault: OSError) -> int:
    """Says what file cannot be read or written."""
    say("hechroung", f"{fault.filename or 'file'}: {fault.strerror}")
    return MISUSED


def one(path: str, work: Callable[[Loaded], int]) -> int:
    return each([path], work)


def ran(loaded: Loaded) -> Outcome:
    """A sheet that was run and accepted; a refusal is raised."""
    outcome = Outcome(loaded)
    if outcome.refusal is not None:
        raise outcome.refusal
    return outcome


def write_bytes(held: bytes, path: str | None) -> None:
    if path:
        Path(path).write_bytes(held)
    elif sys.stdout.isatty():
        raise Misuse("bytes are not written to a terminal; name a file with -o, or take --hex")
    else:
        sys.stdout.flush()
        sys.stdout.buffer.write(held)
        sys.stdout.buffer.flush()


def write_text(text: str, path: str | None) -> None:
    if path:
        Path(path).write_text(text, encoding="utf-8")
    else:
        sys.stdout.write(text)


def names_of(words: str) -> list[str]:
    return words.replace(",", " ").split()


def known(loaded: Loaded, name: str) -> str:
    """A variable of a sheet."""
    if name not in loaded.variables:
        raise Misuse(f"'{name}' is no variable; those of {loaded.source} are {', '.join(loaded.variables)}")
    return name


# ---- assemble and list


def do_assemble(arguments: argparse.Namespace) -> int:
    if len(arguments.files) > 1 and not arguments.directory:
        raise Misuse("several sheets are written into a folder; name it with --directory")
    if arguments.directory and arguments.output:
        raise Misuse("either --output or --directory says where to write")

    def work(loaded: Loaded) -> int:
        if not isinstance(loaded.sheet, AssembledSheet):
            raise Unfit("this is no text, but bytes; 'hechroung list' makes text of them")
        say_notes(loaded, arguments)
        target = arguments.output
        if arguments.directory:
            if loaded.source not in arguments.files:
                raise Misuse("a sheet from standard input has no name for a file in a folder; name the file with -o")
            suffix = ".hex" if arguments.hex else ".bin"
            target = str(Path(arguments.directory, Path(loaded.source).with_suffix(suffix).name))
        if arguments.hex:
            write_text(hex_text(loaded), target)
        else:
            write_bytes(loaded.sheet, target)
        return ACCEPTED

    return each(arguments.files, work)


def hex_text(loaded: Loaded) -> str:
    """The sheet in the .hex notation: a line for each record, with its name as a comment."""
    from .sheets import open_sheet

    names = [*(f"model {name}" for name in loaded.models), *(f"step {name}" for name in loaded.steps)]
    rows = [(record.data, name) for record, name in zip(open_sheet(loaded.sheet), names)]
    rows.append((loaded.sheet[-8:], "n, order, counts of models and steps, offset of the first step, mark"))
    return "".join(f"{held.hex(' ').upper()}   # {name}\n" for held, name in rows)


def do_list(arguments: argparse.Namespace) -> int:
    def work(loaded: Loaded) -> int:
        names = names_of(arguments.variables) or own_names(loaded)
        try:
            listed = listing(loaded.sheet, names, not arguments.plain)
        except ValueError as fault:
            raise Misuse(f"{loaded.source}: {fault}") from None
        sys.stdout.write(f"# {loaded.source}\n{listed}" if len(arguments.files) > 1 else listed)
        return ACCEPTED

    return each(arguments.files, work)


def own_names(loaded: Loaded) -> Sequence[str]:
    """The names of a text's variables, where none is one of the listing's for a model or step."""
    return () if any(re.fullmatch("[ms][0-9]+", name) for name in loaded.variables) else loaded.variables


# ---- run


def do_run(arguments: argparse.Namespace) -> int:
    reports: list[str] = []

    def work(loaded: Loaded) -> int:
        outcome = Outcome(loaded)
        if arguments.json:
            print(json.dumps(outcome.data(arguments.digits), ensure_ascii=False))
        else:
            say_notes(loaded, arguments)
            show_progress("")
            # A blank line parts the reports of several sheets.
            print("\n" * bool(reports) + outcome.text(arguments.digits), end="")
        reports.append(loaded.source)
        sys.stdout.flush()
        return ACCEPTED if outcome.refusal is None else REFUSED

    return each(arguments.files, work, faulty_as_json if arguments.json else faulty)


# ---- plot


def do_plot(arguments: argparse.Namespace) -> int:
    try:
        plot.tested_suffix(arguments.output)
    except ValueError as fault:
        raise Misuse(str(fault)) from None

    def work(loaded: Loaded) -> int:
        say_notes(loaded, arguments)
        data = plotted(arguments, ran(loaded))
        plot.save(data, arguments.output)
        if arguments.data:
            write_text(plot.stored(data), arguments.data)
        return ACCEPTED

    return one(arguments.file, work)


def plotted(arguments: argparse.Namespace, outcome: Outcome) -> dict[str, Any]:
    """The data of the picture that is asked for."""
    loaded = outcome.loaded
    if arguments.picture == "shares":
        if not any(sum(row) for _, row in outcome.rows):
            raise Unfit("every radius is 0, so that there are no shares to draw")
        return plot.shares_data(outcome)
    along = known(loaded, arguments.along or loaded.variables[0])
    if arguments.picture == "depths":
        return plot.depths_data(outcome, along, arguments.columns)
    return plot.band_data(outcome, along, fixed(loaded, along, arguments.at), arguments.columns)


def fixed(loaded: Loaded, along: str, given: Sequence[str]) -> dict[str, Fraction]:
    """The values of all variables but the one along which is drawn; 0 where none is given."""
    values = {name: Fraction(0) for name in loaded.variables if name != along}
    for words in given:
        name, equal, number = words.partition("=")
        if not equal:
            raise Misuse(f"'{words}' is no value; write --at {name}=0.25")
        if known(loaded, name) == along:
            raise Misuse(f"'{name}' is the variable along which the band is drawn, and has no value")
        try:
            values[name] = number_of(number)
        except ValueError as fault:
            raise Misuse(str(fault)) from None
        if abs(values[name]) > 1:
            raise Misuse(f"{words} leaves the box, -1 to 1")
    return values


# ---- check


def do_check(arguments: argparse.Namespace) -> int:
    if arguments.curve == arguments.readings == STANDARD_INPUT:
        raise Misuse("the curve and the readings cannot both be standard input")

    def work(loaded: Loaded) -> int:
        say_notes(loaded, arguments)
        model = ran(loaded).summary.model
        source = shown_source(arguments.readings)
        try:
            log = bench.read_log(decoded(content(arguments.readings)), loaded.variables)
        except Unfit as fault:
            return faulty(source, fault)
        found = list(bench.contradictions(model, log))
        (say_as_json if arguments.json else say_found)(loaded, source, log, found, arguments.digits)
        return REFUSED if found else ACCEPTED

    return one(arguments.curve, work)


def say_found(loaded: Loaded, source: str, log: Sequence[bench.LogReading], found: Sequence[bench.Contradiction],
              digits: int) -> None:
    print(f"{source}: {counted(len(log), 'reading')} held against '{loaded.result}' of {loaded.source}")
    for reading, ends in found:
        point = ", ".join(f"{name} = {shown_number(value)}" for name, value in zip(loaded.variables, reading.point))
        read = f"{shown_number(reading.low)} to {shown_number(reading.high)}"
        low, high = outward(*ends, digits)
        print(f"line {reading.line}: at {point} it read {read}, and the curve lies from {low:f} to {high:f}")
    if found:
        contradict = counted(len(found), "reading contradicts", "readings contradict")
        print(f"{contradict} the curve: no function within it passes through there")
    others = len(log) - len(found)
    if others:
        print(f"of {'the other ' if found else ''}{counted(others, 'reading')} none contradicts")


def say_as_json(loaded: Loaded, source: str, log: Sequence[bench.LogReading], found: Sequence[bench.Contradiction],
                digits: int) -> None:
    rows = [{"line": reading.line, "point": [shown_number(value) for value in reading.point],
             "read": [shown_number(reading.low), shown_number(reading.high)], "curve": list(ends),
             "decimals": [f"{end:f}" for end in ends.decimals(digits)]} for reading, ends in found]
    print(json.dumps({"readings": source, "sheet": loaded.source, "curve": loaded.result, "count": len(log),
                      "contradicting": rows}, ensure_ascii=False))


def counted(count: int, what: str, several: str = "") -> str:
    return f"{count} {what}" if count == 1 else f"{count} {several or what + 's'}"


def shown_number(value: Fraction) -> str:
    """A number exactly: as a decimal where it is one of few places, else as a fraction."""
    for digits in range(MOST_SHOWN_DIGITS + 1):
        if (value * 10 ** digits).denominator == 1:
            low, _ = outward(value * UNIT, value * UNIT, digits)
            return f"{low:f}"
    return str(value)


# ---- archive


def do_store(arguments: argparse.Namespace) -> int:
    def work(loaded: Loaded) -> int:
        say_notes(loaded, arguments)
        model = ran(loaded).summary.model
        if model.n > MOST_ARCHIVED:
            raise Unfit(f"'{loaded.result}' has {model.n} variables, and the archive takes 1 to {MOST_ARCHIVED}")
        write_bytes(store(model), arguments.output)
        return ACCEPTED

    return one(arguments.file, work)


def do_restore(arguments: argparse.Namespace) -> int:
    source, held = shown_source(arguments.file), content(arguments.file)
    try:
        whole = restore(held)
        model = restore(held, arguments.terms)
    except Refused as refusal:
        return faulty(source, refusal)
    left_out = sum(abs(c) for _, c in whole.terms) - sum(abs(c) for _, c in model.terms)
    if left_out and arguments.band:
        model = Model(model.n, model.radius + left_out, model.terms)
    elif left_out:
        terms, sizes = len(whole.terms) - len(model.terms), f"{outward(0, left_out, 6)[1]:f}"
        say(source, f"WARNING: {terms} of {len(whole.terms)} terms are left out, and their sizes, {sizes} in all, are "
                    "not in the radius: this is no band around the curve (--band adds them)")
    try:
        names = listed_variables(model.n, names_of(arguments.variables))
    except ValueError as fault:
        raise Misuse(f"{source}: {fault}") from None
    lines = [f"variables {' '.join(names)}", f"order {max(model.degree, 1)}", *listed_model("curve", model, names)]
    write_text("\n".join([*lines, "result = curve"]) + "\n", arguments.output)
    return ACCEPTED


# ---- the parser


def digits(word: str) -> int:
    number = int(word)
    if not 0 <= number <= MOST_SHOWN_DIGITS:
        raise argparse.ArgumentTypeError(f"digits are 0 to {MOST_SHOWN_DIGITS}, and not {word}")
    return number


def columns(word: str) -> int:
    try:
        return plot.tested_columns(int(word))
    except ValueError:
        most = plot.MOST_COLUMNS
        raise argparse.ArgumentTypeError(f"columns are a power of two up to {most}, and not {word}") from None


def terms(word: str) -> int:
    number = int(word)
    if not 0 <= number <= MOST_TERMS:
        raise argparse.ArgumentTypeError(f"terms are 0 to {MOST_TERMS}, and not {word}")
    return number


def parser() -> argparse.ArgumentParser:
    """The command line of `hechroung`."""
    made = argparse.ArgumentParser(
        prog="hechroung", description="Polynomial models with an error radius, proved: sheets assembled from text, "
        "listed, run, drawn, held against readings, archived.",
        epilog=EXAMPLES, formatter_class=argparse.RawDescriptionHelpFormatter)
    made.add_argument("--version", action="version", version=f"hechroung {VERSION}")
    commands = made.add_subparsers(metavar="COMMAND", required=True)
    for add in (add_assemble, add_list, add_run, add_plot, add_check, add_archive):
        add(commands)
    return made


def command(commands: Any, name: str, does: Callable[[argparse.Namespace], int] | None, about: str,
            *examples: str) -> argparse.ArgumentParser:
    shown = "\n".join(["examples:", *(f"  {example}" for example in examples)])
    made: argparse.ArgumentParser = commands.add_parser(
        name, help=about, description=about[0].upper() + about[1:] + ".", epilog=shown,
        formatter_class=argparse.RawDescriptionHelpFormatter)
    if does is not None:
        made.set_defaults(does=does)
    return made


def several_files(made: argparse.ArgumentParser) -> None:
    made.add_argument("files", nargs="*", metavar="SHEET",
                      help="sheets: text, bytes or .hex; standard input without any")


def one_file(made: argparse.ArgumentParser, metavar: str = "SHEET") -> None:
    made.add_argument("file", nargs="?", default=STANDARD_INPUT, metavar=metavar, help="a file, or standard input")


def variables_option(made: argparse.ArgumentParser) -> None:
    made.add_argument("--variables", default="", metavar="NAMES", help="names for the variables, as f,t")


def quiet_option(made: argparse.ArgumentParser) -> None:
    made.add_argument("-q", "--quiet", action="store_true", help="without notes on what the assembler added")


def digits_option(made: argparse.ArgumentParser) -> None:
    made.add_argument("--digits", type=digits, default=6, metavar="N", help="digits after the point (6)")


def add_assemble(commands: Any) -> None:
    made = command(commands, "assemble", do_assemble, "make the bytes of a sheet from its text",
                   "hechroung assemble bench.sheet -o bench.bin", "hechroung assemble --hex < bench.sheet",
                   "hechroung assemble --directory sheets *.sheet")
    several_files(made)
    made.add_argument("-o", "--output", metavar="FILE", help="where to write; else standard output")
    made.add_argument("--directory", metavar="FOLDER", help="write each sheet into a folder, as NAME.bin or NAME.hex")
    made.add_argument("--hex", action="store_true", help="write bytes in hex with comments")
    quiet_option(made)


def add_list(commands: Any) -> None:
    made = command(commands, "list", do_list, "write a sheet as text, from which the same bytes are assembled",
                   "hechroung list bench.bin", "hechroung list bench.bin --variables f,t")
    several_files(made)
    variables_option(made)
    made.add_argument("--plain", action="store_true", help="without comments")


def add_run(commands: Any) -> None:
    made = command(commands, "run", do_run, "run sheets and report the result and where each radius came from",
                   "hechroung run bench.sheet", "hechroung run --json bench.sheet | python3 -m json.tool",
                   "hechroung run sheets/*.bin")
    several_files(made)
    made.add_argument("--json", action="store_true", help="an object for each sheet, on a line of its own")
    digits_option(made)
    quiet_option(made)


def add_plot(commands: Any) -> None:
    made = command(commands, "plot", None, "draw the band of a result, the shares of radii, or ranges by depth",
                   "hechroung plot band bench.sheet --along f --at t=0.25 -o litres.png",
                   "hechroung plot shares bench.sheet -o shares.svg",
                   "hechroung plot depths bench.sheet --along f -o depths.svg --data depths.json")
    kinds = made.add_subparsers(metavar="band|shares|depths", required=True)
    band = picture(kinds, "band", "draw the result along one variable, by proved columns, and its half width",
                   "hechroung plot band bench.sheet --along f --at t=0.25 -o litres.png")
    axis_options(band)
    band.add_argument("--at", action="append", default=[], metavar="NAME=NUMBER",
                      help="the value of another variable (0); once for each")
    picture(kinds, "shares", "draw the radius of each step, and where it came from",
            "hechroung plot shares bench.sheet -o shares.svg")
    depths = picture(kinds, "depths", "draw the range of the result with one variable cut into 1 to 64 pieces",
                     "hechroung plot depths bench.sheet --along f -o depths.svg --data depths.json")
    axis_options(depths)


def picture(kinds: Any, name: str, about: str, example: str) -> argparse.ArgumentParser:
    """A kind of picture, with what all have."""
    made = command(kinds, name, do_plot, about, example)
    made.set_defaults(picture=name)
    one_file(made)
    made.add_argument("-o", "--output", required=True, metavar="FILE", help="the picture, .png or .svg")
    made.add_argument("--data", metavar="FILE", help="store what is drawn as JSON, in units")
    quiet_option(made)
    return made


def axis_options(made: argparse.ArgumentParser) -> None:
    made.add_argument("--along", metavar="NAME", help="the variable of the axis (the first)")
    made.add_argument("--columns", type=columns, default=128, metavar="N",
                      help="pieces of the axis, a power of two (128)")


def add_check(commands: Any) -> None:
    made = command(commands, "check", do_check, "hold readings against the curve that a sheet results in",
                   "hechroung check meter.sheet readings.csv", "hechroung check meter.sheet - < readings.csv")
    made.add_argument("curve", metavar="SHEET", help="the sheet whose result is the curve")
    made.add_argument("readings", metavar="READINGS",
                      help="a CSV file: a column for each variable, and low and high, or value and error")
    made.add_argument("--json", action="store_true", help="one object, the ends of the curve in units")
    digits_option(made)
    quiet_option(made)


def add_archive(commands: Any) -> None:
    made = command(commands, "archive", None, "store the result of a sheet in the archive's form, or restore one",
                   "hechroung archive store meter.sheet -o meter.arc", "hechroung archive restore meter.arc",
                   "hechroung archive restore meter.arc --terms 3 --band")
    kinds = made.add_subparsers(metavar="store|restore", required=True)
    stored = command(kinds, "store", do_store, "store the result of a sheet, of 1 to 4 variables, low degrees first",
                     "hechroung archive store meter.sheet -o meter.arc")
    one_file(stored)
    stored.add_argument("-o", "--output", metavar="FILE", help="where to write; else standard output")
    quiet_option(stored)
    restored = command(kinds, "restore", do_restore, "restore an archived model as the text of a sheet",
                       "hechroung archive restore meter.arc --variables f,t",
                       "hechroung archive restore meter.arc --terms 3 --band | hechroung run")
    one_file(restored, "ARCHIVED")
    restored.add_argument("-o", "--output", metavar="FILE", help="where to write; else standard output")
    restored.add_argument("--terms", type=terms, default=MOST_TERMS, metavar="N",
                          help="only the first terms, low degrees first; the others are not in the radius")
    restored.add_argument("--band", action="store_true", help="add the sizes of terms left out to the radius")
    variables_option(restored)


def main(words: Sequence[str] | None = None) -> int:
    """Runs the command; its exit status."""
    for stream in (sys.stdout, sys.stderr):
        if hasattr(stream, "reconfigure"):
            stream.reconfigure(encoding="utf-8")
    arguments = parser().parse_args(words)
    try:
        status: int = arguments.does(arguments)
        return status
    except (Misuse, MissingModule) as fault:
        say("hechroung", str(fault))
        return MISUSED
    except BrokenPipeError:
        # Whoever reads has seen enough; nothing is left to flush into the closed pipe.
        os.dup2(os.open(os.devnull, os.O_WRONLY), sys.stdout.fileno())
        return MISUSED
    except OSError as fault:
        return unreadable(fault)
