"""The declarations of _library, the numbers of limits, the codes and the sentences, held against include/."""

import re
from pathlib import Path

from hechroung import _library, codes, errors, limits
from hechroung.version import VERSION
from hechroung._fields import f64, i64, i64s, octets, size, sizes, u8, u32s, u64, u64s

INCLUDE = Path(__file__).resolve().parents[2] / "include"
HEADER, RAW = (Path(INCLUDE, name).read_text(encoding="utf-8") for name in ("hechroung.h", "hechroung_raw.h"))
FIELDS = {
    "uint8_t": u8, "uint64_t": u64, "int64_t": i64, "size_t": size, "double": f64, "uint8_t *": octets,
    "uint32_t *": u32s, "uint64_t *": u64s, "int64_t *": i64s, "size_t *": sizes,
}


def declared() -> dict[str, tuple]:
    """Of each extern function what it answers and the types of its parameters."""
    found = re.findall(r"^extern (\w+) (\w+)\(([^)]*)\);", RAW, re.MULTILINE)
    return {name: (FIELDS[answer], tuple(map(field, parameters.split(",")))) for answer, name, parameters in found}


def field(parameter: str):
    kind, pointer = re.fullmatch(r"\s*(?:const )?(\w+) (\*?)\w+", parameter).groups()
    return FIELDS[f"{kind} *" if pointer else kind]


def test_functions():
    exported = [found for found in vars(_library).values() if hasattr(found, "fields")]
    ours = {function.__name__: (function.answer, function.fields) for function in exported}
    assert ours == declared()
    assert len(ours) == len(re.findall(r"^extern [^;]*\bhechroung_\w+\(", RAW, re.MULTILINE))
    assert "extern uint8_t" not in HEADER


def test_numbers():
    """Those that both name, under the header's names."""
    theirs = {name: int(value) for name, value in re.findall(r"^#define HECHROUNG_(\w+) (\d+)$", HEADER, re.MULTILINE)}
    ours = {name: value for name, value in vars(limits).items() if name in theirs}
    ours |= {"ABI": _library.LAYOUT, "MISUSED": errors.MISUSED}
    ours |= {f"VERSION_{part}": int(n) for part, n in zip(("MAJOR", "MINOR", "PATCH"), VERSION.split("."))}
    assert ours == {name: value for name, value in theirs.items() if name != "LONGEST_TEXT"}


def test_codes():
    """Those of steps and those of ends: the same names and numbers, no more and no fewer."""
    found = re.findall(r"^ +HECHROUNG_(?:STEP|ENDS)_(\w+) = (\d+)", HEADER + RAW, re.MULTILINE)
    theirs = {name: int(code) for name, code in found if name != "RECORD"}
    assert theirs == {name: code for name, code in vars(codes).items() if name.isupper()}


def test_sentences():
    """Word for word; strings that stand after one another are one, as in C."""
    block = HEADER.partition("sentences[] = {\n")[2].partition("};")[0]
    sentences = ["".join(re.findall(r'"(.*)"', string)) for string in re.split(r",$", block, flags=re.MULTILINE)]
    assert sentences == ["Accepted.", *(errors.REFUSALS[number].sentence for number in range(1, 18)), ""]
