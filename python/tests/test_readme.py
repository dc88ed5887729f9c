"""The lines of code in python/README.md do what they say; everything public has a docstring and hints."""

import contextlib
import inspect
import io
import re
from pathlib import Path

import hechroung

README = Path(__file__).resolve().parents[1] / "README.md"


def test_the_first_lines():
    """The last line prints what stands after it."""
    blocks = re.findall(r"(?:^    .*\n|^\n)+", README.read_text(encoding="utf-8"), re.MULTILINE)
    code = next(block for block in blocks if "import" in block)
    said = io.StringIO()
    with contextlib.redirect_stdout(said):
        exec("\n".join(line[4:] for line in code.splitlines()), {})
    promised = code.rstrip().rpartition("# ")[2].partition(", rounded outward")[0]
    assert said.getvalue().strip() == promised


def public_parts():
    """Every public function and class, and every public method and property."""
    for name in hechroung.__all__:
        part = getattr(hechroung, name)
        if inspect.isfunction(part) or inspect.isclass(part):
            yield name, part
        for inner, value in vars(part).items() if inspect.isclass(part) else ():
            function = getattr(value, "fget", None) or getattr(value, "__func__", value)
            if inspect.isfunction(function) and not inner.startswith("_"):
                yield f"{name}.{inner}", function


def test_everything_public_says_what_it_is():
    parts = dict(public_parts())
    assert len(parts) > 60
    assert [name for name, part in parts.items() if not (part.__doc__ or "").strip()] == []
    functions = {name: inspect.signature(part) for name, part in parts.items() if inspect.isfunction(part)}
    assert [name for name, signature in functions.items() if signature.return_annotation is signature.empty] == []
    bare = [f"{name}: {parameter}" for name, signature in functions.items()
            for parameter in signature.parameters.values() if parameter.annotation is parameter.empty]
    assert [fault for fault in bare if not fault.endswith((": self", ": cls"))] == []
