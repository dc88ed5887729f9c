"""Puts the proved library into the package, and names the wheel by the kind of machine that it is for.

The rest stands in pyproject.toml. The library is copied from the folder that HECHROUNG_LIB names, or else from
target/lib of the checkout (tools/library builds it), into what is built and never into the source.
"""

import atexit
import os
import re
import shutil
import sys
import tempfile
from pathlib import Path

from setuptools import Distribution, setup
from setuptools.command.build_py import build_py

try:
    from wheel.bdist_wheel import bdist_wheel
except ImportError:
    # A fresh venv has setuptools and no wheel. Debian's python3-wheel is pure Python and serves there too.
    sys.path.append("/usr/lib/python3/dist-packages")
    try:
        from wheel.bdist_wheel import bdist_wheel
    except ImportError:
        sys.exit("the module wheel is missing: install Debian's python3-wheel")

HERE = Path(__file__).resolve().parent
LAYOUT = re.search(r"^LAYOUT = (\d+)$", (HERE / "hechroung" / "_library.py").read_text(encoding="utf-8"), re.MULTILINE)
LIBRARY = f"libhechroung.so.{LAYOUT[1]}"
# The command's man page, where the checkout has it.
MANUAL = Path("..", "docs", "man", "hechroung.1")


def built_library():
    folder = Path(os.environ.get("HECHROUNG_LIB") or HERE.parent / "target" / "lib")
    if not (folder / LIBRARY).is_file():
        sys.exit(f"{LIBRARY} is not in {folder}: build it with tools/library, or set HECHROUNG_LIB to its folder")
    return folder / LIBRARY


class WithLibrary(build_py):
    """The modules, and the library beside them; an editable package finds it in the checkout."""

    def run(self):
        super().run()
        if not self.editable_mode:
            self.copy_file(str(built_library()), self._packed())

    def get_outputs(self, include_bytecode=True):
        packed = [] if self.editable_mode else [self._packed()]
        return [*super().get_outputs(include_bytecode), *packed]

    def _packed(self):
        return str(Path(self.build_lib) / "hechroung" / LIBRARY)


class OfThisMachine(Distribution):
    """The library is compiled, if not by setuptools: the wheel is for this kind of machine."""

    def has_ext_modules(self):
        return True


class ForAnyPython(bdist_wheel):
    """The library is no part of Python: the wheel is for any Python 3."""

    def get_tag(self):
        return "py3", "none", super().get_tag()[2]


# Built outside the source, and from nothing: a folder that is kept would bring modules that are gone.
room = tempfile.mkdtemp(prefix="hechroung-")
atexit.register(shutil.rmtree, room, ignore_errors=True)
setup(
    distclass=OfThisMachine,
    data_files=[("share/man/man1", [str(MANUAL)])] if (HERE / MANUAL).is_file() else [],
    cmdclass={"build_py": WithLibrary, "bdist_wheel": ForAnyPython},
    options={"build": {"build_base": room}, "egg_info": {"egg_base": room}},
)
