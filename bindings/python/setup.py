"""Puts the shared library into the wheel, and gives the wheel the tag of the platforms on which the library runs.

MORTARPINK_LIB_DIR is the folder of `libmortarpink.so`. The same files make the same wheel, byte for byte.
"""

from __future__ import annotations

import os
import re
import sysconfig
from pathlib import Path

from setuptools import Distribution, setup
from setuptools.command.build_py import build_py

try:
    from setuptools.command.bdist_wheel import bdist_wheel
except ImportError:  # before setuptools 70.1
    from wheel.bdist_wheel import bdist_wheel

LIBRARY = "libmortarpink.so"

# The oldest version of glibc that a tag can name.
OLDEST = (2, 5)

# The time of all files in the wheel: the start of 2026.
os.environ.setdefault("SOURCE_DATE_EPOCH", "1767225600")


def library() -> Path:
    """Returns the path of the shared library."""
    folder = os.environ.get("MORTARPINK_LIB_DIR")
    if not folder or not Path(folder, LIBRARY).exists():
        raise SystemExit(f"mortarpink: set MORTARPINK_LIB_DIR to the absolute path of the folder of {LIBRARY}")
    return Path(folder, LIBRARY)


def platform_tag() -> str:
    """Returns the tag of the platforms that have the versions of glibc whose symbols the library needs."""
    platform = re.sub(r"\W", "_", sysconfig.get_platform())
    versions = re.findall(rb"\0GLIBC_(\d+)\.(\d+)", library().read_bytes())
    major, minor = max([OLDEST, *((int(major), int(minor)) for major, minor in versions)])
    return platform.replace("linux", f"manylinux_{major}_{minor}", 1)


class BinaryDistribution(Distribution):
    """A distribution with machine code."""

    def has_ext_modules(self) -> bool:
        return True


class BuildPackage(build_py):
    """Builds the package with the library in it. An editable installation has the library beside the sources."""

    def run(self) -> None:
        super().run()
        self.copy_file(str(library()), str(self._place()))

    def get_outputs(self, include_bytecode: bool = True) -> list[str]:
        return [*super().get_outputs(include_bytecode), str(self._place())]

    def _place(self) -> Path:
        return Path("." if self.editable_mode else self.build_lib, "mortarpink", LIBRARY)


class Wheel(bdist_wheel):
    """A wheel for every Python 3, since the package has no extension module."""

    def get_tag(self) -> tuple[str, str, str]:
        return "py3", "none", platform_tag()


setup(distclass=BinaryDistribution, cmdclass={"build_py": BuildPackage, "bdist_wheel": Wheel})
