"""How the library is found, and whether the header has the declarations of the package."""

import os
import re
import subprocess
import sys
import tempfile
import unittest
from pathlib import Path
from unittest import mock

from mortarpink import _interface, _library
from mortarpink._errors import BY_STATUS
from mortarpink._interface import DONE, NONE

PACKAGE = Path(_library.__file__).parent
HEADER = Path(__file__).parent.parent.parent / "c/mortarpink.h"

# The types of arguments in C.
TYPES = {
    "mortarpink_bitmap *": _interface.HANDLE,
    "const mortarpink_bitmap *": _interface.HANDLE,
    "const uint8_t *": _interface.BYTES,
    "const uint8_t [32]": _interface.BYTES,
    "const uint64_t *": _interface.NUMBERS,
    "uint8_t *": _interface.OUT_U8,
    "uint64_t *": _interface.OUT_U64,
    "size_t *": _interface.OUT_SIZE,
    "uint8_t ": _interface.U8,
    "uint32_t ": _interface.U32,
    "uint64_t ": _interface.U64,
    "size_t ": _interface.SIZE,
}


class Loading(unittest.TestCase):
    def setUp(self):
        folder = tempfile.TemporaryDirectory()
        self.addCleanup(folder.cleanup)
        self.folder = Path(folder.name).resolve()

    def imported(self, library, path="."):
        """Imports the package in a folder, with another one as MORTARPINK_LIB_DIR. Returns the last line of the errors."""
        environment = {**os.environ, "MORTARPINK_LIB_DIR": str(library), "PYTHONPATH": str(PACKAGE.parent)}
        done = subprocess.run([sys.executable, "-c", "import mortarpink"], capture_output=True, text=True, env=environment, cwd=path)
        return "".join(done.stderr.splitlines()[-1:])

    def path(self, found=None):
        """Returns the path of the library if the package is in the folder, and the system finds this one."""
        with mock.patch.dict(os.environ), mock.patch.object(_library, "__file__", str(self.folder / "_library.py")):
            os.environ.pop("MORTARPINK_LIB_DIR", None)
            with mock.patch("ctypes.util.find_library", return_value=found):
                return _library._path()

    def test_a_folder_without_the_library(self):
        self.assertRegex(self.imported(self.folder), "^ImportError: the library mortarpink cannot be loaded: .*libmortarpink.so")

    def test_a_file_that_is_no_library(self):
        (self.folder / "libmortarpink.so").write_bytes(b"text")
        self.assertRegex(self.imported(self.folder), "^ImportError: the library mortarpink cannot be loaded: ")

    @unittest.skipUnless(os.path.isabs(_library._path()), "the system finds the library")
    def test_a_relative_folder(self):
        (self.folder / "libmortarpink.so").symlink_to(_library._path())
        self.assertEqual(self.imported(".", self.folder), "")

    def test_the_library_of_the_package_comes_before_that_of_the_system(self):
        self.assertEqual(self.path("libmortarpink.so.0"), "libmortarpink.so.0")
        library = self.folder / "libmortarpink.so"
        library.touch()
        self.assertEqual(self.path("libmortarpink.so.0"), str(library))

    def test_no_library(self):
        with self.assertRaises(ImportError) as caught:
            self.path()
        self.assertEqual(str(caught.exception), "the library mortarpink is not found: set MORTARPINK_LIB_DIR to its folder")

    def test_another_version_of_the_interface(self):
        with mock.patch.object(_library, "VERSION", 3), self.assertRaises(ImportError) as caught:
            _library._load()
        self.assertEqual(str(caught.exception), "the library mortarpink has version 2 of its interface, not 3")


@unittest.skipUnless(HEADER.exists(), "the header is not beside the package")
class Header(unittest.TestCase):
    def setUp(self):
        self.text = re.sub(r"/\*.*?\*/", "", HEADER.read_text(encoding="utf-8"), flags=re.DOTALL)

    def test_functions(self):
        declared = {}
        for name, arguments in re.findall(r"^mortarpink_status mortarpink_(\w+)\(([^)]*)\);", self.text, re.MULTILINE):
            declared[name] = tuple(TYPES[re.sub(r"\w+(\[32\])?$", r"\1", argument.strip())] for argument in arguments.split(","))
        self.assertEqual(_interface.FUNCTIONS, declared)

    def test_statuses(self):
        declared = {int(number): name for name, number in re.findall(r"MORTARPINK_(\w+) = (\d+)", self.text)}
        self.assertEqual((declared.pop(DONE), declared.pop(NONE)), ("DONE", "NONE"))
        self.assertEqual((declared.pop(15), declared.pop(16)), ("EMPTY_HANDLE", "FULL_HANDLE"))
        names = {status: name.title().replace("_", "") + "Error" for status, name in declared.items()}
        self.assertEqual({**names, 15: "ClosedError"}, {status: error.__name__ for status, error in BY_STATUS.items()})

    def test_version(self):
        self.assertIn(f"#define MORTARPINK_VERSION {_interface.VERSION}\n", self.text)
