"""The wheel and the source distribution, which setuptools builds."""

import base64
import hashlib
import os
import shutil
import subprocess
import sys
import tempfile
import unittest
import zipfile
from email.parser import Parser
from pathlib import Path

import mortarpink

SOURCE = Path(__file__).parent.parent
IGNORED = shutil.ignore_patterns("build", "dist", "*.egg-info", "*.so", "__pycache__")

# Whether a Python has what pyproject.toml requires for a build. tools/check_bindings.py says so if none has it.
NEEDS = "import setuptools.build_meta, wheel"

# A library that needs two versions of glibc.
LIBRARY = b"a library\0GLIBC_2.2.5\0GLIBC_2.14\0GLIBC_2.4\0"


def builder():
    """Returns a Python that has setuptools and wheel, or None: the one of the tests, or that of the system."""
    pythons = filter(None, (sys.executable, shutil.which("python3", path=os.defpath)))
    return next((each for each in pythons if subprocess.run([each, "-c", NEEDS], capture_output=True).returncode == 0), None)


BUILDER = builder()


@unittest.skipUnless(BUILDER, "no Python with setuptools and wheel is found")
class Distributions(unittest.TestCase):
    name = f"mortarpink-{mortarpink.__version__}"

    def setUp(self):
        folder = tempfile.TemporaryDirectory()
        self.addCleanup(folder.cleanup)
        self.folder = Path(folder.name)
        (self.folder / "lib").mkdir()
        (self.folder / "lib/libmortarpink.so").write_bytes(LIBRARY)

    def run_hook(self, call, source=SOURCE, library="lib"):
        """Calls a hook of setuptools on a copy of the sources, as pip does. Returns the path of what it makes, or its errors."""
        copy = self.folder / f"copy{len(list(self.folder.iterdir()))}"
        shutil.copytree(source, copy, ignore=IGNORED)
        script = f"from setuptools import build_meta\nname = build_meta.{call}('made')\nprint(f'made {{name}}')"
        environment = {**os.environ, "MORTARPINK_LIB_DIR": str(self.folder / library)}
        done = subprocess.run([BUILDER, "-c", script], capture_output=True, text=True, env=environment, cwd=copy)
        made = [line.removeprefix("made ") for line in done.stdout.splitlines() if line.startswith("made ")]
        return copy / "made" / made[0] if made else done.stderr

    def files(self, wheel):
        """Returns the files of a wheel."""
        with zipfile.ZipFile(wheel) as archive:
            return {name: archive.read(name) for name in archive.namelist()}

    def check_wheel(self, wheel):
        """Asserts that a wheel has the right name, tag, files and sums."""
        self.assertEqual(wheel.name, f"{self.name}-py3-none-manylinux_2_14_x86_64.whl")
        files, information = self.files(wheel), f"{self.name}.dist-info"
        lines = files[f"{information}/WHEEL"].decode().splitlines()
        self.assertIn("Tag: py3-none-manylinux_2_14_x86_64", lines)
        self.assertIn("Root-Is-Purelib: false", lines)
        self.assertEqual(files["mortarpink/libmortarpink.so"], LIBRARY)
        self.assertEqual(files[f"{information}/LICENSE"], (SOURCE / "LICENSE").read_bytes())
        modules = {f"mortarpink/{path.name}" for path in (SOURCE / "mortarpink").glob("*.py")}
        package = {name for name in files if not name.startswith(information)}
        self.assertEqual(package, modules | {"mortarpink/py.typed", "mortarpink/libmortarpink.so"})
        for line in files[f"{information}/RECORD"].decode().splitlines():
            name, digest, size = line.split(",")
            if digest:
                found = base64.urlsafe_b64encode(hashlib.sha256(files[name]).digest()).decode().rstrip("=")
                self.assertEqual((digest, int(size)), (f"sha256={found}", len(files[name])))
        return files[f"{information}/METADATA"].decode()

    @unittest.skipUnless(os.uname().machine == "x86_64", "the tag is for another machine")
    def test_wheel(self):
        text = self.check_wheel(self.run_hook("build_wheel"))
        metadata = Parser().parsestr(text)
        self.assertEqual((metadata["Name"], metadata["Version"]), ("mortarpink", mortarpink.__version__))
        self.assertEqual((metadata["License"], metadata["Requires-Python"]), ("Apache-2.0", ">=3.10"))
        self.assertEqual(metadata.get_payload().strip(), (SOURCE / "README.md").read_text(encoding="utf-8").strip())

    @unittest.skipUnless(os.uname().machine == "x86_64", "the tag is for another machine")
    def test_source_distribution(self):
        made = self.run_hook("build_sdist", library="none")
        unpacked = self.folder / "unpacked"
        unpacked.mkdir()
        subprocess.run(["tar", "-xzf", made, "-C", unpacked], check=True)
        source = unpacked / self.name
        tests = {path.relative_to(source) for path in source.glob("tests/**/*.py")}
        self.assertEqual(tests, {path.relative_to(SOURCE) for path in SOURCE.glob("tests/**/*.py")})
        self.assertEqual(list(source.rglob("*.so")), [])
        self.check_wheel(self.run_hook("build_wheel", source))

    def test_the_same_files_make_the_same_wheel(self):
        first, second = self.run_hook("build_wheel"), self.run_hook("build_wheel")
        self.assertEqual(first.read_bytes(), second.read_bytes())

    def test_an_editable_installation_has_the_library_beside_the_sources(self):
        made = self.run_hook("build_editable")
        self.assertEqual((made.parent.parent / "mortarpink/libmortarpink.so").read_bytes(), LIBRARY)

    def test_no_library(self):
        wanted = "mortarpink: set MORTARPINK_LIB_DIR to the absolute path of the folder of libmortarpink.so\n"
        for folder in "none", ".":
            errors = self.run_hook("build_wheel", library=folder)
            self.assertTrue(errors.endswith(wanted), errors)
