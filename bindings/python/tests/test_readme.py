"""Runs the examples of the README and of the documentation in the code."""

import doctest
import os
import re
import tempfile
import unittest
from pathlib import Path

from mortarpink import _bitmap, _store

README = Path(__file__).parent.parent / "README.md"


class Examples(unittest.TestCase):
    def run_example(self, test):
        output = []
        result = doctest.DocTestRunner().run(test, out=output.append)
        self.assertGreater(result.attempted, 0)
        self.assertEqual(result.failed, 0, "".join(output))

    def test_readme(self):
        text = re.sub("^```.*$", "", README.read_text(encoding="utf-8"), flags=re.MULTILINE)
        self.run_example(doctest.DocTestParser().get_doctest(text, {}, "README", str(README), 0))

    def test_documentation(self):
        folder, before = tempfile.TemporaryDirectory(), os.getcwd()
        self.addCleanup(folder.cleanup)
        self.addCleanup(os.chdir, before)
        os.chdir(folder.name)
        for module in _bitmap, _store:
            tests = [test for test in doctest.DocTestFinder(exclude_empty=True).find(module) if test.examples]
            self.assertGreater(len(tests), 0)
            for test in tests:
                self.run_example(test)
