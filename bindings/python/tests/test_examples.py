"""Runs the example programs, and compares what they print with the files beside them."""

import os
import subprocess
import sys
import unittest
from pathlib import Path

import mortarpink

PACKAGES = Path(mortarpink.__file__).parent.parent
EXAMPLES = Path(__file__).parent.parent / "examples"


class Examples(unittest.TestCase):
    def test_examples(self):
        programs = sorted(EXAMPLES.glob("*.py"))
        self.assertEqual([program.stem for program in programs], ["light_client", "replica", "scheduler", "window"])
        for program in programs:
            with self.subTest(program=program.name):
                environment = {**os.environ, "PYTHONPATH": str(PACKAGES)}
                ended = subprocess.run([sys.executable, "-W", "error", program], env=environment, capture_output=True, text=True)
                self.assertEqual((ended.returncode, ended.stderr), (0, ""))
                self.assertEqual(ended.stdout, program.with_suffix(".printed").read_text())


if __name__ == "__main__":
    unittest.main()
