"""Tests of the fixture in examples/pytest, with the client kazoo where it is there."""

import os
import subprocess
import sys

from .support import PROGRAM, TOP, ToolCase


class Fixture(ToolCase):
    def python(self, *modules):
        """A Python that has these modules."""
        for python in (sys.executable, "/usr/bin/python3"):
            if os.path.exists(python) and not subprocess.run([python, "-c", f"import {', '.join(modules)}"],
                                                             capture_output=True, check=False).returncode:
                return python
        return self.skipTest(f"there is no Python with {' and '.join(modules)} here")

    def run_pytest(self, python, **more):
        """The status of pytest, and what it prints."""
        done = subprocess.run([python, "-m", "pytest", "-q", "-rs", "-p", "no:cacheprovider",
                               TOP / "examples" / "pytest"],
                              capture_output=True, text=True, check=False,
                              env={**os.environ, "PYTHONDONTWRITEBYTECODE": "1", **more})
        return done.returncode, done.stdout

    def test_with_kazoo(self):
        python = self.python("pytest", "kazoo")
        if not PROGRAM.exists():
            self.skipTest("the program zkdump is not built")
        status, out = self.run_pytest(python)
        self.assertEqual(status, 0, out)
        self.assertIn("4 passed", out)

    def test_without_kazoo_a_line_says_so(self):
        python = self.python("pytest")
        (self.folder / "kazoo.py").write_text("raise ModuleNotFoundError('no kazoo')\n")
        status, out = self.run_pytest(python, PYTHONPATH=str(self.folder))
        self.assertIn(status, (0, 5), out)
        self.assertIn("left out: there is no kazoo here (Debian: python3-kazoo)", out)
