"""Tests of tests/unit.py, what it counts as passed and as failed, and of steps of ./test that are to run nothing."""

import shutil
import subprocess
import sys
import unittest

from tests.tools.support import TOP, ToolCase

TESTS = """
import unittest

class Some(unittest.TestCase):
    def test_good(self):
        pass
    def test_bad(self):
        for number in range(3):
            with self.subTest(number):
                self.assertEqual(number, 0)
    def test_left_out(self):
        self.skipTest("it is not here")
    @unittest.expectedFailure
    def test_better_than_expected(self):
        pass

class Broken(unittest.TestCase):
    @classmethod
    def setUpClass(cls):
        raise OSError("it fails")
    def test_one(self):
        pass

class Never(unittest.TestCase):
    @classmethod
    def setUpClass(cls):
        raise unittest.SkipTest("nothing is here")
    def test_one(self):
        pass
    def test_other(self):
        pass
"""


class Counts(ToolCase):
    def test_counts(self):
        (self.folder / "tests" / "tools").mkdir(parents=True)
        for name in ("tests/__init__.py", "tests/left_out.py", "tests/unit.py", "tests/tools/__main__.py"):
            shutil.copy(TOP / name, self.folder / name)
        (self.folder / "tests" / "tools" / "test_some.py").write_text(TESTS)
        done = subprocess.run([sys.executable, "-m", "tests.tools"], cwd=self.folder, capture_output=True, text=True,
                              check=False)
        self.assertEqual((done.returncode, done.stdout.splitlines()[-3:]),
                         (1, ["left out: 2 checks of tests.tools.test_some, since nothing is here",
                              "left out: 1 check of tests.tools.test_some, since it is not here", "1 passed, 3 failed"]))

    def test_words_that_nothing_has(self):
        program = ("--program", "/bin/true")
        for words in (("bench.costs", "chek"), ("bench.growth", *program, "--only", "chek"),
                      ("tests.program.failing_streams", *program, "--only", "chek"), ("tests.wireshark", "chek"),
                      ("bench.costs", "check", "chek"), ("tests.wireshark", "golden", "chek"),
                      ("tests.tools", "histogram", "chek")):
            with self.subTest(words):
                done = subprocess.run([sys.executable, "-m", *words], cwd=TOP, capture_output=True, text=True,
                                      check=False)
                self.assertEqual((done.returncode, done.stdout), (2, ""))
                self.assertRegex(done.stderr.splitlines()[-1], r": no \w+ has this word: chek$")


if __name__ == "__main__":
    unittest.main()
