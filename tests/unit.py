"""Runs the tests in a folder's files test_*.py, and counts them.

What can't run here is reported with its reason, as left_out.py says it. The last line is `N passed, M failed`; the
status is 1 if one failed or none was found, and 2 if no name has a word.
"""

import collections
import re
import sys
import unittest

from . import left_out


class Result(unittest.TextTestResult):
    """Counts tests that failed, each once, however many of its parts did."""

    def __init__(self, *words, **more):
        super().__init__(*words, **more)
        self.failed, self.passed = set(), 0

    def addSuccess(self, test):
        self.passed += 1
        super().addSuccess(test)

    def addFailure(self, test, err):
        self.failed.add(test.id())
        super().addFailure(test, err)

    def addError(self, test, err):
        self.failed.add(test.id())
        super().addError(test, err)

    def addUnexpectedSuccess(self, test):
        self.failed.add(test.id())
        super().addUnexpectedSuccess(test)

    def addSubTest(self, test, subtest, err):
        if err is not None:
            self.failed.add(test.id())
        super().addSubTest(test, subtest, err)


def names_of(tests):
    """The names of all tests of a suite, which forgets them as they run."""
    return [name for each in tests for name in (names_of(each) if isinstance(each, unittest.TestSuite) else [each.id()])]


def skipped(result, names):
    """How many tests were skipped, by their module and the reason. A class that is skipped as a whole is one entry."""
    found = collections.Counter()
    for test, reason in result.skipped:
        whole = re.fullmatch(r"setUpClass \((.*)\)", test.id())
        count = sum(name.startswith(f"{whole[1]}.") for name in names) if whole else 1
        module = (whole[1] if whole else test.id().rpartition(".")[0]).rpartition(".")[0]
        found[module, reason] += count
    return found


def main(folder, package):
    """Runs the tests of a folder of this package whose files have one of the words that the command has."""
    words, names = sys.argv[1:] or [""], [path.stem for path in sorted(folder.glob("test_*.py"))]
    for word in words:
        if not any(word in name for name in names):
            print(f"{package}: no file has this word: {word}", file=sys.stderr)
            return 2
    files = [name for name in names if any(word in name for word in words)]
    tests = unittest.TestSuite(unittest.defaultTestLoader.loadTestsFromName(f"{package}.{name}") for name in files)
    every = names_of(tests)
    result = unittest.TextTestRunner(stream=sys.stdout, resultclass=Result, verbosity=2).run(tests)
    for (name, reason), checks in skipped(result, every).items():
        left_out.say(name, reason, checks)
    print(f"{result.passed} passed, {len(result.failed)} failed")
    return 1 if result.failed or not result.testsRun else 0
