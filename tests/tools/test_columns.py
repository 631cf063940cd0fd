"""Recordings as columns: what the tools print of them is what they print of the lines of zkdump show."""

import contextlib
import functools
import io
import os
import re
import shutil
import signal
import subprocess
import sys
import tempfile
import unittest
import unittest.mock

from . import compared
from .support import CAPTURES, PROGRAM, TOOLS, TOP, ToolCase


from packaging import make_columns, make_library

SANITIZED = ("-O1", "-g", "-fsanitize=address,undefined", "-fno-sanitize-recover=all")
SLOWER = "Python's numpy is not installed"


def interpreter():
    """A Python that has numpy, or None."""
    for python in (sys.executable, "/usr/bin/python3"):
        if shutil.which(python) and subprocess.run([python, "-c", "import numpy"], capture_output=True,
                                                   check=False).returncode == 0:
            return python
    return None


@functools.lru_cache(maxsize=None)
def made():
    """zkcolumns, built with checks of its memory, in a folder that there is as long as this process."""
    folder = tempfile.TemporaryDirectory()
    library, _ = make_library.make(folder.name)
    return make_columns.make(folder.name, library, *SANITIZED), folder


class ColumnsCase(ToolCase):
    """A test that has zkcolumns, `program`, built with checks of its memory."""

    @classmethod
    def setUpClass(cls):
        lacking = make_library.missing()
        if lacking or not (make_library.LIBRARY.exists() and make_library.PLAIN.exists()):
            raise unittest.SkipTest(f"{', '.join(lacking) or 'the library libzk_c.a'} is missing")
        cls.program, _ = made()

    def columns(self, *words):
        """What the program writes."""
        return subprocess.run([self.program, *map(str, words)], capture_output=True, check=False)


class Same(ColumnsCase):
    def test_same_output(self):
        """Captures, values of each kind, and recordings that are changed by chance, with choices of messages."""
        python = interpreter()
        if not python or not PROGRAM.exists():
            self.skipTest("numpy or the program zkdump is missing")
        signal.alarm(600)
        done = subprocess.run([python, "-m", "tests.tools.compared", self.program, PROGRAM, self.folder, *CAPTURES],
                              cwd=TOP, capture_output=True, text=True, check=False)
        self.assertTrue(re.fullmatch(r"[1-9]\d* runs, 0 different\n", done.stdout),
                        done.stdout[:3000] + done.stderr[-2000:])


class Left(ToolCase):
    def test_what_is_left_to_the_lines_is_no_comparison(self):
        if not PROGRAM.exists():
            self.skipTest("the program zkdump is not built")
        program = self.folder / "zkcolumns"
        program.write_text("#!/bin/sh\nexit 4\n")
        program.chmod(0o700)
        with contextlib.redirect_stdout(io.StringIO()) as out, unittest.mock.patch.dict(os.environ):
            found = [compared.compare(str(program), CAPTURES[0], ((),), is_changed) for is_changed in (False, True)]
        self.assertEqual((found, out.getvalue()), ([(3, 1), (3, 0)], f"{CAPTURES[0]} is not read by {program}\n"))


class Program(ColumnsCase):
    def test_damaged_head(self):
        """The plain form reports it, so nothing is written."""
        numbers = b"\0\1\0\0" * 3
        for data in (b"", b"ZKR", b"ZKR3", b"ZKR2\0\0\0", b"ZKR2" + bytes(16), b"ZKR2" + numbers + b"\0\0\0\x21",
                     b"ZKR2" + numbers + b"\0\0\0\x24", b"ZKR2" + numbers + b"\0\0\0\x26"):
            path = self.folder / "head.zkr"
            path.write_bytes(data)
            done = self.columns(path)
            self.assertEqual((done.returncode, done.stdout, done.stderr.count(b"\n")), (4, b"", 1), data)
        for profile in (34, 35, 37):
            path.write_bytes(b"ZKR2" + numbers + bytes([0, 0, 0, profile]))
            self.assertEqual(self.columns(path).returncode, 0, profile)

    def test_times_that_do_not_fit(self):
        recording, times = self.folder / "a.zkr", self.folder / "a.zkr.times"
        recording.write_bytes(b"ZKR1" + b"C\0\0\0\1a" + b"S\0\0\0\1b")
        for text in ("1\n", "1\n2\n3\n", "1\nx\n", "1\n2.\n", "1\n\n", "1\n2.1234567890\n", f"1\n{'2' * 20}\n",
                     f"1\n{'2' * 99}\n", "1\n02\n"):
            times.write_text(text)
            done = self.columns("--times", times, recording)
            self.assertEqual((done.returncode, done.stdout), (4, b""), text)
        for text in ("1\n2\n", "1\n2", "1\r\n2\r\n", "1\r2", "1.5\n2.123456789", "0\n0.5\n"):
            times.write_bytes(text.encode())
            self.assertEqual(self.columns("--times", times, recording).returncode, 0, text)

    def test_words(self):
        for words in ((), ("--nothing", "a.zkr"), ("--limit", "1", CAPTURES[0])):
            self.assertEqual(self.columns(*words).returncode, 2, words)

    def test_compilers(self):
        """No compiler warns of it."""
        for compiler in filter(shutil.which, ("gcc", "clang")):
            for source in make_columns.SOURCES.glob("*.c"):
                done = subprocess.run([compiler, *make_columns.STRICT, "-Wshadow", f"-I{TOP / 'include'}",
                                       "-fsyntax-only", source],
                                      capture_output=True, text=True, check=False)
                self.assertEqual((done.returncode, done.stderr), (0, ""), (compiler, source))


class Missing(ToolCase):
    def test_line(self):
        """Of a large recording a line says what would make the tool faster; the output is the same."""
        if not PROGRAM.exists():
            self.skipTest("the program zkdump is not built")
        recording = self.folder / "large.zkr"
        recording.write_bytes(subprocess.run([PROGRAM, "build"], check=True, stdout=subprocess.PIPE, input="\n".join([
            'C connect version=0 zxid=0 timeout=30000 session=0 passwd=~ ro=-',
            'S connect version=0 timeout=30000 session=1 passwd=~ ro=-',
            *(f'C {n} setData path="/a" blob=#{"61" * 2_000_000} version=1' for n in range(1, 6))]).encode()).stdout)
        small = CAPTURES[0]
        for path, lines in ((recording, 1), (small, 0)):
            done = subprocess.run([sys.executable, TOOLS / "zkstat.py", path], capture_output=True, text=True,
                                  check=False,
                                  env={**os.environ, "ZKCOLUMNS": ""})
            self.assertEqual((done.returncode, done.stderr.count("\n")), (0, lines), done.stderr)
            if lines:
                self.assertIn("takes longer than it could, since zkcolumns is not built or installed", done.stderr)


if __name__ == "__main__":
    unittest.main()
