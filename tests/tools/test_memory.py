"""Tests of the memory that the readers of listings take."""

import subprocess
import sys

from .support import TOOLS, ToolCase

MEGABYTE = 1 << 20
CONNECTS = ("C connect version=0 zxid=0 timeout=30000 session=0 passwd=# ro=-\n"
            "S connect version=0 timeout=30000 session=72057594037927937 passwd=# ro=-\n")


# Runs a command, and prints its status and its greatest memory. It is small itself, since its own memory counts.
MEASURE = """import os, sys
child = os.fork()
if not child:
    os.execv(sys.argv[1], sys.argv[1:])
_, status, used = os.wait4(child, 0)
print(status, used.ru_maxrss * 1024, file=sys.stderr)
"""


class Memory(ToolCase):
    def most_of(self, tool, path):
        """The greatest memory of a tool over this listing, in bytes, and the number of bytes that it wrote."""
        with open(self.folder / "out", "wb") as out:
            done = subprocess.run([sys.executable, "-S", "-c", MEASURE, sys.executable, TOOLS / tool, path], stdout=out,
                                  stderr=subprocess.PIPE, check=False)
        status, most = map(int, done.stderr.split())
        self.assertEqual(status, 0)
        return most, (self.folder / "out").stat().st_size

    def listing(self, *parts):
        """A listing of these parts, each a text and how often it is repeated."""
        path = self.folder / "listing"
        with open(path, "w", encoding="ascii") as out:
            out.write(CONNECTS)
            for part, times in parts:
                for _ in range(times):
                    out.write(part)
        return path

    def long_path(self):
        """A listing with a path of sixteen megabytes, all of it escapes."""
        return self.listing(('C 1 exists path="/', 1), ("\\c3\\a9" * 8192, 1024), ('" watch=1\n', 1),
                            ("S 1 exists zxid=5 err=-101/NONODE\n", 1))

    def many_names(self):
        """A listing with a list of 100,000 names, not all of which JSON spells as the line does."""
        return self.listing(('C 1 getChildren path="/" watch=0\nS 1 getChildren zxid=5 names=["\\5c"', 1),
                            (',"abc"' * 1000, 100), ("]\n", 1))

    def test_zkstat_and_a_long_path(self):
        self.assertLess(self.most_of("zkstat.py", self.long_path())[0], 128 * MEGABYTE)

    def test_zkjson_and_a_long_path(self):
        most, size = self.most_of("zkjson.py", self.long_path())
        self.assertLess(most, 128 * MEGABYTE)
        self.assertGreater(size, 32 * MEGABYTE)     # as the request's path, and as what its reply was asked for

    def test_zkstat_and_many_names(self):
        self.assertLess(self.most_of("zkstat.py", self.many_names())[0], 32 * MEGABYTE)

    def test_zkjson_and_many_names(self):
        self.assertLess(self.most_of("zkjson.py", self.many_names())[0], 32 * MEGABYTE)
