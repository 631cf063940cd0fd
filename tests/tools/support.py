"""What the tests of the tools share."""

import importlib
import io
import os
import pathlib
import signal
import subprocess
import sys
import tempfile
import unittest
import unittest.mock

from tools.zkdump_tools import zkr

TOP = pathlib.Path(__file__).resolve().parents[2]
TOOLS = TOP / "tools"
CAPTURES = sorted((TOP / "captures").glob("*.zkr"))
PROGRAM = TOP / "crates" / "zkdump" / "out" / "zkdump"



def run_main(tool, words, stdin=b""):
    """Runs a tool within this process: its status, and the bytes on standard output and standard error."""
    main = importlib.import_module(f"tools.zkdump_tools.{tool.removesuffix('.py')}").main
    out, err = io.BytesIO(), io.BytesIO()
    streams = [io.TextIOWrapper(each, "utf-8") for each in (io.BufferedReader(io.BytesIO(stdin)), out, err)]
    with unittest.mock.patch.multiple("sys", argv=[tool, *map(str, words)], stdin=streams[0], stdout=streams[1],
                                      stderr=streams[2]):
        try:
            status = zkr.tool(main)
        except SystemExit as ended:
            status = ended.code
    for stream in streams[1:]:
        stream.flush()
    return status, out.getvalue(), err.getvalue()


class ToolCase(unittest.TestCase):
    """A test with a temporary folder of its own, `folder`. It fails after a minute."""

    def setUp(self):
        signal.signal(signal.SIGALRM, self.took_too_long)
        signal.alarm(60)
        self.addCleanup(signal.alarm, 0)
        folder = tempfile.TemporaryDirectory()
        self.addCleanup(folder.cleanup)
        self.folder = pathlib.Path(folder.name)

    def took_too_long(self, *_):
        raise AssertionError("this test took a minute")      # not an OSError, which a tool would report

    def run_raw(self, tool, *words, stdin=b"", seconds=60):
        """Runs a tool of this folder to its end."""
        return subprocess.run([sys.executable, TOOLS / tool, *map(str, words)], input=stdin, capture_output=True,
                              timeout=seconds, check=False)

    def run_tool(self, tool, *words, stdin=b"", seconds=60):
        """Runs a tool of this folder to its end: its status, standard output and standard error."""
        done = self.run_raw(tool, *words, stdin=stdin, seconds=seconds)
        return done.returncode, done.stdout.decode(), done.stderr.decode()

    def run_inside(self, tool, *words, stdin=b"", seconds=60):
        """Runs a tool as run_tool does, but within this process, which takes less time."""
        status, out, err = run_main(tool, words, stdin)
        return status or 0, out.decode(), err.decode()

    def assert_bad_words(self, tool, *words):
        """That these arguments are refused with one line on standard error and status 2, and nothing else is
        printed."""
        status, out, err = self.run_tool(tool, *words)
        self.assertEqual((status, out, err.count("\n")), (2, "", 1), (words, err))

    def show(self, recording):
        """The listing of a recording, by the proved program. The test is skipped where that isn't built."""
        if not PROGRAM.exists():
            self.skipTest("the program zkdump is not built")
        return subprocess.run([PROGRAM, "show"], input=recording, capture_output=True, check=False).stdout.decode()


class WayCase(ToolCase):
    """A test of what is read by the lines of zkdump, or, in a class that is a ColumnsCase, too, by zkcolumns."""

    program = ""

    def setUp(self):
        super().setUp()
        way = unittest.mock.patch.dict(os.environ, ZKCOLUMNS=str(self.program))
        way.start()
        self.addCleanup(way.stop)


def receive(end, size):
    """The next `size` bytes from a socket, fewer where it ends before."""
    data = b""
    while len(data) < size and (part := end.recv(size - len(data))):
        data += part
    return data


def pieces(recording):
    """The pieces of a recording, given as bytes."""
    return list(zkr.Reader(io.BytesIO(recording)))


def sides(recording):
    """All bytes of the client and all of the server."""
    found = pieces(recording)
    return tuple(b"".join(piece.data for piece in found if piece.side == side) for side in (zkr.CLIENT, zkr.SERVER))
