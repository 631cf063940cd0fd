"""Tests of the Python that runs a tool: one that has numpy, where the tool's own has none."""

import os
import shutil
import subprocess
import sys

from .support import PROGRAM, TOOLS, TOP, ToolCase

from packaging import debian, install

RUN = TOP / "crates" / "zkdump" / "stdin"
# In place of a Python: it has numpy or not, as its status says, and prints how it is begun.
OTHER = """#!/bin/sh
[ "$1" != -c ] || exit STATUS
for word in "$@"; do echo "$word"; done
"""


class Pythons(ToolCase):
    def setUp(self):
        super().setUp()
        self.small, self.large = self.folder / "small.zkr", self.folder / "large recording.zkr"
        shutil.copyfile(RUN, self.small)
        with open(self.large, "wb") as out:     # of 5 MB, whose last request has 4 MB of data
            size = 4_000_000
            payload = bytes.fromhex("00000002 00000005 00000002 2f61") + size.to_bytes(4, "big") + bytes(size + 4)
            frame = len(payload).to_bytes(4, "big") + payload
            piece = b"C" + len(frame).to_bytes(4, "big") + frame
            out.write(RUN.read_bytes() + piece + b"C" + (1_000_000).to_bytes(4, "big") + bytes(1_000_000))

    def run_without_numpy(self, tool, *words, status=0, columns="/bin/true", python="other"):
        """The lines that a tool prints, run by a Python that has only its own modules, where another one is there."""
        other = self.folder / "other"
        other.write_text(OTHER.replace("STATUS", str(status)))
        other.chmod(0o700)
        named = {"ZKPYTHON": python and str(other), "ZKCOLUMNS": columns}
        done = subprocess.run([sys.executable, "-S", TOOLS / tool, *map(str, words)], capture_output=True, text=True,
                              env={**os.environ, **named}, check=False)
        return done.stdout.splitlines()

    def test_a_large_recording_is_read_by_a_python_that_has_numpy(self):
        for tool, words in (("zkstat.py", ()), ("zkjson.py", ()), ("zkstat.py", ("--json", "--op", "exists"))):
            self.assertEqual(self.run_without_numpy(tool, *words, self.large),
                             [str(TOOLS / tool), *words, str(self.large)])

    def test_many_recordings_are(self):
        words = ("--jobs", "2", str(self.small))
        self.assertEqual(self.run_without_numpy("zkstat.py", *words), [str(TOOLS / "zkstat.py"), *words])

    def test_it_goes_on_in_its_own(self):
        """Where there is little to read, no other Python, none with numpy, or nothing that needs it."""
        if not PROGRAM.exists():
            self.skipTest("the program zkdump is not built")
        for path, more in ((self.small, {}), (self.large, {"python": ""}), (self.large, {"status": 1}),
                           (self.large, {"columns": ""})):
            with self.subTest(path=path, more=more):
                lines = self.run_without_numpy("zkstat.py", path, **more)
                self.assertTrue(lines and lines[0].startswith("operation "), lines)

    def test_debian(self):
        """Its packages name Debian's Python, and each tool stays what it was else."""
        tools = self.folder / "tools"
        tools.mkdir()
        for _, script in install.commands():
            shutil.copy(script, tools)
        debian.name_python(tools)
        for _, script in install.commands():
            first, *rest = (tools / script.name).read_text().splitlines()
            was, *others = script.read_text().splitlines()
            self.assertEqual((first, rest), (was.replace("exec python3", "exec /usr/bin/python3"), others))
            self.assertNotEqual(first, was)
        done = subprocess.run([tools / "zkr2pcap.py", "--help"], capture_output=True, check=False,
                              env={"PATH": "/bin", "PYTHONPATH": str(TOOLS)})
        self.assertEqual(done.returncode, 0, done.stderr)
