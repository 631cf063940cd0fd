"""Recordings that are packed with gzip: each tool says of them what it says of them unpacked."""

import gzip
import os
import re
import shutil
import tempfile
import unittest.mock

from tools.zkdump_tools import facts
from .support import CAPTURES, PROGRAM, ToolCase

NAME = "kazoo_basic"


class Packed(ToolCase):
    def setUp(self):
        super().setUp()
        if not PROGRAM.exists():
            self.skipTest("the program zkdump is missing")
        self.plain, self.packed, room = (self.folder / name for name in ("plain", "packed", "room"))
        for folder in (self.plain, self.packed, room):
            folder.mkdir()
        recording = self.plain / f"{NAME}.zkr"
        shutil.copy(next(path for path in CAPTURES if path.stem == NAME), recording)
        count, data, at = 0, recording.read_bytes(), 4
        while at < len(data):       # a piece's head has five bytes
            count, at = count + 1, at + 5 + int.from_bytes(data[at + 1:at + 5], "big")
        times = self.plain / f"{NAME}.zkr.times"
        times.write_text("".join(f"{1_795_332_633_000 + n}\n" for n in range(count)))
        facts.write(recording, facts.Facts(client="10.0.0.7:1", server="10.0.0.9:2181", closed="C"), times)
        for path in self.plain.iterdir():
            (self.packed / f"{path.name}.gz").write_bytes(gzip.compress(path.read_bytes()))
        self.room = room
        patched = unittest.mock.patch.object(tempfile, "tempdir", str(room))
        patched.start()
        self.addCleanup(patched.stop)

    def assert_same(self, tool, *words, run=None):
        """That a tool says the same of both, but for their names, and leaves nothing there."""
        found = [(run or self.run_inside)(tool, *(word.format(folder / name) for word in words))
                 for folder, name in ((self.plain, f"{NAME}.zkr"), (self.packed, f"{NAME}.zkr.gz"))]
        self.assertEqual([status for status, _, _ in found], [0, 0], found)
        self.assertEqual([re.findall(r"^\w+\.py: .*", err, re.M) for _, _, err in found], [[], []])
        self.assertEqual(found[1][1].replace(f"{self.packed}/{NAME}.zkr.gz", f"{self.plain}/{NAME}.zkr").split(),
                         found[0][1].split())
        self.assertEqual(os.listdir(self.room), [])
        return found[0][1]

    def test_zkstat(self):
        self.assertIn("86 of 86 replies timed", self.assert_same("zkstat.py", "{}"))
        self.assertIn("10.0.0.7", self.assert_same("zkstat.py", "--csv", "clients", "--clients", "{}"))

    def test_times_that_are_not_packed(self):
        for path in self.plain.glob("*.*s*"):
            if path.suffix != ".zkr":
                shutil.copy(path, self.packed)
                (self.packed / f"{path.name}.gz").unlink()
        self.assertIn("86 of 86 replies timed", self.assert_same("zkstat.py", "{}"))

    def test_zkjson(self):
        self.assert_same("zkjson.py", "{}")

    def test_zkreport(self):
        self.assertIn("client: ", self.assert_same("zkreport.py", "--text", "{}"))

    def test_zkfleet(self):
        self.assert_same("zkfleet.py", "check", "--all", "{}", "--jobs", "1", run=self.run_tool)

    def test_zkskip_and_zkr2pcap(self):
        for tool in ("zkskip.py", "zkr2pcap.py"):
            made = []
            for source in (self.plain / f"{NAME}.zkr", self.packed / f"{NAME}.zkr.gz"):
                target = self.folder / f"{len(made)}-{tool}"
                self.assertEqual(self.run_inside(tool, source, target)[0], 0)
                made.append(target.read_bytes())
            self.assertEqual(*made)
        self.assertEqual(os.listdir(self.room), [])

    def test_a_folder(self):
        """One that is there packed and unpacked counts once."""
        shutil.copy(self.plain / f"{NAME}.zkr", self.packed)
        for folder in (self.plain, self.packed):
            status, out, _ = self.run_inside("zkstat.py", folder)
            self.assertEqual(status, 0)
            self.assertRegex(out, r"(?m)^connect +1 +1 +0 ")

    def test_a_cut_one_and_what_is_no_recording(self):
        cut = self.folder / "cut.zkr.gz"
        cut.write_bytes((self.packed / f"{NAME}.zkr.gz").read_bytes()[:-100])
        status, out, err = self.run_inside("zkstat.py", cut)
        self.assertEqual((status, out), (1, ""))
        self.assertIn(f"{cut}: it can't be unpacked: ", err)
        cut.write_bytes(gzip.compress(b"no recording"))
        status, out, err = self.run_inside("zkstat.py", cut)
        self.assertEqual((status, out), (1, ""))
        self.assertIn("is a capture, or packed with gzip", err)
