"""Tests of what is beside a recording and is no file: a named pipe that nobody writes, or a device. No tool waits."""

import json
import os
import shutil

from .support import PROGRAM, TOP, ToolCase, pieces, zkr

RUN = TOP / "crates" / "zkdump" / "stdin"
SECONDS = 20
# Each tool that reads what is beside a recording, with words before and after the recording.
FACTS = (("zkstat.py", (), ()), ("zkstat.py", ("--jobs", 2), ()), ("zkjson.py", (), ()),
         ("zkjson.py", ("--jobs", 2), ()), ("zkreport.py", ("--text",), ()), ("zkreport.py", ("--text", "--jobs", 2), ()),
         ("zkskip.py", (), ("{out}.zkr",)), ("zkr2pcap.py", (), ("{out}.pcap",)))


class NoFile(ToolCase):
    def setUp(self):
        super().setUp()
        if not PROGRAM.exists():
            self.skipTest("the program zkdump is not built")
        self.recording, self.count = self.folder / "r.zkr", 0
        shutil.copyfile(RUN, self.recording)

    def run_over(self, tool, before, after):
        """A tool's run over the recording, which may not take long."""
        self.count += 1
        after = [str(each).format(out=self.folder / f"out{self.count}") for each in after]
        return self.run_tool(tool, *before, self.recording, *after, seconds=SECONDS)

    def test_facts(self):
        """The rest is as without facts, but for a line that says so."""
        usual = [self.run_over(*each) for each in FACTS]
        beside = self.folder / "r.facts.json"
        for kind, make in (("pipe", os.mkfifo), ("device", lambda path: os.symlink("/dev/zero", path))):
            make(beside)
            for (tool, *words), (status, out, err) in zip(FACTS, usual):
                with self.subTest(kind=kind, tool=tool, words=words):
                    told = f"{tool}: {beside} is not used: it is a {kind}, and no file\n"
                    self.assertEqual(self.run_over(tool, *words), (status, out, told + err))
            beside.unlink()

    def test_times(self):
        """They are refused, as times are that don't fit."""
        beside = self.folder / "r.zkr.times"
        for kind, make in (("pipe", os.mkfifo), ("device", lambda path: os.symlink("/dev/zero", path))):
            make(beside)
            told = f"{beside} is a {kind}, and what is beside a recording is read more than once: name a file"
            for tool, before, after in FACTS:
                with self.subTest(kind=kind, tool=tool, words=before):
                    status, out, err = self.run_over(tool, before, after)
                    self.assertEqual((status, told in out + err), (1, True), out + err)
            for tool in ("zkstat.py", "zkjson.py"):
                status, out, err = self.run_tool(tool, "--times", beside, self.recording, seconds=SECONDS)
                self.assertEqual((status, out, err), (1, "", f"{tool}: {told}\n"))
            beside.unlink()

    def test_one_of_many(self):
        """The others of a folder are read, and the one whose times can't be is a row."""
        shutil.copyfile(RUN, self.folder / "s.zkr")
        os.mkfifo(self.folder / "r.zkr.times")
        os.mkfifo(self.folder / "s.facts.json")
        status, out, err = self.run_tool("zkstat.py", "--json", "--jobs", 2, self.folder, seconds=SECONDS)
        self.assertEqual((status, err), (1, f"zkstat.py: {self.folder}/s.facts.json is not used: it is a pipe, and no "
                                            "file\n"))
        endings = {each["connection"]: each["ending"]["ending"] for each in json.loads(out)["connections"]}
        self.assertEqual(endings, {str(self.recording): "unread", str(self.folder / "s.zkr"): "whole"})

    def test_the_recording_of_a_listing(self):
        listing, pipe = self.folder / "r.show", self.folder / "p.zkr"
        listing.write_text(self.show(RUN.read_bytes()))
        os.mkfifo(pipe)
        for tool in ("zkstat.py", "zkjson.py"):
            status, out, err = self.run_tool(tool, "--recording", pipe, listing, seconds=SECONDS)
            self.assertEqual((status, out, err), (1, "", f"{tool}: {pipe} is a pipe, and a recording is read more than "
                                                         "once: name a file\n"))


class Decimals(ToolCase):
    def test_the_times_beside_a_recording_that_has_whole_milliseconds(self):
        """The four pieces of the stored run, at these times: the replies took 0.25 and 1.125 ms."""
        if not PROGRAM.exists():
            self.skipTest("the program zkdump is not built")
        path, moments = self.folder / "r.zkr", (1795332633000.5, 1795332633000.75, 1795332634000, 1795332634001.125)
        writer = zkr.Writer(path, zkr.Head("zkr2"), True)
        for (side, _, data), moment in zip(pieces(RUN.read_bytes()), moments):
            writer.piece(side, moment, data)
        writer.close()
        for beside, wanted in ((True, [0.25, 1.125]), (False, [0, 1])):
            out = self.run_inside("zkjson.py", path)[1]
            self.assertEqual([each["ms"] for each in map(json.loads, out.splitlines()) if "ms" in each], wanted)
            if beside:
                (self.folder / "r.zkr.times").unlink()
