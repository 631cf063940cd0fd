"""Many recordings at once: the same output for any number of workers, whatever happens to one."""

import argparse
import json
import os
import pathlib
import shutil
import signal
import subprocess
import sys
import time
import unittest
import unittest.mock

from .support import CAPTURES, PROGRAM, TOOLS, ToolCase

from . import compared, deadly
from tools.zkdump_tools import fleet

FEW = [path for path in CAPTURES if "watches" in path.name or "refused" in path.name or "auth" in path.name]
REFUSED = 4     # of these, by every profile
HERE = pathlib.Path(__file__).resolve().parent
TOOLS_WITH_WORDS = (("zkstat.py", "--json"), ("zkstat.py",), ("zkjson.py",), ("zkreport.py", "--text"))


def children(pid):
    """The processes below this one."""
    found = []
    for task in pathlib.Path(f"/proc/{pid}/task").glob("*/children"):
        for child in map(int, task.read_text().split()):
            found += [child, *children(child)]
    return found


class FleetCase(ToolCase):
    def setUp(self):
        super().setUp()
        signal.alarm(300)
        if not PROGRAM.exists():
            self.skipTest("the program zkdump is not built")
        self.names = []
        for number, path in enumerate(FEW):
            name = self.folder / "fleet" / f"{number % 3}" / path.name
            name.parent.mkdir(parents=True, exist_ok=True)
            shutil.copy(path, name)
            self.names.append(name)
        self.names.sort()
        self.fleet = self.folder / "fleet"

    def output(self, *words):
        """The status of a tool, its standard output and its standard error."""
        done = subprocess.run([sys.executable, TOOLS / words[0], *map(str, words[1:])], capture_output=True,
                              check=False,
                              timeout=200)
        return done.returncode, done.stdout, done.stderr

    @staticmethod
    def in_small_chunks(tool, *words):
        """The command that runs a tool with each recording as a chunk."""
        run = (f"import sys; from tools.zkdump_tools import fleet, zkr, {tool[:-3]} as tool; "
               f"fleet.LEAST_CHUNK = 1; sys.argv[0] = {tool!r}; sys.exit(zkr.tool(tool.main))")
        return [sys.executable, "-c", run, *map(str, words)]

    def test_number_of_workers(self):
        """As many files one after the other, one at a time, and three at once."""
        for tool in TOOLS_WITH_WORDS:
            wanted = self.output(*tool, *self.names)
            for jobs in (1, 3):
                self.assertEqual(self.output(*tool, "--jobs", jobs, self.fleet), wanted, tool)
            done = subprocess.run(self.in_small_chunks(*tool, "--jobs", 2, self.fleet), capture_output=True,
                                  check=False)
            self.assertEqual((done.returncode, done.stdout, done.stderr), wanted, tool)
        checked = [self.output("zkfleet.py", "check", "--jobs", jobs, self.fleet) for jobs in (1, 4)]
        self.assertEqual(checked[0], checked[1])

    def test_choices_and_list(self):
        listed = self.folder / "list"
        listed.write_text("".join(f"{name}\n" for name in self.names))
        for tool, choice in zip(TOOLS_WITH_WORDS, (("--path", "/"), ("--session", "0x100003780a60004"),
                                                   ("--slower", "0"),
                                                   ("--op", "create", "--op", "event"))):
            self.assertEqual(self.output(*tool, *choice, "--jobs", 2, f"@{listed}"),
                             self.output(*tool, *choice, *self.names))

    def test_parts_of_connections(self):
        """The recordings of connections that were not captured whole."""
        folder = self.folder / "lossy"
        folder.mkdir()
        names = compared.lossy_recordings(folder, self.names[:6])
        self.assertGreater(len(names), 10)
        for tool in TOOLS_WITH_WORDS:
            wanted = self.output(*tool, *names)
            self.assertEqual(wanted[::2], (1, b""))
            self.assertEqual(self.output(*tool, "--jobs", 3, folder), wanted, tool)

    def test_unread(self):
        """What can't be read is a row with its reason."""
        (self.fleet / "bad.zkr").write_bytes(b"ZKR2 no head")
        (self.fleet / "gone.zkr").symlink_to("nowhere")
        os.mkfifo(self.fleet / "pipe.zkr")
        shutil.copy(CAPTURES[0], self.fleet / "times.zkr")
        (self.fleet / "times.zkr.times").write_text("1\n")
        status, out, err = self.output("zkstat.py", "--json", "--jobs", 2, self.fleet)
        rows = {pathlib.Path(row["connection"]).name: row["ending"] for row in json.loads(out)["connections"]}
        self.assertEqual((status, err, len(rows)), (1, b"", len(self.names) + 4))
        reasons = {name: ending["reason"] for name, ending in rows.items() if ending["ending"] == "unread"}
        self.assertEqual(set(reasons), {"bad.zkr", "gone.zkr", "pipe.zkr", "times.zkr"})
        self.assertEqual(reasons["gone.zkr"], "No such file or directory")
        self.assertIn("BadLimits", reasons["bad.zkr"])
        self.assertEqual(reasons["pipe.zkr"], "this is a pipe, which may never end: name a file")
        self.assertIn("has 1 times", reasons["times.zkr"])
        for tool in TOOLS_WITH_WORDS[1:]:
            status, out, err = self.output(*tool, "--jobs", 2, self.fleet)
            self.assertEqual((status, err, out.count(b"unread")), (1, b"", 4), tool)
        status, out, _ = self.output("zkfleet.py", "check", "--json", self.fleet)
        counts = json.loads(out.splitlines()[-1])
        self.assertEqual((status, counts["recordings"], counts["endings"]),
                         (1, len(self.names) + 4, {"recording": 1, "refused": REFUSED, "unread": 2,
                                                   "whole": len(self.names) + 1 - REFUSED}))

    def test_what_is_unread_has_no_messages_without_times(self):
        """Of these listings, which have no times, the first is none from its second line on."""
        paths = self.folder / "bad.show", self.folder / "good.show"
        for path, more in zip(paths, ("no line\n", "")):
            path.write_text('C 1 sync path="/a"\n' + more)
        for tool in ("zkstat.py", "zkjson.py"):
            status, _, err = self.run_tool(tool, "--jobs", 1, "--slower", 1, *paths)
            self.assertRegex(err, f"^{tool}: connections with messages without times: 1;", tool)
            self.assertEqual(status, 1)

    def test_inputs_that_name_no_recording(self):
        """An empty folder or list isn't many good recordings, and a recording is no list of paths."""
        folder, names, copy = self.folder / "none", self.folder / "names", self.folder / "copy"
        folder.mkdir()
        names.write_text("\n\n")
        shutil.copy(self.names[0], copy)
        for tool, *words in (("zkfleet.py", "check"), *((*tool, "--jobs", 2) for tool in TOOLS_WITH_WORDS)):
            for path, wanted in ((folder, f"{folder} has no recordings: NAME.zkr in it or in folders below"),
                                 (f"@{names}", f"{names} is empty: a list has a path on each line"),
                                 (f"@{copy}",
                                  f"{copy} is a recording, and a list has a path on each line: leave out the @")):
                done = self.output(tool, *words, self.fleet, path)
                self.assertEqual(done, (1, b"", f"{tool}: {wanted}\n".encode()))
        copy.with_name("capture").write_bytes(b"\xd4\xc3\xb2\xa1\n\0")
        self.assertEqual(self.output("zkfleet.py", "check", self.folder / "capture"),
                         (1, b"",
                          f"zkfleet.py: {self.folder}/capture is a capture, or packed with gzip, and a list has a "
                          "path on each line: pcap2zkr.py makes recordings of a capture\n".encode()))
        for path in (copy, self.names[0]):
            self.assertIn(b"\n1 recordings, ", b"\n" + self.output("zkfleet.py", "check", path)[1])

    def test_each_recording_counts_once(self):
        wanted = self.output("zkfleet.py", "check", self.fleet)
        again = self.folder / "latest"
        again.symlink_to(self.fleet)
        self.assertEqual(self.output("zkfleet.py", "check", self.fleet, f"{self.folder}/./fleet", again, *self.names),
                         wanted)
        (self.fleet / "latest.zkr").symlink_to(self.names[-1])
        self.assertEqual(self.output("zkfleet.py", "check", self.fleet), wanted)

    def test_links_to_folders(self):
        """What a link leads to is read, once; and none leads round and round."""
        linked = self.folder / "linked"
        (linked / "a").mkdir(parents=True)
        for name, to in (("b", self.fleet), ("c", self.fleet / "1"), ("d", linked), ("a/e", linked), ("f", "f")):
            (linked / name).symlink_to(to)
        self.assertEqual(sorted(map(os.path.realpath, fleet.expanded([str(linked)]))), list(map(str, self.names)))

    def test_a_folder_that_cannot_be_read_is_a_row(self):
        locked, scandir = str(self.fleet / "1"), os.scandir

        def refusing(path):
            if path == locked:
                raise PermissionError(13, "Permission denied", path)
            return scandir(path)
        with unittest.mock.patch("os.scandir", refusing):
            found = fleet.expanded([str(self.fleet)])
        self.assertEqual(found, sorted([locked, *(str(name) for name in self.names if str(name.parent) != locked)]))
        self.assertEqual(fleet.attempt(lambda path: open(path, "rb"), locked), fleet.Unread("Is a directory"))

    def test_another_file_that_is_not_there(self):
        """As the program on a machine of a Dask scheduler: not the recording is missing."""
        self.assertEqual([fleet.attempt(lambda _, name=name: open(name, "rb"), "a.zkr")
                          for name in ("a.zkr", "/no/zkdump")],
                         [fleet.Unread("No such file or directory"),
                          fleet.Unread("/no/zkdump: No such file or directory")])

    def test_a_list_of_what_is_no_path(self):
        names = self.folder / "names"
        names.write_bytes(b"a\0b\n")
        status, out, err = self.output("zkfleet.py", "check", names)
        self.assertEqual((status, err), (1, b""))
        self.assertIn(b"unread: embedded null byte\n", out)

    def test_dead_worker(self):
        """A worker that dies has its recording done again."""
        for tool in TOOLS_WITH_WORDS:
            wanted = self.output(*tool, "--jobs", 1, self.fleet)
            running = subprocess.Popen(self.in_small_chunks(*tool, "--jobs", "2", self.fleet), stdout=subprocess.PIPE,
                                       stderr=subprocess.PIPE)
            killed = False
            while running.poll() is None and not killed:
                workers = [pid for pid in children(running.pid) if b"forkserver" in self.words(pid)][1:]
                if len(workers) > 1:
                    os.kill(workers[0], signal.SIGKILL)
                    killed = True
                time.sleep(0.01)
            out, err = running.communicate()
            err = err.replace(b"zkdump: write failed\n", b"")       # what the dead worker had begun
            self.assertEqual((killed, running.returncode, out, err), (True, *wanted), tool)

    def test_deadly_recording(self):
        """One that ends each of its workers is a row; those of its chunk are done."""
        for together in (False, True):
            found = list(fleet.results(argparse.Namespace(jobs=2, scheduler=None), deadly.__name__, ["x"],
                                       ["a", "b", "c", "d"], together))
            wanted = {path: (["x"], [path]) for path in "acd"}
            self.assertEqual(found,
                             [([path],
                               wanted.get(path, fleet.Unread("each process that read it died, maybe for lack of "
                                                             "memory"))) for path in "abcd"])

    def test_chunks(self):
        sizes = {"a": fleet.LEAST_CHUNK - 1, "b": 1, "c": 1, "d": fleet.LEAST_CHUNK + 5, "e": 0}
        self.assertEqual(fleet.chunks(list("abcde"), sizes), [["a", "b"], ["c"], ["d"], ["e"]])
        many = [str(number) for number in range(2 * fleet.MOST_IN_CHUNK + 1)]
        self.assertEqual([len(each) for each in fleet.chunks(many, dict.fromkeys(many, 0))], [1024, 1024, 1])

    @staticmethod
    def words(pid):
        try:
            return pathlib.Path(f"/proc/{pid}/cmdline").read_bytes()
        except OSError:
            return b""

    def test_words(self):
        for words in (("zkstat.py", "--jobs", "0", "a.zkr"), ("zkstat.py", "--jobs", "2"),
                      ("zkjson.py", "--jobs", "x", "a.zkr"),
                      ("zkstat.py", "--jobs", "2", "--times", "t", "a.zkr"), ("zkfleet.py", "list", "a.zkr"),
                      ("zkfleet.py",),
                      ("zkreport.py", "--jobs", "2", "-o", self.folder / "page", "a.zkr")):
            self.assert_bad_words(*words)

    def test_dask(self):
        """The workers of a Dask scheduler, one of which dies, print the same."""
        python = "/usr/bin/python3"
        if subprocess.run([python, "-c", "import distributed"], capture_output=True, check=False).returncode != 0:
            self.skipTest("Dask is not installed")
        for tool in TOOLS_WITH_WORDS[::2]:
            wanted = self.output(*tool, "--jobs", 1, self.fleet)
            done = subprocess.run([python, HERE / "cluster.py", TOOLS / tool[0], *tool[1:], self.fleet],
                                  capture_output=True,
                                  timeout=200, check=False)
            self.assertEqual((done.returncode, done.stdout), wanted[:2], done.stderr[-2000:])


if __name__ == "__main__":
    unittest.main()
