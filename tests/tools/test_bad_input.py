"""Tests of inputs that no tool may end on with a traceback: closed streams, folders, and bytes of no format."""

import os
import subprocess
import sys

from .support import TOOLS, TOP, ToolCase

LISTING = TOP / "captures" / "kazoo_auth.show"
RECORDING = TOP / "captures" / "kazoo_auth.zkr"
READERS = ("zkstat.py", "zkjson.py")


class BadInput(ToolCase):
    def shell(self, command, **more):
        """Runs a command in which TOOLS is the folder of the tools."""
        return subprocess.run(["sh", "-c", command.replace("TOOLS", f"{sys.executable} {TOOLS}")], capture_output=True,
                              timeout=60, check=False, **more)

    def assert_ends(self, command, status, told):
        """That a command ends with this status and one line on standard error."""
        done = self.shell(command)
        self.assertEqual((done.returncode, done.stderr.decode()), (status, told), command)

    def test_closed_streams(self):
        for tool in READERS:
            self.assert_ends(f"TOOLS/{tool} <&-", 3, f"{tool}: standard input is closed, or a folder\n")
            self.assert_ends(f"TOOLS/{tool} {LISTING} >&-", 3, f"{tool}: standard output is closed\n")
            self.assert_ends(f"TOOLS/{tool} {LISTING} 2>&- > {self.folder}/out", 0, "")
            self.assert_ends(f"TOOLS/{tool} nothing 2>&- > {self.folder}/out", 3, "")
            self.assertEqual((self.folder / "out").read_bytes(), b"")
            self.assert_ends(f"TOOLS/{tool} {LISTING} <&- > {self.folder}/out", 0, "")
        self.assert_ends("TOOLS/zkskip.py <&-", 3, "zkskip.py: standard input is closed, or a folder\n")
        whole = self.shell(f"TOOLS/zkskip.py < {RECORDING}").stdout
        self.assertEqual(self.shell(f"TOOLS/zkskip.py < {RECORDING} 2>&-").stdout, whole)
        self.assert_ends(f"TOOLS/zkskip.py < {RECORDING} >&-", 3, "zkskip.py: standard output is closed\n")

    def test_a_full_disk(self):
        for command in (f"zkstat.py {LISTING}", f"zkjson.py {LISTING}"):
            self.assert_ends(f"TOOLS/{command} > /dev/full", 3,
                             f"{command[:9]}: standard output: No space left on device\n")
        done = self.shell(f"TOOLS/zkskip.py < {RECORDING} > /dev/full")
        self.assertEqual((done.returncode, done.stderr.decode().splitlines()[-1]),
                         (3, "zkskip.py: standard output: No space left on device"))

    def test_folders(self):
        for tool in READERS:
            self.assert_ends(f"TOOLS/{tool} {self.folder}", 1,
                             f"{tool}: {self.folder} has no recordings: NAME.zkr in it or in folders below\n")
            self.assert_ends(f"TOOLS/{tool} --recording {self.folder} {LISTING}", 3,
                             f"{tool}: {self.folder}: Is a directory\n")
            self.assert_ends(f"TOOLS/{tool} --recording {RECORDING} --times {self.folder} {LISTING}", 3,
                             f"{tool}: {self.folder}: Is a directory\n")

    def test_pipes(self):
        for tool in READERS:
            self.assert_ends(f"cat {RECORDING} | TOOLS/{tool} /dev/stdin", 1, f"{tool}: /dev/stdin is a pipe, and a "
                             "recording is read more than once: name a file\n")
            self.assert_ends(f"cat {LISTING} | TOOLS/{tool} /dev/stdin", 0, "")
        for path in (RECORDING, LISTING):
            self.assert_ends(f"cat {path} | TOOLS/zkreport.py --text /dev/stdin", 1, "zkreport.py: /dev/stdin is a "
                             "pipe, and a report reads its files more than once: name a file, or - for a capture on "
                             "standard input\n")

    def test_a_folder_as_standard_input(self):
        """Of each tool as a user runs it, and of one that is installed, which is a link to it."""
        installed = self.folder / "zk stat"
        installed.symlink_to(TOOLS / "zkstat.py")
        commands = [path for path in sorted(TOOLS.glob("*.py")) if os.access(path, os.X_OK)] + [installed]
        reads = {"zkstat.py": (), "zkjson.py": (), "zkskip.py": (), "zk stat": (), "pcap2zkr.py": ("-", "r")}
        for path in commands:
            done = self.run_command(path, *reads.get(path.name, ()), stdin="/")
            with self.subTest(tool=path.name):
                told = done.stderr.decode()
                self.assertEqual((done.returncode, told.count("\n")), (3 if path.name in reads else 2, 1), told)
                if path.name in reads:
                    self.assertTrue(told.endswith(": standard input is closed, or a folder\n"), told)
                else:
                    self.assertNotIn("standard input", told)
        whole = self.run_command(TOOLS / "zkstat.py", LISTING, stdin="/")
        self.assertEqual((whole.returncode, whole.stderr), (0, b""))
        self.assertEqual(self.run_command(installed, stdin=LISTING).stdout,
                         self.run_raw("zkstat.py", stdin=LISTING.read_bytes()).stdout)
        name = "no $HOME \"file' *"
        self.assertEqual(self.run_command(installed, name, stdin=LISTING).stderr.decode(),
                         f"zk stat: {name}: No such file or directory\n")

    def run_command(self, path, *words, stdin):
        """Runs a tool as a user does: by its name."""
        number = os.open(stdin, os.O_RDONLY)
        try:
            return subprocess.run([path, *words], stdin=number, capture_output=True, timeout=60, check=False)
        finally:
            os.close(number)

    def test_names_that_a_terminal_obeys(self):
        name = b"no\x1b[2J\n"
        for tool in READERS:
            done = subprocess.run([sys.executable, TOOLS / tool, name], capture_output=True, check=False)
            self.assertEqual((done.returncode, done.stderr.decode()),
                             (3, f"{tool}: no\\x1b[2J\\n: No such file or directory\n"))

    def test_any_bytes(self):
        for data in (b"\0", b"\xff\xfe", b"{", b"C", b"\n\n", b"\x1b[2J", b"ZKR1", b"ZKR2",
                     b"\xd4\xc3\xb2\xa1" + bytes(20),
                     b"\x1f\x8b\x08", b"C " + b"1" * 10_000 + b" ping\n",
                     b"C 1 exists path=\"/" + b"\\" * 1001 + b"\" watch=1\n",
                     b'C 1 setData path="/a" blob=#' + b"6" * 70_001 + b" version=1\n",
                     b'C 1 exists path="/' + b"\\c3" * 70_001 + b'" watch=1\n',
                     b'C 1 exists path="/\\zz" watch=1\n', b"C connect session=" + b"9" * 5000 + b"\n",
                     b". whole unanswered=" + b"9" * 5000 + b"\n"):
            for tool in READERS:
                status, out, err = self.run_tool(tool, stdin=data)
                with self.subTest(tool=tool, data=data[:20]):
                    self.assertIn((status, err.count("\n")), ((0, 0), (1, 1), (2, 1)), err)
                    self.assertTrue(err[:-1].isprintable() and "Error" not in err, err)

    def test_a_capture_in_place_of_a_recording(self):
        """The line says which tool makes recordings of it."""
        for data in (b"\xd4\xc3\xb2\xa1" + bytes(20), b"\x0a\x0d\x0d\x0a" + bytes(8), b"\x1f\x8b\x08\0"):
            (self.folder / "c.pcap").write_bytes(data)
            for tool in ("zkstat.py", "zkjson.py"):
                told = "is a capture, or packed with gzip: pcap2zkr.py makes recordings of a capture, and gunzip " \
                       "unpacks other files\n"
                self.assertEqual(self.run_inside(tool, self.folder / "c.pcap"),
                                 (1, "", f"{tool}: {self.folder}/c.pcap {told}"))

    def test_output_that_is_not_utf_8(self):
        name = self.folder / "größe.show"
        name.write_bytes(LISTING.read_bytes())
        environment = {**os.environ, "PYTHONIOENCODING": "ascii", "PYTHONUTF8": "0", "LC_ALL": "C"}
        for tool in READERS:
            done = self.shell(f"TOOLS/{tool} '{name}'", env=environment)
            self.assertEqual((done.returncode, done.stderr), (0, b""))
            self.assertTrue(done.stdout)
