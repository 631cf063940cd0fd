"""Tests of record.py and zkwatch.py where their lines are not read, or the program that zkwatch runs fails."""

import fcntl
import os
import re
import socket
import subprocess
import sys
import time

from tools.zkdump_tools import columns, zkr
from .proxied import SECONDS, STAND_IN, TroubleCase
from .support import TOOLS


class Output(TroubleCase):
    def unread_pipe(self):
        """A path that is a pipe of 4,096 bytes, which nobody reads."""
        end, other = os.pipe()
        fcntl.fcntl(end, columns.F_SETPIPE_SZ, 4096)
        self.addCleanup(os.close, end)
        self.addCleanup(os.close, other)
        return f"/proc/{os.getpid()}/fd/{other}"

    def test_record_goes_on_where_its_lines_are_not_read(self):
        port = self.begin("record.py", out=self.unread_pipe())
        for _ in range(100):
            self.ask(self.client(port))

    def test_zkwatch_goes_on_where_its_lines_are_not_read(self):
        port = self.begin("zkwatch.py", out=self.unread_pipe())
        clients = [self.client(port) for _ in range(3)]
        for _ in range(15):
            for client in clients:
                self.ask(client, b"\0\0\0\1a" * 200)
            time.sleep(0.05)
        self.assert_pace(clients[0])

    def test_a_full_disk_for_lines(self):
        for tool in ("record.py", "zkwatch.py"):
            with self.subTest(tool=tool):
                port = self.begin(tool, out="/dev/full")
                for _ in range(3):
                    client = self.client(port)
                    self.assert_pace(client)
                    client.shutdown(socket.SHUT_WR)
                    self.assertEqual(client.recv(1), b"")
                told = "standard output: No space left on device; lines are lost, and the connections go on"
                self.assertEqual([line.partition(": ")[2] for line in self.complaints(1)], [told])

    def test_closed_standard_streams(self):
        tool = TOOLS / "record.py"
        self.run_proxy(["sh", "-c",
                        f"exec {sys.executable} {tool} 0 127.0.0.1:{self.echo.port} {self.folder}/r <&- >&-"],
                       None)
        self.assert_pace(self.client(self.port()))
        for tool in ("zkwatch.py --zkdump /bin/echo", "zkplay.py"):
            done = subprocess.run(["sh", "-c", f"{sys.executable} {TOOLS}/{tool} 0 localhost:1 >&-"],
                                  capture_output=True, text=True, check=False)
            self.assertEqual((done.returncode, done.stderr.count("\n")), (3, 1), done.stderr)
            self.assertIn("standard output is closed", done.stderr)


class Programs(TroubleCase):
    def watched(self, count):
        """The lines that zkwatch has printed of its connections, without their times and what replies took, once there
        are `count` lines."""
        return [re.sub(r" ms=[\d.]+$", "", line.partition(" ")[2]) for line in self.lines(count + 1)[1:]]

    def test_a_program_that_does_not_run_is_reported_at_once(self):
        junk = self.folder / "junk"
        junk.write_bytes(b"\x7fELF junk")
        junk.chmod(0o700)
        for program in ("/bin/false", "/bin/true", "/bin/cat", junk, self.folder):
            self.assert_bad_words("zkwatch.py", "--zkdump", program, "0", "localhost:1")

    def test_a_program_that_goes_or_fails_ends_no_connection(self):
        port = self.begin("zkwatch.py")
        self.stand_in.write_text("#!/bin/sh\nexit 9\n")
        first = self.client(port)
        self.assert_pace(first)
        self.assertEqual(self.watched(2)[1],
                         "#1 zkdump show has ended with status 9: what follows is passed on, and not read")
        self.stand_in.unlink()
        self.assert_pace(self.client(port))
        self.assertRegex(self.watched(4)[3],
                         "^#2 .*: No such file or directory: what follows is passed on, and not read$")
        self.assert_pace(first)

    def test_after_a_refusal(self):
        client = self.client(self.begin("zkwatch.py"))
        self.ask(client, b"\0\0\0\0")
        self.assertEqual(self.watched(3)[1:], ["#1 . refused", "#1 what follows is passed on, and not read"])
        self.assert_pace(client)

    def test_lines_of_connections_that_are_over_come_before_the_end(self):
        port = self.begin("zkwatch.py")
        self.stand_in.write_text(STAND_IN.replace("import sys\n", "import sys, time\ntime.sleep(0.5)\n", 1))
        client = self.client(port)
        self.ask(client)
        client.close()
        time.sleep(0.1)
        self.tool.terminate()
        self.assertEqual(self.tool.wait(SECONDS), 0)
        self.assertEqual([line.partition(" ")[2] for line in self.watched(4)[1:]],
                         ["C 0 2", "S 0 2", f". whole show --profile {zkr.NEWEST} --limit 16777216"])

    def test_a_program_that_does_not_read(self):
        program = self.folder / "sleeper"
        program.write_text("#!/bin/sh\necho '. whole'\nexec sleep 60\n")
        program.chmod(0o700)
        port = self.begin("zkwatch.py", program=program)
        client, other = self.client(port), self.client(port)
        for _ in range(40):
            self.ask(client, (1 << 20).to_bytes(4, "big") + bytes(1 << 20))
            self.assert_pace(other, rounds=3)
        self.assertRegex(self.watched(5)[-1],
                         "^#1 .* bytes of it wait to be read: what follows is passed on, and not read$")

    def test_the_profile_and_the_limit(self):
        client = self.client(self.begin("zkwatch.py", "--profile", "3.5", "--limit", "1000", "--once"))
        self.ask(client)
        client.close()
        self.assertEqual(self.tool.wait(SECONDS), 0)
        self.assertEqual(self.watched(4)[-1], "#1 . whole show --profile 3.5 --limit 1000")
        for words in (("--profile", "3.6"), ("--limit", "1")):
            self.assert_bad_words("zkwatch.py", "--zkdump", self.stand_in, *words, "0", "localhost:1")
